//! Holds a harness's answers to the cases of `choices_cases` against the
//! statements of document 02, request m. Every record that a run wrote, and
//! every damaged one that was read, is asked about all choices of its rows.
//! The outcome of `M a` behind a run is held to the products of the record
//! before it; on a record that was read it is the one that the measurement of
//! document 01 gives on these rows. Of damaged records that were refused it
//! is counted how many have dependent rows or minus the identity as a product,
//! of fixed outcomes how many signs hang on powers of i. Prints the counts; each has to be 20 or more.

use crate::choices::{self, Said};
use crate::circuit::{self, Circuit};
use crate::differ;
use crate::measure::outcome_byte;
use crate::protocol::{unhex, Case};
use crate::record::{self, Record};
use crate::tableau::Tableau;
use std::collections::BTreeMap;
use std::io;

const LEAST: u64 = 20;
const SHOWN: u64 = 5;
const RUNS: [&str; 4] = ["runs", "prefixes", "records", "choices"];
const MEASURED: [&str; 4] = ["fixed at 0", "fixed at 1", "random", "fixed by powers of i"];
const READ: [&str; 4] = ["accepted", "fixed at 0 there", "fixed at 1 there", "random there"];
const REFUSED: [&str; 3] = ["refused", "dependent rows", "minus the identity"];
/// What can fail: the answer is none, or one of the three statements.
const FAILING: [&str; 4] = ["answers", "statement 1", "statement 2", "statement 3"];

/// A prefix, what its record's rows say, and the qubit to be measured next.
struct Prefix {
    text: Vec<u8>,
    coins: Vec<u8>,
    n: usize,
    said: Option<Said>,
    next: usize,
}

#[derive(Default)]
struct Judge {
    counts: BTreeMap<&'static str, u64>,
    failed: [u64; 4],
    prefix: Option<Prefix>,
}

/// The place in `MEASURED` of an outcome character.
fn kind(outcome: u8) -> usize {
    match outcome {
        b'0' => 0,
        b'1' => 1,
        _ => 2,
    }
}

/// The record in the buffer that an accepted run's answer ends with, the whole
/// buffer and nothing else, its rows paired or not.
fn written(circuit: &Circuit, answer: &str) -> Option<Record> {
    let words: Vec<&str> = answer.split(' ').collect();
    let ["0", _, _, _, _, _, _, buffer] = words.as_slice() else {
        return None;
    };
    let bytes = unhex(buffer)?;
    let found = record::unpaired(&bytes).ok()?;
    let whole = found.length == bytes.len() && found.tableau.n == circuit.n;
    (whole && found.outcomes.len() == circuit.measurements()).then_some(found)
}

impl Judge {
    fn add(&mut self, what: &'static str, count: u64) {
        *self.counts.entry(what).or_default() += count;
    }

    fn fail(&mut self, which: usize, how: &str, case: &str) {
        self.failed[which] += 1;
        if self.failed[which] <= SHOWN {
            println!("{}: {how}, in {}", FAILING[which], differ::shortened(case));
        }
    }

    /// Asks every choice of the rows; the statements that fail are counted.
    fn ask(&mut self, tableau: &Tableau, case: &str) -> Said {
        let said = choices::ask(tableau);
        for (which, how) in said.failing(tableau) {
            self.fail(which, &how, case);
        }
        self.add("records", 1);
        self.add("choices", 2u64.pow(2 * tableau.n as u32) + 2u64.pow(tableau.n as u32));
        said
    }

    fn outcome(&mut self, said: &Said, a: usize, outcome: u8, case: &str) {
        if !said.gives(a, outcome) {
            let how = format!("M {a} has outcome {}, its Z otherwise", outcome as char);
            self.fail(3, &how, case);
        }
    }

    /// A run: either the prefix before has a qubit left to be measured, or a
    /// new prefix comes. False where it is neither.
    fn run(&mut self, text: Vec<u8>, coins: Vec<u8>, answer: &str, case: &str) -> bool {
        let Ok(circuit) = circuit::parse(&text) else {
            return false;
        };
        let found = written(&circuit, answer);
        if found.is_none() {
            self.fail(0, "no record of the run", case);
        }
        let said = found.as_ref().map(|found| self.ask(&found.tableau, case));
        if let Some(mut prefix) = self.prefix.take().filter(|prefix| prefix.next < prefix.n) {
            let line = format!("M {}\n", prefix.next).into_bytes();
            let last = found.and_then(|found| found.outcomes.last().copied());
            self.measured(&prefix, last, case);
            let follows = text == [prefix.text.clone(), line].concat() && coins == prefix.coins;
            prefix.next += 1;
            self.prefix = Some(prefix);
            return follows;
        }
        self.add("runs", u64::from(circuit.operations.is_empty()));
        self.add("prefixes", 1);
        self.prefix = Some(Prefix { text, coins, n: circuit.n, said, next: 0 });
        true
    }

    /// The last outcome of the run that measures the prefix's next qubit.
    fn measured(&mut self, prefix: &Prefix, last: Option<u8>, case: &str) {
        if let (Some(said), Some(last)) = (&prefix.said, last) {
            self.outcome(said, prefix.next, last, case);
            self.add(MEASURED[kind(last)], 1);
            self.add(MEASURED[3], u64::from(said.by_power[prefix.next]));
        }
    }

    fn read(&mut self, bytes: &[u8], answer: &str, case: &str) -> bool {
        let Ok(Record { tableau, .. }) = record::unpaired(bytes) else {
            return false;
        };
        match answer.split(' ').next() {
            Some("0") => self.accepted(&tableau, case),
            Some("11") => {
                let said = choices::ask(&tableau);
                self.add("refused", 1);
                self.add("dependent rows", u64::from(said.dependent.is_some()));
                self.add("minus the identity", u64::from(said.minus_identity.is_some()));
            }
            _ => self.fail(0, "neither read nor refused with 11", case),
        }
        true
    }

    fn accepted(&mut self, tableau: &Tableau, case: &str) {
        let said = self.ask(tableau, case);
        self.add("accepted", 1);
        for a in 0..tableau.n {
            let random = tableau.random_row(a).is_some();
            let outcome = outcome_byte(random, !random && tableau.fixed_value(a));
            self.outcome(&said, a, outcome, case);
            self.add(READ[1 + kind(outcome)], 1);
        }
    }

    fn line(&self, title: &str, names: &[&'static str]) -> String {
        let mut line = format!("{title:<12}");
        for name in names {
            line.push_str(&format!("  {name}: {}", self.times(name)));
        }
        line
    }

    fn times(&self, name: &str) -> u64 {
        self.counts.get(name).copied().unwrap_or(0)
    }

    /// Prints the counts, what lacks, and last whether the statements hold.
    fn summary(&self) -> bool {
        println!("{}", self.line("runs", &RUNS));
        println!("{}", self.line("measured", &MEASURED));
        println!("{}", self.line("damaged", &[&READ[..], &REFUSED[..]].concat()));
        let names = [&RUNS[..], &MEASURED, &READ, &REFUSED].concat();
        let lacking: Vec<_> = names.iter().filter(|name| self.times(name) < LEAST).collect();
        for name in &lacking {
            println!("not enough: {name}, {} times", self.times(name));
        }
        if self.failed == [0; 4] {
            println!("request m: every statement holds");
            return lacking.is_empty();
        }
        let failed = FAILING.iter().zip(self.failed).filter(|(_, count)| *count > 0);
        let failed: Vec<String> = failed.map(|(name, count)| format!("{name} {count}")).collect();
        println!("request m: fails, {}", failed.join(", "));
        false
    }
}

pub fn print(cases: &str, answers: &str) -> io::Result<bool> {
    let mut judge = Judge::default();
    let mut answers = differ::open(answers)?;
    for (index, line) in differ::open(cases)?.enumerate() {
        let (line, answer) = (line?, differ::next(&mut answers)?);
        let known = match Case::from_line(&line) {
            Some(Case::Run(text, coins, _)) => judge.run(text, coins, &answer, &line),
            Some(Case::Read(bytes)) => judge.read(&bytes, &answer, &line),
            _ => false,
        };
        if !known {
            let message = format!("line {} is no case of the choices", index + 1);
            return Err(io::Error::new(io::ErrorKind::InvalidData, message));
        }
    }
    if answers.next().is_some() {
        judge.fail(0, "an answer without a case", "the last lines");
    }
    Ok(judge.summary())
}
