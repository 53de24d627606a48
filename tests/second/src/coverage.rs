//! What a list of cases covers: how often each function was called, each
//! refusal number answered, each operation run, each kind of measurement met,
//! of M and of MR, and each of the sizes that must come accepted; how often a
//! qubit was measured again after an MR; how often two rows were multiplied
//! whose powers of i sum to less than zero, where a remainder with a sign
//! would go wrong; how often, on more than 64 qubits, an answer hung on what
//! `seam` names; and how often a stated readout was possible, impossible or
//! refused. Says what is lacking.

use crate::answers::Answer;
use crate::circuit::{self, measured, Operation};
use crate::probability_cases::{self, IMPOSSIBLE, POSSIBLE, REFUSED};
use crate::protocol::Case;
use crate::record;
use crate::row::Row;
use crate::seam::{self, BEYOND, SEAM, SIZES};
use crate::tableau::Tableau;
use std::collections::{BTreeMap, BTreeSet};

const LEAST: u64 = 20;
const FUNCTIONS: [&str; 7] = ["check", "run", "read", "copy", "product", "same", "probability"];
const MOST_REFUSAL: u64 = 15;
const RAN: [&str; 9] = ["H", "S", "X", "Y", "Z", "CX", "CZ", "M", "MR"];
const MEASURED: [&str; 4] = ["M fixed 0", "M fixed 1", "M random 0", "M random 1"];
const RESET: [&str; 4] = ["MR fixed 0", "MR fixed 1", "MR random 0", "MR random 1"];
const AGAIN: [&str; 2] = ["M after MR", "MR after MR"];
const SUMS: [&str; 2] = ["below zero", "below zero and a minus"];

#[derive(Default)]
pub struct Coverage {
    cases: u64,
    refusals: BTreeMap<u64, u64>,
    seen: BTreeMap<String, u64>,
}

fn name(operation: Operation) -> &'static str {
    match operation {
        Operation::H(_) => "H",
        Operation::S(_) => "S",
        Operation::X(_) => "X",
        Operation::Y(_) => "Y",
        Operation::Z(_) => "Z",
        Operation::CX(..) => "CX",
        Operation::CZ(..) => "CZ",
        Operation::M(_) => "M",
        Operation::MR(_) => "MR",
    }
}

fn size(n: usize) -> String {
    format!("n = {n}")
}

impl Coverage {
    fn add(&mut self, what: &str, count: u64) {
        *self.seen.entry(what.to_string()).or_default() += count;
    }

    pub fn count(&mut self, case: &Case) {
        let answer = case.answer();
        self.cases += 1;
        self.add(case.name(), 1);
        *self.refusals.entry(answer.number).or_default() += 1;
        match case {
            Case::Read(bytes) if answer.number == 11 => self.count_pair(bytes, &answer),
            Case::Probability(text, stated) => {
                for kind in probability_cases::kinds(text, stated, &answer) {
                    self.add(kind, 1);
                }
            }
            _ if answer.number != 0 => {}
            Case::Run(text, ..) => self.count_run(text, &answer),
            Case::Product(first, second, _) => {
                if let (Ok(one), Ok(two)) = (Row::from_text(first), Row::from_text(second)) {
                    self.count_sum(&one, &two);
                }
            }
            Case::Read(_) => self.add(&size(answer.places[2] as usize), 1),
            _ => {}
        }
    }

    fn count_pair(&mut self, bytes: &[u8], answer: &Answer) {
        let wide = record::trailer(bytes).is_some_and(|(n, _, _)| n > SEAM);
        if wide && answer.places[0] >= SEAM as u64 {
            self.add(BEYOND[1], 1);
        }
    }

    fn count_run(&mut self, text: &[u8], answer: &Answer) {
        let (Ok(circuit), Some(record)) = (circuit::parse(text), &answer.buffer) else {
            return;
        };
        self.add(&size(circuit.n), 1);
        self.count_again(&circuit.operations);
        let mut tableau = Tableau::start(circuit.n);
        let mut outcomes = record.iter();
        for operation in circuit.operations {
            self.add(name(operation), 1);
            tableau = match measured(operation) {
                None => tableau.gate(operation),
                Some(a) => match outcomes.next() {
                    Some(outcome) => self.measure(tableau, operation, a, *outcome),
                    None => return,
                },
            };
        }
    }

    fn count_again(&mut self, operations: &[Operation]) {
        let mut before = BTreeSet::new();
        for operation in operations {
            match operation {
                Operation::M(a) if before.contains(a) => self.add(AGAIN[0], 1),
                Operation::MR(a) if !before.insert(*a) => self.add(AGAIN[1], 1),
                _ => {}
            }
        }
    }

    /// A measurement of a with its outcome, its kind and its products counted.
    fn measure(
        &mut self,
        mut tableau: Tableau,
        operation: Operation,
        a: usize,
        outcome: u8,
    ) -> Tableau {
        let kind = (outcome - b'0') as usize;
        let value = kind % 2 == 1;
        let kinds = if operation == Operation::MR(a) { RESET } else { MEASURED };
        self.add(kinds[kind], 1);
        for kind in seam::kinds(&tableau, a) {
            self.add(kind, 1);
        }
        if let Some(p) = tableau.random_row(a) {
            for row in tableau.multiplied(a, p) {
                self.count_sum(&tableau.rows[row], &tableau.rows[p]);
            }
            tableau = tableau.collapse(a, p, value);
        }
        tableau.reset(operation, value)
    }

    fn count_sum(&mut self, one: &Row, two: &Row) {
        let sum = one.power_sum(two);
        if seam::power_beyond(one, two) {
            self.add(BEYOND[0], 1);
        }
        if sum < 0 {
            self.add(SUMS[0], 1);
        }
        if sum < 0 && sum.rem_euclid(4) == 2 {
            self.add(SUMS[1], 1);
        }
    }

    fn times(&self, what: &str) -> u64 {
        self.seen.get(what).copied().unwrap_or(0)
    }

    fn refused(&self, number: u64) -> u64 {
        self.refusals.get(&number).copied().unwrap_or(0)
    }

    fn line(&self, title: &str, names: &[&str]) -> String {
        let mut line = format!("{title:<12}");
        for name in names {
            line.push_str(&format!("  {name}: {}", self.times(name)));
        }
        line + "\n"
    }

    /// What has to come at least `LEAST` times.
    fn often() -> [(&'static str, &'static [&'static str]); 9] {
        [
            ("reset", &RESET),
            ("again", &AGAIN),
            ("power sums", &SUMS),
            ("wide, random", &seam::RANDOM),
            ("wide, fixed", &seam::FIXED),
            ("wide", &BEYOND),
            ("possible", &POSSIBLE),
            ("impossible", &IMPOSSIBLE),
            ("readout", &REFUSED),
        ]
    }

    pub fn table(&self) -> String {
        let mut table = format!("cases         {}, accepted {}\n", self.cases, self.refused(0));
        table.push_str(&self.line("functions", &FUNCTIONS));
        table.push_str("refusals    ");
        for number in 1..=MOST_REFUSAL {
            table.push_str(&format!("  {number}: {}", self.refused(number)));
        }
        table.push('\n');
        table.push_str(&self.line("operations", &RAN));
        table.push_str(&self.line("measured", &MEASURED));
        for (title, names) in Coverage::often() {
            table.push_str(&self.line(title, names));
        }
        let sizes = SIZES.map(size);
        table.push_str(&self.line("sizes", &sizes.each_ref().map(|name| name.as_str())));
        table
    }

    pub fn lacking(&self) -> Vec<String> {
        let mut lacking = Vec::new();
        for number in 1..=MOST_REFUSAL {
            if self.refused(number) < LEAST {
                lacking.push(format!("refusal {number}, {} times", self.refused(number)));
            }
        }
        for (title, names) in Coverage::often() {
            for name in names {
                if self.times(name) < LEAST {
                    lacking.push(format!("{title} {name}, {} times", self.times(name)));
                }
            }
        }
        let sizes = SIZES.map(size);
        let once = [&FUNCTIONS[..], &RAN, &MEASURED].concat();
        for name in once.into_iter().chain(sizes.iter().map(|name| name.as_str())) {
            if self.times(name) == 0 {
                lacking.push(format!("{name}, never"));
            }
        }
        lacking
    }
}
