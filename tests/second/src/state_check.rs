//! Random circuits run on the tableau and on the state vector side by side.
//! After every operation the rows are properly paired and every stabilizer
//! row with its sign leaves the state as it is; every measurement is random
//! or fixed on both, with the same value; every MR leaves its qubit at 0; and
//! the record of the whole run says the same. Then some readouts of the same
//! circuit are stated, and asked of both how likely they are.

use crate::answers;
use crate::circuit::{measured, Operation};
use crate::make;
use crate::measure::is_one;
use crate::probability_state;
use crate::protocol::lent;
use crate::random::Random;
use crate::record;
use crate::state::State;
use crate::tableau::Tableau;

const MOST_QUBITS: usize = 6;

#[derive(Default)]
struct Counts {
    operations: usize,
    rows: usize,
    random: usize,
    fixed: usize,
    resets: usize,
    below_zero: usize,
    stated: probability_state::Counts,
}

struct Pair {
    tableau: Tableau,
    state: State,
    outcomes: Vec<u8>,
}

impl Pair {
    /// Measure a on both, and answer whether it is random, and the outcome;
    /// an error says where they differ.
    fn measure(&mut self, a: usize, coin: u8) -> Result<(bool, bool), String> {
        let [zero, one] = self.state.weights(a);
        if zero + one != self.state.whole() {
            return Err("the state's length is not one".to_string());
        }
        let found = self.tableau.random_row(a);
        let Some(p) = found else {
            if zero != 0 && one != 0 {
                return Err(format!("qubit {a} is fixed by the rows, random by the state"));
            }
            if self.tableau.fixed_value(a) != (zero == 0) {
                return Err(format!("qubit {a} has another value by the rows than by the state"));
            }
            self.outcomes.push(if zero == 0 { b'1' } else { b'0' });
            return Ok((false, zero == 0));
        };
        if zero != one {
            return Err(format!("qubit {a} is random by the rows, not even by the state"));
        }
        self.state.project(a, is_one(coin));
        self.tableau = self.tableau.clone().collapse(a, p, is_one(coin));
        self.outcomes.push(if is_one(coin) { b'3' } else { b'2' });
        Ok((true, is_one(coin)))
    }

    /// What MR a does on both after a was measured with this outcome.
    fn reset(&mut self, a: usize, outcome: bool) -> Result<(), String> {
        if outcome {
            self.state.gate(Operation::X(a));
        }
        self.tableau = self.tableau.clone().reset(Operation::MR(a), outcome);
        if self.state.weights(a)[1] != 0 {
            return Err(format!("MR {a} does not leave 0"));
        }
        Ok(())
    }

    /// How many products of this measurement have powers of i that sum to
    /// less than zero.
    fn sums_below_zero(&self, a: usize) -> usize {
        let rows = &self.tableau.rows;
        let Some(p) = self.tableau.random_row(a) else {
            return 0;
        };
        let multiplied = self.tableau.multiplied(a, p);
        multiplied.iter().filter(|row| rows[**row].power_sum(&rows[p]) < 0).count()
    }

    fn compare_rows(&self) -> Result<(), String> {
        if let Some(lower) = self.tableau.first_wrong_pair() {
            return Err(format!("row {lower} is not properly paired"));
        }
        for row in &self.tableau.rows[self.tableau.n..] {
            if !self.state.is_left_by(row) {
                let text = String::from_utf8_lossy(&row.text()).into_owned();
                return Err(format!("{text} does not leave the state as it is"));
            }
        }
        Ok(())
    }
}

fn side_by_side(
    n: usize,
    operations: &[Operation],
    coins: &[u8],
    counts: &mut Counts,
) -> Result<Pair, String> {
    let mut pair =
        Pair { tableau: Tableau::start(n), state: State::start(n), outcomes: Vec::new() };
    let mut rest = coins.iter();
    for operation in operations {
        if let Some(a) = measured(*operation) {
            counts.below_zero += pair.sums_below_zero(a);
            let ahead = rest.as_slice().first().copied().unwrap_or(0);
            let (random, outcome) = pair.measure(a, ahead)?;
            if random {
                rest.next();
                counts.random += 1;
            } else {
                counts.fixed += 1;
            }
            if matches!(operation, Operation::MR(_)) {
                pair.reset(a, outcome)?;
                counts.resets += 1;
            }
        } else {
            pair.state.gate(*operation);
            pair.tableau = pair.tableau.gate(*operation);
        }
        pair.compare_rows()?;
        counts.operations += 1;
        counts.rows += n;
    }
    Ok(pair)
}

fn one_circuit(random: &mut Random, counts: &mut Counts) -> Result<(), String> {
    let n = random.between(1, MOST_QUBITS);
    let length = random.below(80);
    let percent = *random.one_of(&[5, 15, 30]);
    let mut operations = Vec::new();
    if random.chance(75) {
        operations = make::spread(random, n);
    }
    operations.extend(make::operations(random, n, length, percent));
    let coins = random.bytes(operations.len());
    let text = make::text(n, &operations);
    let shown = String::from_utf8_lossy(&text).replace('\n', "; ");
    let pair = side_by_side(n, &operations, &coins, counts)
        .map_err(|what| format!("{what}, in: {shown}"))?;
    let expected = record::write(&pair.outcomes, &pair.tableau);
    let answer = answers::run(&text, &coins, lent(expected.len()));
    if answer.number != 0 || answer.buffer != Some(expected) {
        return Err(format!("the run's record says otherwise, in: {shown}"));
    }
    probability_state::check(random, n, &operations, &pair.outcomes, &mut counts.stated)
        .map_err(|what| format!("{what}, in: {shown}"))
}

pub fn check(seed: u64, count: u64) -> Result<String, String> {
    let mut random = Random::new(seed);
    let mut counts = Counts::default();
    for _ in 0..count {
        one_circuit(&mut random, &mut counts)?;
    }
    let Counts { operations, rows, random: coins, fixed, resets, below_zero, stated } = counts;
    Ok([
        format!("state vector: {count} circuits on up to {MOST_QUBITS} qubits"),
        format!("{operations} operations, {rows} stabilizer rows"),
        format!("{coins} random and {fixed} fixed measurements, {resets} of them MR"),
        format!("{below_zero} power sums below zero"),
        format!("{} readouts possible and {} impossible", stated.possible, stated.impossible),
        "no difference".to_string(),
    ]
    .join(", "))
}
