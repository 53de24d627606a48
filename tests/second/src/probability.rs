//! The probability of a stated readout, as document 02 says under request h:
//! a run that takes the stated values for its coins, the refusals 15, 10 and
//! 14, and a double that starts at one and is halved by arithmetic once for
//! each random measurement. No field of its bits is written here.

use crate::circuit::{measured, Circuit};
use crate::refusal::Refusal;
use crate::tableau::Tableau;

pub const MOST_RANDOM: usize = 1022;

pub enum Likelihood {
    Possible { random: usize, probability: f64 },
    Impossible { line: usize },
}

/// A measurement of the run: its line, whether it was random, and whether
/// the stated value is its outcome, which it always is of a random one.
pub struct Passed {
    pub line: usize,
    pub random: bool,
    pub agrees: bool,
}

/// The stated values, by the refusals 15 and 10.
pub fn values(stated: &[u8], measurements: usize) -> Result<Vec<bool>, Refusal> {
    if stated.len() != measurements {
        return Err(Refusal::at(15, 0));
    }
    let mut values = Vec::new();
    for (place, byte) in stated.iter().enumerate() {
        match byte {
            b'0' => values.push(false),
            b'1' => values.push(true),
            _ => return Err(Refusal::at(10, place)),
        }
    }
    Ok(values)
}

/// All measurements of the run, a value for each. After a fixed one that
/// disagrees the run goes on with its own value: the answer is known by then,
/// and `coverage` counts how many more disagree.
pub fn follow(circuit: &Circuit, values: &[bool]) -> Vec<Passed> {
    let mut tableau = Tableau::start(circuit.n);
    let mut passed: Vec<Passed> = Vec::new();
    for (index, operation) in circuit.operations.iter().enumerate() {
        let Some(a) = measured(*operation) else {
            tableau = tableau.gate(*operation);
            continue;
        };
        let value = values[passed.len()];
        let found = tableau.random_row(a);
        let outcome = match found {
            Some(_) => value,
            None => tableau.fixed_value(a),
        };
        if let Some(p) = found {
            tableau = tableau.collapse(a, p, outcome);
        }
        tableau = tableau.reset(*operation, outcome);
        let (line, random) = (index + 2, found.is_some());
        passed.push(Passed { line, random, agrees: outcome == value });
    }
    passed
}

pub fn likelihood(circuit: &Circuit, stated: &[u8]) -> Result<Likelihood, Refusal> {
    let passed = follow(circuit, &values(stated, circuit.measurements())?);
    if let Some(wrong) = passed.iter().find(|one| !one.agrees) {
        return Ok(Likelihood::Impossible { line: wrong.line });
    }
    let (mut random, mut probability) = (0, 1.0);
    for _ in passed.iter().filter(|one| one.random) {
        random += 1;
        probability /= 2.0;
    }
    if random > MOST_RANDOM {
        return Err(Refusal::at(14, 0));
    }
    Ok(Likelihood::Possible { random, probability })
}
