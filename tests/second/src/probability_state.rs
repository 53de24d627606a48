//! The probability of a stated readout beside the state vector. Of the state
//! each measurement keeps the part with the stated value, as long or as short
//! as it is. What is left at the end has the probability for its squared
//! length, one half to the power k exactly; an impossible readout leaves
//! nothing, and at the line that is answered.

use crate::answers;
use crate::circuit::{measured, Operation};
use crate::make;
use crate::probability_cases::{characters, flip, readout};
use crate::random::Random;
use crate::state::State;

#[derive(Default)]
pub struct Counts {
    pub possible: usize,
    pub impossible: usize,
}

/// What is left of the state, or the line at which nothing is.
fn left(n: usize, operations: &[Operation], stated: &[u8]) -> Result<State, usize> {
    let mut state = State::start(n);
    let mut rest = stated.iter();
    for (index, operation) in operations.iter().enumerate() {
        let Some(a) = measured(*operation) else {
            state.gate(*operation);
            continue;
        };
        let value = rest.next() == Some(&b'1');
        state.keep(a, value);
        if state.squared_length().0 == 0 {
            return Err(index + 2);
        }
        if value && *operation == Operation::MR(a) {
            state.gate(Operation::X(a));
        }
    }
    Ok(state)
}

/// The places of the answer, by the state alone.
fn places(left: Result<State, usize>, counts: &mut Counts) -> Result<Vec<u64>, String> {
    let state = match left {
        Err(line) => {
            counts.impossible += 1;
            return Ok(vec![0, 0, line as u64, 0]);
        }
        Ok(state) => state,
    };
    let (whole, halvings) = state.squared_length();
    let doublings = whole.trailing_zeros();
    if whole != 2i64.pow(doublings) || doublings > halvings {
        return Err(format!("{whole} halved {halvings} times is no power of one half"));
    }
    counts.possible += 1;
    let probability = whole as f64 / 2f64.powi(halvings as i32);
    Ok(vec![0, 1, u64::from(halvings - doublings), probability.to_bits()])
}

/// The readout of a run with these outcomes, and that with a character turned
/// over or any of its length, each asked of the answers and of the state.
pub fn check(
    random: &mut Random,
    n: usize,
    operations: &[Operation],
    outcomes: &[u8],
    counts: &mut Counts,
) -> Result<(), String> {
    let text = make::text(n, operations);
    let given = readout(outcomes);
    let mut other = given.clone();
    if random.chance(30) {
        other = characters(random, given.len());
    } else {
        flip(random, &mut other, 1);
    }
    for stated in [given, other] {
        let answer = answers::probability(&text, &stated);
        let expected = places(left(n, operations, &stated), counts)?;
        if answer.number != 0 || answer.places != expected {
            let stated = String::from_utf8_lossy(&stated).into_owned();
            return Err(format!("{stated} is {expected:?} by the state, answered {:?}", answer));
        }
    }
    Ok(())
}
