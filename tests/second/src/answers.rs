//! The seven public functions. Each answers a number, 0 or the refusal's, a
//! fixed list of places, and, where a buffer is lent, all its bytes after
//! the call.

use crate::circuit;
use crate::measure;
use crate::probability::{self, Likelihood};
use crate::record;
use crate::refusal::Refusal;
use crate::row::{Row, LONGEST_TEXT};

#[derive(Clone, PartialEq, Eq, Debug)]
pub struct Answer {
    pub number: u64,
    pub places: Vec<u64>,
    pub buffer: Option<Vec<u8>>,
}

/// Number and place of a refusal, every other place zero.
fn refused(refusal: Refusal, places: usize) -> Answer {
    let mut zeros = vec![0; places];
    zeros[0] = refusal.place;
    Answer { number: refusal.number, places: zeros, buffer: None }
}

fn accepted(places: &[usize]) -> Answer {
    let places = places.iter().map(|place| *place as u64).collect();
    Answer { number: 0, places, buffer: None }
}

fn put(answer: &[u8], mut buffer: Vec<u8>) -> Vec<u8> {
    for (place, byte) in answer.iter().enumerate() {
        buffer[place] = *byte;
    }
    buffer
}

/// The answer of a function that writes bytes and answers their number.
fn written(result: Result<Vec<u8>, Refusal>, out: Vec<u8>) -> Answer {
    match result {
        Err(refusal) => Answer { buffer: Some(out), ..refused(refusal, 2) },
        Ok(bytes) => {
            let answer = accepted(&[0, bytes.len()]);
            Answer { buffer: Some(put(&bytes, out)), ..answer }
        }
    }
}

fn fits(needed: usize, lent: usize) -> Result<(), Refusal> {
    if lent < needed {
        return Err(Refusal::at(8, 0));
    }
    Ok(())
}

pub fn check(text: &[u8]) -> Answer {
    match circuit::parse(text) {
        Err(refusal) => refused(refusal, 3),
        Ok(circuit) => accepted(&[0, circuit.n, circuit.operations.len()]),
    }
}

fn try_run(text: &[u8], coins: &[u8], lent: usize) -> Result<measure::Finished, Refusal> {
    let circuit = circuit::parse(text)?;
    fits(circuit.measurements() + record::distance_to_rows(circuit.n), lent)?;
    measure::run(&circuit, coins)
}

pub fn run(text: &[u8], coins: &[u8], buffer: Vec<u8>) -> Answer {
    match try_run(text, coins, buffer.len()) {
        Err(refusal) => {
            let mut answer = refused(refusal, 6);
            answer.places[2] = coins.len() as u64;
            Answer { buffer: Some(buffer), ..answer }
        }
        Ok(done) => {
            let bytes = record::write(&done.outcomes, &done.tableau);
            let left = coins.len() - done.taken;
            let measured = done.outcomes.len();
            let answer = accepted(&[0, bytes.len(), left, measured, done.random, done.taken]);
            Answer { buffer: Some(put(&bytes, buffer)), ..answer }
        }
    }
}

pub fn read(bytes: &[u8]) -> Answer {
    match record::read(bytes) {
        Err(refusal) => refused(refusal, 5),
        Ok(found) => {
            let many = found.outcomes.len();
            accepted(&[0, found.length, found.tableau.n, found.start, many])
        }
    }
}

fn try_copy(bytes: &[u8], lent: usize) -> Result<Vec<u8>, Refusal> {
    let found = record::read(bytes)?;
    fits(found.length, lent)?;
    Ok(record::write(&found.outcomes, &found.tableau))
}

pub fn copy(bytes: &[u8], out: Vec<u8>) -> Answer {
    written(try_copy(bytes, out.len()), out)
}

fn try_product(first: &[u8], second: &[u8], lent: usize) -> Result<Vec<u8>, Refusal> {
    if first.len() != second.len() || first.len() < 2 || first.len() > LONGEST_TEXT {
        return Err(Refusal::at(13, 0));
    }
    let first_row = Row::from_text(first).map_err(|place| Refusal::at(10, place))?;
    let second_row =
        Row::from_text(second).map_err(|place| Refusal::at(10, first.len() + place))?;
    if !first_row.commutes(&second_row) {
        return Err(Refusal::at(12, 0));
    }
    fits(first.len(), lent)?;
    Ok(first_row.times(&second_row).text())
}

pub fn product(first: &[u8], second: &[u8], out: Vec<u8>) -> Answer {
    written(try_product(first, second, out.len()), out)
}

pub fn same(first: &[u8], second: &[u8]) -> Answer {
    let (one, two) = match (record::read(first), record::read(second)) {
        (Err(refusal), _) => return refused_of_two(refusal, 1),
        (_, Err(refusal)) => return refused_of_two(refusal, 2),
        (Ok(one), Ok(two)) => (one.tableau, two.tableau),
    };
    let equal = one.n == two.n && one.rows[one.n..] == two.rows[two.n..];
    accepted(&[0, 0, usize::from(equal)])
}

fn refused_of_two(refusal: Refusal, which: u64) -> Answer {
    Answer { number: refusal.number, places: vec![which, refusal.place, 0], buffer: None }
}

pub fn probability(text: &[u8], stated: &[u8]) -> Answer {
    let circuit = circuit::parse(text);
    match circuit.and_then(|circuit| probability::likelihood(&circuit, stated)) {
        Err(refusal) => refused(refusal, 4),
        Ok(Likelihood::Impossible { line }) => accepted(&[0, 0, line, 0]),
        Ok(Likelihood::Possible { random, probability }) => {
            let mut answer = accepted(&[0, 1, random, 0]);
            answer.places[3] = probability.to_bits();
            answer
        }
    }
}
