//! What is peculiar to the probability of a stated readout: circuits with
//! many fixed measurements, readouts that a run gives, that no run may give,
//! or that are refused, and the names under which `coverage` counts what
//! their answers are.

use crate::answers::Answer;
use crate::circuit::{self, Circuit, Operation};
use crate::damage::some_place;
use crate::make;
use crate::measure;
use crate::probability::{self, Passed};
use crate::random::Random;

pub const POSSIBLE: [&str; 3] = ["possible", "k above 52", "with MR"];
pub const IMPOSSIBLE: [&str; 3] = ["impossible", "at several lines", "after a random one"];
pub const REFUSED: [&str; 3] = ["refused 15", "refused 10", "refused 14"];

/// The kinds that an answer to a circuit and a readout is of.
pub fn kinds(text: &[u8], stated: &[u8], answer: &Answer) -> Vec<&'static str> {
    match (answer.number, circuit::parse(text)) {
        (0, Ok(circuit)) if answer.places[1] == 1 => possible(&circuit, answer.places[2]),
        (0, Ok(circuit)) => match probability::values(stated, circuit.measurements()) {
            Ok(values) => impossible(&probability::follow(&circuit, &values)),
            Err(_) => Vec::new(),
        },
        (15, _) => vec![REFUSED[0]],
        (10, _) => vec![REFUSED[1]],
        (14, _) => vec![REFUSED[2]],
        _ => Vec::new(),
    }
}

fn possible(circuit: &Circuit, random: u64) -> Vec<&'static str> {
    let mut kinds = vec![POSSIBLE[0]];
    if random > 52 {
        kinds.push(POSSIBLE[1]);
    }
    if circuit.operations.iter().any(|operation| matches!(operation, Operation::MR(_))) {
        kinds.push(POSSIBLE[2]);
    }
    kinds
}

fn impossible(passed: &[Passed]) -> Vec<&'static str> {
    let mut kinds = vec![IMPOSSIBLE[0]];
    if passed.iter().filter(|one| !one.agrees).count() > 1 {
        kinds.push(IMPOSSIBLE[1]);
    }
    if passed.iter().take_while(|one| one.agrees).any(|one| one.random) {
        kinds.push(IMPOSSIBLE[2]);
    }
    kinds
}

/// Qubits tied to one by CX and measured again and again, with gates between
/// that leave most of it fixed.
pub fn tied(random: &mut Random, n: usize) -> Vec<u8> {
    let first = random.below(n);
    let mut made = vec![Operation::H(first)];
    for b in 0..n {
        if b != first && random.chance(60) {
            made.push(Operation::CX(first, b));
        }
    }
    for _ in 0..random.below(2 * n + 8) {
        let a = random.below(n);
        made.push(match random.below(20) {
            0 => Operation::H(a),
            1 | 2 => Operation::X(a),
            3 | 4 => Operation::S(a),
            5 => Operation::Z(a),
            6 if a != first => Operation::CX(first, a),
            7..=9 => Operation::MR(a),
            _ => Operation::M(a),
        });
    }
    make::text(n, &made)
}

pub fn characters(random: &mut Random, count: usize) -> Vec<u8> {
    (0..count).map(|_| *random.one_of(b"01")).collect()
}

/// The values of outcome characters, without their kinds.
pub fn readout(outcomes: &[u8]) -> Vec<u8> {
    outcomes.iter().map(|outcome| b'0' + (outcome - b'0') % 2).collect()
}

/// The readout of a run with random coins.
pub fn true_readout(random: &mut Random, circuit: &Circuit) -> Vec<u8> {
    let coins = random.bytes(circuit.measurements());
    match measure::run(circuit, &coins) {
        Ok(done) => readout(&done.outcomes),
        Err(_) => Vec::new(),
    }
}

/// The other of the two characters.
pub fn other(character: u8) -> u8 {
    if character == b'0' { b'1' } else { b'0' }
}

/// The other character at some places, if there are any.
pub fn flip(random: &mut Random, stated: &mut [u8], times: usize) {
    for _ in 0..times.min(stated.len()) {
        let place = some_place(random, stated.len());
        stated[place] = other(stated[place]);
    }
}

/// One character too many or too few, or none at all.
fn resize(random: &mut Random, stated: &mut Vec<u8>) {
    match random.below(5) {
        0 => stated.clear(),
        1 | 2 => stated.push(*random.one_of(b"01")),
        _ => {
            stated.pop();
        }
    }
}

fn spoil(random: &mut Random, stated: &mut [u8]) {
    if !stated.is_empty() {
        let place = some_place(random, stated.len());
        let byte = random.byte();
        stated[place] = *random.one_of(&[b'2', b'3', b'/', b' ', 10, 0, 1, 0xb0, 0xb1, byte]);
    }
}

/// A readout for a circuit: that of a run, that with characters turned over,
/// any, or one that is refused.
pub fn stated(random: &mut Random, circuit: &Circuit) -> Vec<u8> {
    let mut stated = true_readout(random, circuit);
    match random.below(20) {
        0..=6 => {}
        7..=10 => flip(random, &mut stated, 1),
        11 | 12 => flip(random, &mut stated, 3),
        13 => stated = characters(random, circuit.measurements()),
        14 | 15 => resize(random, &mut stated),
        16 | 17 => spoil(random, &mut stated),
        18 => {
            spoil(random, &mut stated);
            resize(random, &mut stated);
        }
        _ => {
            flip(random, &mut stated, 1);
            spoil(random, &mut stated);
        }
    }
    stated
}
