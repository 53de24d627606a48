//! Sound material for cases: random circuits, coins, rows and records. The
//! records come from runs, or from rows shuffled in ways that keep them
//! properly paired though no short circuit gives them.

use crate::circuit::{self, Operation, MOST_QUBITS};
use crate::letters::{product, Letter, ALL};
use crate::measure;
use crate::random::Random;
use crate::record;
use crate::row::Row;
use crate::seam::{SEAM, SIZES};
use crate::tableau::Tableau;

/// A number of qubits for a circuit; those that must come do so often.
pub fn qubits(random: &mut Random) -> usize {
    match random.below(100) {
        0..=9 => 1,
        10..=37 => *random.one_of(&SIZES),
        38..=67 => random.between(2, 6),
        68..=81 => random.between(7, 24),
        82..=88 => random.between(25, SEAM - 1),
        _ => random.between(SEAM, MOST_QUBITS),
    }
}

/// A number of qubits for a record, whose length grows with its square: the
/// large ones come more seldom.
pub fn record_qubits(random: &mut Random) -> usize {
    if random.chance(18) {
        return qubits(random);
    }
    match random.below(100) {
        0..=19 => 1,
        20..=69 => random.between(2, 6),
        70..=94 => random.between(7, 24),
        _ => random.between(25, SEAM - 1),
    }
}

fn operation_text(operation: Operation) -> String {
    match operation {
        Operation::H(a) => format!("H {a}\n"),
        Operation::S(a) => format!("S {a}\n"),
        Operation::X(a) => format!("X {a}\n"),
        Operation::Y(a) => format!("Y {a}\n"),
        Operation::Z(a) => format!("Z {a}\n"),
        Operation::CX(a, b) => format!("CX {a} {b}\n"),
        Operation::CZ(a, b) => format!("CZ {a} {b}\n"),
        Operation::M(a) => format!("M {a}\n"),
        Operation::MR(a) => format!("MR {a}\n"),
    }
}

fn gate(random: &mut Random, n: usize) -> Operation {
    let a = random.below(n);
    let b = (a + random.between(1, n.max(2) - 1)) % n;
    match random.below(if n > 1 { 11 } else { 7 }) {
        0 | 1 => Operation::H(a),
        2 | 3 => Operation::S(a),
        4 => Operation::X(a),
        5 => Operation::Y(a),
        6 => Operation::Z(a),
        7 | 8 => Operation::CX(a, b),
        _ => Operation::CZ(a, b),
    }
}

fn measurement(random: &mut Random, n: usize) -> Operation {
    let a = random.below(n);
    if random.chance(40) {
        Operation::MR(a)
    } else {
        Operation::M(a)
    }
}

/// Random operations, `percent` of a hundred being measurements.
pub fn operations(random: &mut Random, n: usize, count: usize, percent: usize) -> Vec<Operation> {
    let mut made = Vec::new();
    for _ in 0..count {
        if random.chance(percent) {
            made.push(measurement(random, n));
        } else {
            made.push(gate(random, n));
        }
    }
    made
}

pub fn text(n: usize, operations: &[Operation]) -> Vec<u8> {
    let mut text = format!("Q {n}\n");
    for operation in operations {
        text.push_str(&operation_text(*operation));
    }
    text.into_bytes()
}

/// How long a circuit is to be, mostly some turns for each qubit.
pub fn length(random: &mut Random, n: usize) -> usize {
    match random.below(20) {
        0 => 0,
        1..=4 => random.between(1, 5),
        5..=17 => random.below(6 * n + 20),
        _ => random.below(12 * n + 60),
    }
}

/// H on about half the qubits and CX along them, so that much is random.
pub fn spread(random: &mut Random, n: usize) -> Vec<Operation> {
    let mut made = Vec::new();
    for a in 0..n {
        if random.chance(50) {
            made.push(Operation::H(a));
        }
    }
    for a in 1..n {
        if random.chance(50) {
            made.push(Operation::CX(a - 1, a));
        }
    }
    made
}

pub fn circuit(random: &mut Random, n: usize) -> Vec<u8> {
    let count = length(random, n);
    let percent = *random.one_of(&[0, 10, 10, 25, 25, 50, 90]);
    let mut made = Vec::new();
    if count > 5 && random.chance(60) {
        made = spread(random, n);
    }
    made.extend(operations(random, n, count, percent));
    text(n, &made)
}

pub fn letter(random: &mut Random) -> Letter {
    *random.one_of(&ALL)
}

pub fn row(random: &mut Random, n: usize) -> Row {
    let letters = (0..n).map(|_| letter(random)).collect();
    Row { minus: random.chance(50), letters }
}

/// The outcomes and rows of a random run that lacks no coin.
pub fn finished(random: &mut Random, n: usize) -> (Vec<u8>, Tableau) {
    let text = circuit(random, n);
    let coins = random.bytes(text.len());
    match circuit::parse(&text).and_then(|circuit| measure::run(&circuit, &coins)) {
        Ok(done) => (done.outcomes, done.tableau),
        Err(_) => (Vec::new(), Tableau::start(n)),
    }
}

/// The letters of row `into` become those of its product with row `by`.
fn mix(tableau: &mut Tableau, into: usize, by: usize) {
    for place in 0..tableau.n {
        let pair = (tableau.rows[into].letters[place], tableau.rows[by].letters[place]);
        tableau.rows[into].letters[place] = product(pair.0, pair.1).0;
    }
}

/// Row steps that keep the pairing: two pairs change places, the partners of
/// one pair do, a row takes in its partner, or a stabilizer takes in another
/// while the other's partner takes in the first one's.
pub fn shuffle(random: &mut Random, tableau: &mut Tableau) {
    let n = tableau.n;
    for _ in 0..3 * n + 2 {
        let (i, j) = (random.below(n), random.below(n));
        match random.below(4) {
            0 => {
                tableau.rows.swap(i, j);
                tableau.rows.swap(n + i, n + j);
            }
            1 => tableau.rows.swap(i, n + i),
            2 => mix(tableau, i, n + i),
            _ if i != j => {
                mix(tableau, n + i, n + j);
                mix(tableau, j, i);
            }
            _ => {}
        }
    }
    for row in &mut tableau.rows {
        row.minus = random.chance(50);
    }
}

pub fn outcomes(random: &mut Random, count: usize) -> Vec<u8> {
    (0..count).map(|_| *random.one_of(b"0123")).collect()
}

pub fn record(random: &mut Random, n: usize) -> Vec<u8> {
    let (mut outcomes, mut tableau) = finished(random, n);
    if random.chance(40) {
        shuffle(random, &mut tableau);
    }
    if random.chance(20) {
        let count = *random.one_of(&[0, 1, 2, 17, 255, 256, 257]);
        outcomes = self::outcomes(random, count);
    }
    record::write(&outcomes, &tableau)
}

/// Records end to end, sometimes behind bytes that are none.
pub fn archive(random: &mut Random, n: usize) -> Vec<u8> {
    let mut bytes = Vec::new();
    if random.chance(20) {
        let count = random.below(40);
        bytes = random.bytes(count);
    }
    for _ in 0..random.below(3) {
        let other = random.between(1, 9);
        bytes.extend(record(random, other));
    }
    bytes.extend(record(random, n));
    bytes
}
