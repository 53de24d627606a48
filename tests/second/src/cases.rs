//! The random cases: a mix of all seven functions over the material of
//! `make`, `seam`, `damage` and `probability_cases`. The same seed gives the
//! same cases.

use crate::circuit;
use crate::damage;
use crate::make;
use crate::probability_cases;
use crate::protocol::Case;
use crate::random::Random;
use crate::record;
use crate::row::LONGEST_TEXT;
use crate::seam::{self, SEAM};

/// The length of a lent buffer: one byte too short, exactly long enough,
/// longer, or any.
fn buffer(random: &mut Random, needed: usize) -> usize {
    match random.below(10) {
        0 => needed.saturating_sub(1),
        1..=4 => needed,
        5 | 6 => needed + 1,
        7 => needed + random.below(40),
        8 => random.below(needed + 1),
        _ => needed + 300,
    }
}

fn some_circuit(random: &mut Random, damaged: usize) -> Vec<u8> {
    let n = make::qubits(random);
    if random.chance(damaged) {
        damage::circuit(random, n)
    } else if n > SEAM && random.chance(50) {
        seam::circuit(random, n)
    } else {
        make::circuit(random, n)
    }
}

fn run(random: &mut Random) -> Case {
    let text = some_circuit(random, 20);
    let (needed, measured) = match circuit::parse(&text) {
        Ok(found) => {
            let measured = found.measurements();
            (measured + record::distance_to_rows(found.n), measured)
        }
        Err(_) => (random.below(60), 3),
    };
    let coins = match random.below(10) {
        0 => 0,
        1 => random.below(measured + 1),
        2 => measured / 2,
        _ => measured + random.below(3),
    };
    let coins = random.bytes(coins);
    let length = buffer(random, needed);
    Case::Run(text, coins, length)
}

fn some_record(random: &mut Random, damaged: usize) -> Vec<u8> {
    let n = make::record_qubits(random);
    if random.chance(damaged) {
        let mut bytes = Vec::new();
        if random.chance(20) {
            bytes = make::record(random, 2);
        }
        bytes.extend(damage::record(random, n));
        bytes
    } else {
        make::archive(random, n)
    }
}

fn copy(random: &mut Random) -> Case {
    let bytes = some_record(random, 30);
    let needed = match record::read(&bytes) {
        Ok(found) => found.length,
        Err(_) => bytes.len(),
    };
    let length = buffer(random, needed);
    Case::Copy(bytes, length)
}

/// A row text, sometimes with a byte that is not listed.
fn row_text(random: &mut Random, length: usize, damaged: usize) -> Vec<u8> {
    let mut text = make::row(random, length.saturating_sub(1)).text();
    text.truncate(length);
    if length > 0 && random.chance(damaged) {
        let place = random.below(length);
        text[place] = random.byte();
    }
    text
}

fn product(random: &mut Random) -> Case {
    let length = if random.chance(20) {
        let most = LONGEST_TEXT;
        *random.one_of(&[0, 1, 2, SEAM, SEAM + 1, SEAM + 2, most - 1, most, most + 1, most + 2])
    } else {
        random.between(2, LONGEST_TEXT)
    };
    let damaged = if random.chance(20) { 60 } else { 0 };
    let first = row_text(random, length, damaged);
    let unequal = if random.chance(8) { random.between(0, LONGEST_TEXT + 2) } else { length };
    let mut second = row_text(random, unequal, damaged);
    if random.chance(15) {
        second = first.clone();
    }
    let size = buffer(random, length);
    Case::Product(first, second, size)
}

fn same(random: &mut Random) -> Case {
    let n = make::record_qubits(random);
    let (outcomes, tableau) = make::finished(random, n);
    let mut other = tableau.clone();
    let first = record::write(&outcomes, &tableau);
    let place = random.below(n);
    match random.below(10) {
        0 => other.rows[n + place].minus = !other.rows[n + place].minus,
        1 => other.rows[place].minus = !other.rows[place].minus,
        2 => other.rows.swap(place, n + place),
        3 => make::shuffle(random, &mut other),
        4 => return Case::Same(first, make::record(random, n)),
        5 => return Case::Same(first, some_record(random, 50)),
        6 => return Case::Same(some_record(random, 90), first),
        7 => return Case::Same(first, damage::record(random, n)),
        8 => return Case::Same(damage::record(random, n), damage::record(random, 2)),
        _ => {}
    }
    let count = random.below(4);
    let mut second = make::record(random, 1);
    second.extend(record::write(&make::outcomes(random, count), &other));
    Case::Same(first, second)
}

fn probability(random: &mut Random) -> Case {
    let text = if random.chance(40) {
        let n = make::qubits(random);
        probability_cases::tied(random, n)
    } else {
        some_circuit(random, 20)
    };
    let stated = match circuit::parse(&text) {
        Ok(found) => probability_cases::stated(random, &found),
        Err(_) => {
            let count = random.below(4);
            probability_cases::characters(random, count)
        }
    };
    Case::Probability(text, stated)
}

pub fn case(random: &mut Random) -> Case {
    match random.below(100) {
        0..=12 => Case::Check(some_circuit(random, 60)),
        13..=47 => run(random),
        48..=57 => probability(random),
        58..=70 => Case::Read(some_record(random, 50)),
        71..=79 => copy(random),
        80..=91 => product(random),
        _ => same(random),
    }
}
