//! Material with something wrong in it: circuits with a bad line at the
//! first, a middle or the last place, and records with a bad trailer, a bad
//! byte or rows that are not properly paired.

use crate::circuit::MOST_QUBITS;
use crate::letters::{Letter, ALL};
use crate::make;
use crate::random::Random;
use crate::record::{self, TRAILER};
use crate::tableau::Tableau;

pub const BAD_FIRST: [&str; 18] = [
    "", "Q", "Q ", "Q  2", "Q 02", "Q 00", "Q 2 ", " Q 2", "q 2", "Q\t2", "Q 2\r", "Q +2",
    "Q 1000", "Q 0064", "Q 2 2", "QQ 2", "2", "H 0",
];

pub const BAD_COUNT: [usize; 6] =
    [0, MOST_QUBITS + 1, MOST_QUBITS + 2, MOST_QUBITS + 100, 2 * MOST_QUBITS, 999];

pub const MALFORMED: [&str; 44] = [
    "", " ", "H", "H ", "H  0", "H 0 ", " H 0", "h 0", "H 00", "H 0 0", "H 1000", "H +0", "H -0",
    "H 0\r", "H\t0", "T 0", "CX 0", "CX 0 1 2", "CX 0  1", "CX 0 01", "cx 0 1", "CY 0 1",
    "CXX 0 1", "C 0 1", "M", "M 0 1", "M 00", "Q 2", "H x", "CZ 1 0 ", "M0", "MR", "MR ", "MR0",
    "MR  0", "MR 0 ", "MR 00", "MR 0 1", "MRR 0", "M R 0", "MR 1000", "mr 0", "R 0", "RM 0",
];

/// The lines of a text, without their end bytes.
fn split(text: &[u8]) -> Vec<Vec<u8>> {
    let mut lines: Vec<Vec<u8>> =
        text.split(|byte| *byte == 10).map(|line| line.to_vec()).collect();
    lines.pop();
    lines
}

fn join(lines: &[Vec<u8>]) -> Vec<u8> {
    let mut text = Vec::new();
    for line in lines {
        text.extend(line);
        text.push(10);
    }
    text
}

/// The first, a middle, the last, or any place of a list with `count` places.
pub fn some_place(random: &mut Random, count: usize) -> usize {
    match random.below(4) {
        0 => 0,
        1 => count / 2,
        2 => count - 1,
        _ => random.below(count),
    }
}

/// A line refused with 4 or with 5, or with both to choose from.
fn bad_qubit(random: &mut Random, n: usize) -> String {
    let far = *random.one_of(&[n, n + 1, MOST_QUBITS, 99, 100, 999]).max(&n);
    let near = random.below(n);
    match random.below(9) {
        0 => format!("H {far}"),
        1 => format!("M {far}"),
        2 => format!("MR {far}"),
        3 => format!("CX {far} {near}"),
        4 => format!("CZ {near} {far}"),
        5 => format!("CX {far} {far}"),
        6 => format!("CZ {far} {far}"),
        7 => format!("CX {near} {near}"),
        _ => format!("CZ {near} {near}"),
    }
}

/// One byte replaced, put in or taken out.
fn one_byte(random: &mut Random, bytes: &mut Vec<u8>) {
    if bytes.is_empty() {
        return bytes.push(random.byte());
    }
    let place = random.below(bytes.len());
    match random.below(4) {
        0 | 1 => bytes[place] = random.byte(),
        2 => bytes.insert(place, random.byte()),
        _ => {
            bytes.remove(place);
        }
    }
}

pub fn circuit(random: &mut Random, n: usize) -> Vec<u8> {
    let text = make::circuit(random, n);
    let mut lines = split(&text);
    let operations = lines.len() - 1;
    match random.below(12) {
        0 => lines[0] = random.one_of(&BAD_FIRST).as_bytes().to_vec(),
        1 => lines[0] = format!("Q {}", random.one_of(&BAD_COUNT)).into_bytes(),
        2 => {
            let mut text = join(&lines);
            text.pop();
            return text;
        }
        3 => {
            let mut text = join(&lines);
            one_byte(random, &mut text);
            return text;
        }
        4 if operations > 0 => {
            let line = 1 + some_place(random, operations);
            one_byte(random, &mut lines[line]);
        }
        5..=7 => {
            let line = 1 + some_place(random, operations + 1);
            lines.insert(line, random.one_of(&MALFORMED).as_bytes().to_vec());
        }
        8 => lines.truncate(random.below(2)),
        _ => {
            let line = 1 + some_place(random, operations + 1);
            lines.insert(line, bad_qubit(random, n).into_bytes());
        }
    }
    join(&lines)
}

/// Another letter than the one given.
fn other_letter(random: &mut Random, letter: Letter) -> Letter {
    let others: Vec<Letter> = ALL.into_iter().filter(|other| *other != letter).collect();
    *random.one_of(&others)
}

/// Rows that were properly paired and mostly are no more.
pub fn pairing(random: &mut Random, tableau: &mut Tableau) {
    let count = 2 * tableau.n;
    let (one, two) = (some_place(random, count), random.below(count));
    let place = random.below(tableau.n);
    match random.below(5) {
        0 => tableau.rows.swap(one, two),
        1 => tableau.rows[one] = tableau.rows[two].clone(),
        2 => tableau.rows[one].letters = vec![Letter::I; tableau.n],
        _ => {
            let letter = other_letter(random, tableau.rows[one].letters[place]);
            tableau.rows[one].letters[place] = letter;
        }
    }
}

/// A byte of the trailer stepped up or down, or replaced.
fn trailer(random: &mut Random, bytes: &mut [u8]) {
    let place = bytes.len() - TRAILER + random.below(TRAILER);
    bytes[place] = match random.below(3) {
        0 => bytes[place].wrapping_add(1),
        1 => bytes[place].wrapping_sub(1),
        _ => random.byte(),
    };
}

/// One or two bytes before the trailer replaced.
fn body(random: &mut Random, bytes: &mut [u8], n: usize) {
    let length = 2 * n * (n + 1);
    let least = bytes.len() - record::distance_to_rows(n);
    for _ in 0..random.between(1, 2) {
        let from_start = random.chance(40) && least > 0;
        let place =
            if from_start { some_place(random, least) } else { least + some_place(random, length) };
        bytes[place] = *random.one_of(b"0123+-IXYZixyz 4\n\0SR\xff");
    }
}

pub fn record(random: &mut Random, n: usize) -> Vec<u8> {
    let (outcomes, mut tableau) = make::finished(random, n);
    let mut bytes = record::write(&outcomes, &tableau);
    match random.below(10) {
        0 | 1 => trailer(random, &mut bytes),
        2 | 3 => body(random, &mut bytes, n),
        4 => {
            let count = random.below(bytes.len() + 1);
            bytes.drain(..count);
        }
        5 => bytes.truncate(random.below(bytes.len() + 1)),
        6 => one_byte(random, &mut bytes),
        _ => {
            pairing(random, &mut tableau);
            bytes = record::write(&outcomes, &tableau);
            if random.chance(25) {
                body(random, &mut bytes, n);
            }
        }
    }
    bytes
}
