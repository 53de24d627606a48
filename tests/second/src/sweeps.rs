//! The fixed sweeps over small inputs: every byte value at every place of
//! short lines, rows and records, every prefix and suffix, every product of
//! short rows, every circuit of two operations on two qubits, every coin
//! byte, every number after `Q`, every qubit's, and every short word before a
//! number.

use crate::circuit::{Operation, MOST_QUBITS};
use crate::damage;
use crate::letters::ALL;
use crate::make;
use crate::protocol::Case;
use crate::random::Random;
use crate::record;
use crate::row::{Row, LONGEST_TEXT};
use crate::tableau::Tableau;
use std::io;

pub type Write<'a> = &'a mut dyn FnMut(Case) -> io::Result<()>;

pub fn all(write: Write) -> io::Result<()> {
    bytes_of_lines(write)?;
    bytes_before_lines(write)?;
    bytes_of_records(write)?;
    bytes_of_rows(write)?;
    parts_of_records(write)?;
    short_products(write)?;
    product_lengths(write)?;
    two_operations(write)?;
    coin_bytes(write)?;
    first_lines(write)?;
    qubit_numbers(write)?;
    operation_words(write)?;
    operation_lines(write)
}

/// The text with each of the 256 values at each of its places.
pub fn every_byte(text: &[u8]) -> Vec<Vec<u8>> {
    let mut made = Vec::new();
    for place in 0..text.len() {
        for value in 0..=255 {
            let mut changed = text.to_vec();
            changed[place] = value;
            made.push(changed);
        }
    }
    made
}

/// One qubit, rows +X and -Y.
fn small_record() -> Vec<u8> {
    let (h, s) = (Operation::H(0), Operation::S(0));
    let tableau = Tableau::start(1).gate(h).gate(s).gate(h);
    record::write(b"12", &tableau)
}

/// Two qubits, with all letters and both signs among the rows.
fn pair_record() -> Vec<u8> {
    let mut tableau = Tableau::start(2);
    let (h, s) = (Operation::H(0), Operation::S(1));
    for gate in [h, Operation::CX(0, 1), s, Operation::CZ(0, 1), h, Operation::Z(0)] {
        tableau = tableau.gate(gate);
    }
    record::write(b"03", &tableau)
}

fn bytes_of_lines(write: Write) -> io::Result<()> {
    for text in every_byte(b"Q 2\nCX 0 1\n") {
        write(Case::Check(text))?;
    }
    for text in every_byte(b"Q 1\nM 0\n") {
        write(Case::Run(text, vec![1], 17))?;
    }
    for line in every_byte(b"CZ 1 0\n") {
        write(Case::Check([b"Q 2\n", &line[..]].concat()))?;
    }
    for line in every_byte(b"MR 0\n") {
        write(Case::Run([b"Q 1\nX 0\n", &line[..]].concat(), vec![1], 17))?;
    }
    Ok(())
}

/// The same of lines far from the end of the text, with numbers of one digit,
/// of two and of three.
fn bytes_before_lines(write: Write) -> io::Result<()> {
    let behind = b"H 0\nCZ 0 1\nM 1\n";
    let first = format!("Q {MOST_QUBITS}\n").into_bytes();
    let two = [&b"CX 10 63\n"[..], b"CZ 9 10\n", b"CX 7 0\n", b"CX 100 127\n", b"CZ 99 101\n"];
    for line in two.into_iter().chain([&b"S 126\n"[..], b"MR 100\n"]) {
        for changed in every_byte(line) {
            write(Case::Check([&first, &changed[..], behind].concat()))?;
        }
    }
    for line in [&b"S 11\n"[..], b"M 0\n", b"MR 0\n", b"MR 11\n"] {
        for changed in every_byte(line) {
            write(Case::Run([b"Q 12\n", &changed[..], behind].concat(), vec![1], 327))?;
        }
    }
    Ok(())
}

fn bytes_of_records(write: Write) -> io::Result<()> {
    for bytes in every_byte(&small_record()) {
        write(Case::Read(bytes))?;
    }
    Ok(())
}

fn bytes_of_rows(write: Write) -> io::Result<()> {
    for text in every_byte(b"+X-Z") {
        write(Case::Product(text[..2].to_vec(), text[2..].to_vec(), 2))?;
    }
    Ok(())
}

fn parts_of_records(write: Write) -> io::Result<()> {
    for bytes in [small_record(), pair_record()] {
        let whole = bytes.len();
        for cut in 0..=whole {
            write(Case::Read(bytes[..cut].to_vec()))?;
            write(Case::Read(bytes[cut..].to_vec()))?;
            write(Case::Copy(bytes.clone(), cut))?;
            write(Case::Copy(bytes[cut..].to_vec(), whole + 2))?;
            write(Case::Same(bytes[..cut].to_vec(), bytes.clone()))?;
            write(Case::Same(bytes.clone(), bytes[cut..].to_vec()))?;
        }
    }
    Ok(())
}

fn short_products(write: Write) -> io::Result<()> {
    for signs in 0..4 {
        for one in ALL {
            for two in ALL {
                let first = Row { minus: signs >= 2, letters: vec![one] };
                let second = Row { minus: signs % 2 == 1, letters: vec![two] };
                write(Case::Product(first.text(), second.text(), 2))?;
            }
        }
    }
    for index in 0..256 {
        let letter = |power: usize| ALL[index / power % 4];
        let first = Row { minus: false, letters: vec![letter(1), letter(4)] };
        let second = Row { minus: false, letters: vec![letter(16), letter(64)] };
        write(Case::Product(first.text(), second.text(), 3))?;
    }
    Ok(())
}

fn product_lengths(write: Write) -> io::Result<()> {
    let mut random = Random::new(13);
    let row = |random: &mut Random, length: usize| {
        let mut text = make::row(random, length).text();
        text.truncate(length);
        text
    };
    for length in 0..=LONGEST_TEXT + 2 {
        let first = row(&mut random, length);
        let second = row(&mut random, length);
        let longer = row(&mut random, length + 1);
        for lent in [length, length + 1, length.saturating_sub(1), 0] {
            write(Case::Product(first.clone(), second.clone(), lent))?;
            write(Case::Product(first.clone(), first.clone(), lent))?;
        }
        write(Case::Product(first.clone(), longer.clone(), length + 3))?;
        write(Case::Product(longer, first, length + 3))?;
    }
    Ok(())
}

fn two_operations(write: Write) -> io::Result<()> {
    let mut every = vec![];
    for (a, b) in [(0, 1), (1, 0)] {
        every.extend([Operation::H(a), Operation::S(a), Operation::X(a), Operation::Y(a)]);
        every.extend([Operation::Z(a), Operation::CX(a, b), Operation::CZ(a, b)]);
        every.extend([Operation::M(a), Operation::MR(a)]);
    }
    let random = vec![Operation::H(0), Operation::CX(0, 1), Operation::S(0)];
    let ones = vec![Operation::X(0), Operation::X(1)];
    for prepared in [vec![], random, ones] {
        for one in &every {
            for two in &every {
                let mut operations = prepared.clone();
                operations.extend([*one, *two]);
                write(Case::Run(make::text(2, &operations), vec![3, 0], 26))?;
            }
        }
    }
    Ok(())
}

fn coin_bytes(write: Write) -> io::Result<()> {
    for text in [&b"Q 2\nH 0\nM 0\nCX 0 1\nM 1\n"[..], b"Q 2\nH 0\nCX 0 1\nMR 0\nMR 1\n"] {
        for value in 0..=255 {
            write(Case::Run(text.to_vec(), vec![value, value], 26))?;
        }
    }
    Ok(())
}

fn first_lines(write: Write) -> io::Result<()> {
    for number in 0..=999 {
        write(Case::Check(format!("Q {number}\n").into_bytes()))?;
    }
    for number in 0..=MOST_QUBITS + 2 {
        write(Case::Check(format!("Q 0{number}\nM 0\n").into_bytes()))?;
    }
    let counts = damage::BAD_COUNT.map(|count| format!("Q {count}"));
    for line in damage::BAD_FIRST.into_iter().chain(counts.iter().map(|line| line.as_str())) {
        write(Case::Check(line.as_bytes().to_vec()))?;
        write(Case::Check(format!("{line}\n").into_bytes()))?;
        write(Case::Run(format!("{line}\nH 0\nM 9\n").into_bytes(), vec![1, 0], 16))?;
    }
    write(Case::Check(Vec::new()))
}

/// Every number of one to three digits as a qubit, and those of fewer with
/// zeros before them.
fn qubit_numbers(write: Write) -> io::Result<()> {
    let mut check = |line: String| {
        write(Case::Check(format!("Q {MOST_QUBITS}\n{line}\n").into_bytes()))
    };
    for number in 0..=999 {
        check(format!("M {number}"))?;
        check(format!("CX {number} 64"))?;
        check(format!("CZ 101 {number}"))?;
    }
    for number in 0..=99 {
        check(format!("MR 0{number}"))?;
        check(format!("CX 0 00{number}"))?;
    }
    Ok(())
}

/// Every word of one to three of the letters that operations are named by,
/// before one number and before two.
fn operation_words(write: Write) -> io::Result<()> {
    let mut words = vec![String::new()];
    for _ in 0..3 {
        let mut longer = Vec::new();
        for word in &words {
            for letter in "HSXYZCMR".chars() {
                longer.push(format!("{word}{letter}"));
            }
        }
        for word in &longer {
            write(Case::Check(format!("Q 2\n{word} 0\n").into_bytes()))?;
            write(Case::Check(format!("Q 2\n{word} 0 1\n").into_bytes()))?;
        }
        words = longer;
    }
    Ok(())
}

/// Bad lines at the first, a middle and the last place, one before another.
fn operation_lines(write: Write) -> io::Result<()> {
    let refused = ["CX 1 1", "CX 9 9", "CZ 0 2", "M 2", "MR 2", "MR 999", "H 999", "CZ 1 1"];
    for line in damage::MALFORMED.iter().chain(&refused) {
        for before in [0, 3, 7] {
            let mut text = "Q 2\n".to_string() + &"H 0\n".repeat(before) + line;
            write(Case::Check(text.clone().into_bytes()))?;
            text.push('\n');
            write(Case::Check(text.clone().into_bytes()))?;
            text.push_str(&"M 1\n".repeat(7 - before));
            write(Case::Run(text.clone().into_bytes(), vec![0], 5))?;
            text.push_str("CX 1 1\nM 5\nbad\n");
            write(Case::Check(text.into_bytes()))?;
        }
    }
    Ok(())
}
