//! The fixed sweeps over more than 64 qubits: short circuits whose
//! measurements, random and fixed, hang on a row of either side of the seam
//! or of both, products whose letters lie on either side, and records that go
//! wrong, or differ, on one side of it alone.

use crate::circuit::{Operation, MOST_QUBITS};
use crate::letters::{Letter, ALL};
use crate::make;
use crate::protocol::Case;
use crate::record;
use crate::row::{Row, LONGEST_TEXT};
use crate::seam::{self, SEAM};
use crate::tableau::Tableau;
use std::io;

type Write<'a> = &'a mut dyn FnMut(Case) -> io::Result<()>;

pub fn all(write: Write) -> io::Result<()> {
    for n in [SEAM + 1, MOST_QUBITS] {
        for a in [0, SEAM - 1, SEAM, n - 1] {
            for b in [0, SEAM - 1, SEAM, n - 1] {
                if a != b {
                    two_qubits(write, n, a, b)?;
                }
            }
        }
    }
    products(write)?;
    wrong_pairs(write)?;
    differing(write)
}

fn run(write: Write, n: usize, operations: &[Operation], coins: &[u8]) -> io::Result<()> {
    let lent = record::distance_to_rows(n) + 3;
    write(Case::Run(make::text(n, operations), coins.to_vec(), lent))
}

/// A Bell pair of which one half is measured, then the other; two rows with X
/// on the qubit measured, so that the lower has to be taken; and a qubit in a
/// state of Y, of either sign, whose Y the other one reads.
fn two_qubits(write: Write, n: usize, a: usize, b: usize) -> io::Result<()> {
    let pair = [Operation::H(a), Operation::CX(a, b), Operation::M(b), Operation::MR(a)];
    run(write, n, &pair, &[1])?;
    let both = [Operation::H(a), Operation::H(b), Operation::CX(a, b), Operation::M(b)];
    run(write, n, &both, &[1])?;
    let mut read = vec![Operation::H(a), Operation::S(a)];
    read.extend(seam::parity(b, &Row::single(n, a, Letter::Y)));
    read.push(Operation::M(b));
    run(write, n, &read, &[])?;
    read.insert(2, Operation::Z(a));
    run(write, n, &read, &[])
}

/// Rows that differ on one side of the seam alone, and differ there at one
/// place or at two.
fn products(write: Write) -> io::Result<()> {
    let most = LONGEST_TEXT - 1;
    for (one, two) in [(0, SEAM - 1), (SEAM - 1, SEAM), (SEAM, most - 1), (most - 2, most - 1)] {
        for letter in ALL {
            let mut first = Row { minus: false, letters: vec![Letter::Y; most] };
            let second = first.clone();
            first.letters[two] = letter;
            write(Case::Product(first.text(), second.text(), LONGEST_TEXT))?;
            first.letters[one] = letter;
            write(Case::Product(first.text(), second.text(), LONGEST_TEXT))?;
            write(Case::Product(second.text(), first.text(), LONGEST_TEXT))?;
        }
    }
    Ok(())
}

/// Start rows with one letter changed, on either side of the seam; where a
/// pair is wrong by it, the first such pair is there too.
fn wrong_pairs(write: Write) -> io::Result<()> {
    let n = SEAM + 2;
    for (row, place) in [(SEAM - 1, 0), (SEAM, 0), (SEAM, SEAM - 1), (SEAM, SEAM + 1)] {
        for letter in [Letter::X, Letter::Y, Letter::Z] {
            for half in [0, n] {
                let mut tableau = Tableau::start(n);
                tableau.rows[half + row].letters[place] = letter;
                write(Case::Read(record::write(b"", &tableau)))?;
            }
        }
    }
    for place in [SEAM, SEAM + 1] {
        for row in [place, n + place] {
            for letter in ALL {
                let mut tableau = Tableau::start(n);
                tableau.rows[row].letters[place] = letter;
                write(Case::Read(record::write(b"", &tableau)))?;
            }
        }
    }
    Ok(())
}

/// Records of which the second differs from the first in one row's sign, or
/// by one gate on a qubit.
fn differing(write: Write) -> io::Result<()> {
    let rows = [SEAM, 2 * SEAM, 2 * SEAM + 1, 0].map(|row| (SEAM + 1, row));
    for (n, row) in rows.into_iter().chain([(MOST_QUBITS, 2 * MOST_QUBITS - 1)]) {
        let start = Tableau::start(n);
        let first = record::write(b"", &start);
        let mut other = start.clone();
        other.rows[row].minus = true;
        write(Case::Same(first.clone(), record::write(b"", &other)))?;
        if row > 2 * SEAM {
            let turned = start.gate(Operation::H(n - 1));
            write(Case::Same(record::write(b"", &turned), first))?;
        }
    }
    Ok(())
}
