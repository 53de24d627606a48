//! The fixed sweeps over sizes: records and runs of every n from 1 to the
//! most, circuits of 4,096 and 4,097 operations, records with the most
//! outcomes and with a qubit too many, buffers around the needed length, and
//! runs that lack a coin early, midway and at the end, or before a line that
//! is refused.

use crate::circuit::{measured, Operation, MOST_OPERATIONS, MOST_QUBITS};
use crate::damage;
use crate::make;
use crate::protocol::Case;
use crate::random::Random;
use crate::record;
use crate::seam::{SEAM, SIZES};
use crate::tableau::Tableau;
use std::io;

type Write<'a> = &'a mut dyn FnMut(Case) -> io::Result<()>;

/// Up to so many qubits every sort of case is made of every n.
const SHORT: usize = 24;

pub fn all(write: Write) -> io::Result<()> {
    every_n(write)?;
    most_operations(write)?;
    too_many_operations(write)?;
    most_outcomes(write)?;
    too_wide(write)?;
    distances(write)?;
    long_archive(write)?;
    lacking_coins(write)?;
    refused_without_coins(write)
}

/// A run and a record of every n, and more of those that are short or at an
/// end or at the seam.
fn every_n(write: Write) -> io::Result<()> {
    let mut random = Random::new(MOST_QUBITS as u64);
    for n in 1..=MOST_QUBITS {
        let more = n <= SHORT || SIZES.contains(&n);
        runs_of(write, &mut random, n, more)?;
        records_of(write, &mut random, n, more)?;
    }
    Ok(())
}

fn runs_of(write: Write, random: &mut Random, n: usize, more: bool) -> io::Result<()> {
    let operations = make::operations(random, n, 8 * n + 8, 20);
    let text = make::text(n, &operations);
    let outcomes = operations.iter().filter_map(|operation| measured(*operation)).count();
    let needed = record::distance_to_rows(n) + outcomes;
    let coins = random.bytes(outcomes + 1);
    let lengths = if more { vec![needed, needed - 1, needed + 3] } else { vec![needed] };
    for lent in lengths {
        write(Case::Run(text.clone(), coins.clone(), lent))?;
    }
    Ok(())
}

fn records_of(write: Write, random: &mut Random, n: usize, more: bool) -> io::Result<()> {
    let (outcomes, mut tableau) = make::finished(random, n);
    let plain = record::write(&outcomes, &tableau);
    make::shuffle(random, &mut tableau);
    let shuffled = record::write(&outcomes, &tableau);
    write(Case::Copy(shuffled.clone(), shuffled.len()))?;
    if more {
        write(Case::Read([plain.clone(), shuffled.clone()].concat()))?;
        write(Case::Copy(plain.clone(), plain.len() - 1))?;
        write(Case::Same(plain, shuffled))?;
    }
    if more || n % 3 == 0 {
        damage::pairing(random, &mut tableau);
        write(Case::Read(record::write(b"", &tableau)))?;
    }
    Ok(())
}

fn most_operations(write: Write) -> io::Result<()> {
    let mut random = Random::new(4096);
    for (n, percent) in [(1, 50), (5, 30), (SEAM, 3), (MOST_QUBITS - 1, 5), (MOST_QUBITS, 20)] {
        let operations = make::operations(&mut random, n, MOST_OPERATIONS, percent);
        let text = make::text(n, &operations);
        let coins = random.bytes(MOST_OPERATIONS);
        write(Case::Check(text.clone()))?;
        write(Case::Run(text.clone(), coins, record::LONGEST + 500))?;
        let mut cut = text;
        cut.pop();
        write(Case::Check(cut))?;
    }
    for name in ["M", "MR"] {
        let lines = format!("{name} {}\n", MOST_QUBITS - 1).repeat(MOST_OPERATIONS);
        let text = format!("Q {MOST_QUBITS}\n{lines}").into_bytes();
        write(Case::Run(text.clone(), vec![], record::LONGEST))?;
        write(Case::Run(text, vec![], record::LONGEST - 1))?;
    }
    Ok(())
}

/// Bytes of all sorts after the 4,096th operation, and a bad line before.
fn too_many_operations(write: Write) -> io::Result<()> {
    let most = "Q 1\n".to_string() + &"H 0\n".repeat(MOST_OPERATIONS);
    for value in [0, 1, 10, 32, 48, 72, 77, 200, 254, 255] {
        let text = [most.as_bytes(), &[value]].concat();
        write(Case::Check(text.clone()))?;
        write(Case::Run(text, vec![1], 0))?;
    }
    for line in ["H 0\n", "M 0\n", "MR 0\n", "H 9\n", "CX 0 0\n", "h\n", "H 0", "H 0\nH 0\n"] {
        write(Case::Check([most.as_bytes(), line.as_bytes()].concat()))?;
    }
    for line in ["H 1\n", "MR 1\n", "CX 0 0\n", "h 0\n"] {
        let bad = "Q 1\n".to_string() + &"S 0\n".repeat(MOST_OPERATIONS - 1) + line;
        write(Case::Check(bad.clone().into_bytes()))?;
        write(Case::Check((bad + "H 0\n").into_bytes()))?;
    }
    Ok(())
}

fn most_outcomes(write: Write) -> io::Result<()> {
    let mut random = Random::new(record::LONGEST as u64);
    for n in [1, 2, SEAM, MOST_QUBITS] {
        for count in [MOST_OPERATIONS - 1, MOST_OPERATIONS, MOST_OPERATIONS + 1] {
            let mut tableau = Tableau::start(n);
            make::shuffle(&mut random, &mut tableau);
            let mut bytes = record::write(&make::outcomes(&mut random, count), &tableau);
            write(Case::Read(bytes.clone()))?;
            write(Case::Copy([&bytes[..], &bytes[..]].concat(), bytes.len()))?;
            bytes[count - 1] = b'4';
            write(Case::Read(bytes.clone()))?;
            bytes[0] = b'I';
            write(Case::Read(bytes))?;
        }
    }
    let longest = vec![b'0'; MOST_OPERATIONS];
    let longest = record::write(&longest, &Tableau::start(MOST_QUBITS));
    write(Case::Same(longest.clone(), longest))
}

/// Records that would be sound if n could be what they say: one more than
/// the most, and none.
fn too_wide(write: Write) -> io::Result<()> {
    for n in [MOST_QUBITS + 1, 0] {
        let bytes = record::write(b"01", &Tableau::start(n));
        write(Case::Read(bytes.clone()))?;
        write(Case::Copy(bytes.clone(), bytes.len()))?;
        write(Case::Same(bytes, record::write(b"", &Tableau::start(1))))?;
    }
    Ok(())
}

/// Trailers whose n and distances lie around the ones that hold.
fn distances(write: Write) -> io::Result<()> {
    let sound = record::write(b"0123", &Tableau::start(3).gate(Operation::H(1)));
    let bytes = [&sound[..], &sound[..]].concat();
    let at = bytes.len() - record::TRAILER;
    for (first, length) in [(at, 4), (at + 4, 4), (at + 8, 2)] {
        for place in first..first + length {
            for step in [1, 2, 3, 4, 5, 252, 253, 254, 255] {
                let mut changed = bytes.clone();
                changed[place] = changed[place].wrapping_add(step);
                write(Case::Read(changed))?;
            }
        }
    }
    Ok(())
}

/// A record far behind the start of the lent bytes.
fn long_archive(write: Write) -> io::Result<()> {
    let sound = record::write(b"021", &Tableau::start(2).gate(Operation::H(0)));
    let bytes = [&[b'I'; 70_000][..], &sound[..]].concat();
    write(Case::Read(bytes.clone()))?;
    write(Case::Copy(bytes, sound.len() + 1))
}

/// Eight random measurements, each followed by a fixed one of its qubit.
fn eight_coins(random: &mut Random, n: usize, first: fn(usize) -> Operation) -> Vec<u8> {
    let mut operations = Vec::new();
    for _ in 0..8 {
        let a = random.below(n);
        operations.extend([Operation::H(a), first(a), Operation::S(a), Operation::M(a)]);
    }
    make::text(n, &operations)
}

fn lacking_coins(write: Write) -> io::Result<()> {
    let mut random = Random::new(7);
    for n in [1, 2, 5, SEAM, MOST_QUBITS] {
        for first in [Operation::M, Operation::MR] {
            let text = eight_coins(&mut random, n, first);
            for coins in [0, 1, 3, 4, 7, 8, 9] {
                let coins = random.bytes(coins);
                let needed = record::distance_to_rows(n) + 16;
                write(Case::Run(text.clone(), coins.clone(), needed))?;
                write(Case::Run(text.clone(), coins, needed - 1))?;
            }
        }
    }
    Ok(())
}

/// A measurement without a coin, and behind it lines that are refused, or
/// too many, or a buffer that is too short.
fn refused_without_coins(write: Write) -> io::Result<()> {
    let most = "H 1\n".repeat(MOST_OPERATIONS - 2);
    let (more, bad) = (most.clone() + "H 1\n", most.clone() + "h");
    let few = ["", "H 1\n", "M 1\n", "MR 1\n", "H 2\n", "MR 2\n", "CX 1 1\n", "h 0\n", "H 0"];
    for dry in ["Q 2\nH 0\nM 0\n", "Q 2\nH 0\nMR 0\n"] {
        for lines in few.into_iter().chain([&most[..], &more, &bad]) {
            for lent in [0, 24, 25, 26] {
                write(Case::Run((dry.to_string() + lines).into_bytes(), vec![], lent))?;
            }
        }
    }
    Ok(())
}
