//! The fixed sweeps over stated readouts: of small circuits every readout,
//! every length and every byte as a character; readouts of circuits that are
//! refused; as many random measurements as a double's exponent holds, one
//! more and many more, with fixed ones among them that agree or do not; every
//! size that must come; and the most characters.

use crate::circuit::{self, Operation, MOST_OPERATIONS, MOST_QUBITS};
use crate::make;
use crate::probability::MOST_RANDOM;
use crate::probability_cases::{characters, other, true_readout};
use crate::protocol::Case;
use crate::random::Random;
use crate::seam::{SEAM, SIZES};
use crate::sweeps::every_byte;
use std::io;

type Write<'a> = &'a mut dyn FnMut(Case) -> io::Result<()>;

/// Small circuits with up to four measurements: none, fixed and random ones,
/// one random after another, a Bell pair measured twice, one whose values
/// differ, four qubits tied to one another, a parity of two, minus Y read by
/// an ancilla, resets, and a qubit sent to another by a Bell pair.
pub const SMALL: [&str; 14] = [
    "Q 2\nH 0\nCX 0 1\n",
    "Q 1\nM 0\n",
    "Q 1\nX 0\nM 0\n",
    "Q 1\nH 0\nM 0\n",
    "Q 1\nH 0\nM 0\nM 0\nH 0\nM 0\nM 0\n",
    "Q 2\nH 0\nCX 0 1\nM 0\nM 1\nM 0\nM 1\n",
    "Q 2\nH 0\nCX 0 1\nX 1\nM 1\nM 0\n",
    "Q 4\nH 0\nCX 0 1\nCX 1 2\nCX 2 3\nM 2\nM 0\nM 3\nM 1\n",
    "Q 3\nH 0\nH 1\nCX 0 2\nCX 1 2\nM 0\nM 1\nM 2\n",
    "Q 2\nH 0\nS 0\nZ 0\nH 1\nZ 0\nS 0\nCX 1 0\nS 0\nH 1\nM 1\nM 0\nM 0\n",
    "Q 1\nH 0\nMR 0\nM 0\n",
    "Q 1\nX 0\nMR 0\nMR 0\nH 0\nMR 0\n",
    "Q 2\nH 0\nCX 0 1\nMR 0\nM 1\nMR 1\nM 1\n",
    "Q 3\nX 0\nH 1\nCX 1 2\nCX 0 1\nH 0\nM 0\nM 1\nCX 1 2\nCZ 0 2\nM 2\n",
];

pub fn all(write: Write) -> io::Result<()> {
    for text in SMALL {
        every_readout(write, text.as_bytes())?;
        every_length(write, text.as_bytes())?;
    }
    every_character(write)?;
    two_operations(write)?;
    refused_circuits(write)?;
    many_random(write)?;
    many_and_fixed(write)?;
    sizes(write)?;
    most_characters(write)
}

fn measurements(text: &[u8]) -> usize {
    circuit::parse(text).map_or(0, |circuit| circuit.measurements())
}

fn some_readout(random: &mut Random, text: &[u8]) -> Vec<u8> {
    circuit::parse(text).map_or(Vec::new(), |circuit| true_readout(random, &circuit))
}

/// Every list of so many values.
pub fn lists(length: usize) -> Vec<Vec<u8>> {
    let mut made = vec![Vec::new()];
    for _ in 0..length {
        let longer = |list: &Vec<u8>| [b'0', b'1'].map(|value| [&list[..], &[value]].concat());
        made = made.iter().flat_map(longer).collect();
    }
    made
}

fn every_readout(write: Write, text: &[u8]) -> io::Result<()> {
    for stated in lists(measurements(text)) {
        write(Case::Probability(text.to_vec(), stated))?;
    }
    Ok(())
}

fn every_length(write: Write, text: &[u8]) -> io::Result<()> {
    for length in 0..=measurements(text) + 2 {
        for value in [b'0', b'1', b'2'] {
            write(Case::Probability(text.to_vec(), vec![value; length]))?;
        }
    }
    Ok(())
}

/// Every byte at every place of readouts of which one, the second of the Bell
/// pair, is impossible; and at every place of a circuit's text.
fn every_character(write: Write) -> io::Result<()> {
    let readouts =
        [(1, "0"), (3, "0"), (5, "0000"), (5, "0100"), (10, "00"), (11, "100"), (13, "001")];
    for (small, stated) in readouts {
        for changed in every_byte(stated.as_bytes()) {
            write(Case::Probability(SMALL[small].as_bytes().to_vec(), changed))?;
        }
    }
    for text in every_byte(b"Q 1\nM 0\n") {
        write(Case::Probability(text, b"0".to_vec()))?;
    }
    Ok(())
}

/// Every two operations on a pair of qubits, then both measured.
fn two_operations(write: Write) -> io::Result<()> {
    let mut every = vec![];
    for (a, b) in [(0, 1), (1, 0)] {
        every.extend(["H", "S", "X", "Y", "Z", "M", "MR"].map(|name| format!("{name} {a}\n")));
        every.extend([format!("CX {a} {b}\n"), format!("CZ {a} {b}\n")]);
    }
    for one in &every {
        for two in &every {
            let text = format!("Q 2\nH 0\nCX 0 1\nS 0\n{one}{two}M 0\nM 1\n");
            every_readout(write, text.as_bytes())?;
        }
    }
    Ok(())
}

/// Readouts of the right length and of others, with and without a bad
/// character, of circuits that are refused for themselves.
fn refused_circuits(write: Write) -> io::Result<()> {
    let most = "Q 1\n".to_string() + &"M 0\n".repeat(MOST_OPERATIONS);
    let bad = ["", "Q 1", "Q 0\nM 0\n", "Q 129\nM 0\n", "Q 1\nM 0", "Q 1\nM 0\nh 0\n"];
    let more = ["Q 1\nM 0\nM 1\n", "Q 2\nM 0\nCX 1 1\n", "Q 2\nM 0\nCX 2 2\n"];
    for text in bad.into_iter().chain(more) {
        for stated in ["", "0", "1", "00", "2", "000"] {
            write(Case::Probability(text.into(), stated.into()))?;
        }
    }
    for stated in [vec![], vec![b'0'; MOST_OPERATIONS], vec![b'x'; MOST_OPERATIONS + 1]] {
        for after in ["M 0\n", "?"] {
            write(Case::Probability((most.clone() + after).into_bytes(), stated.clone()))?;
        }
    }
    Ok(())
}

/// So many random measurements of the qubits in turn. There cannot be more
/// of them than lines with H.
fn turns(n: usize, count: usize, measurement: fn(usize) -> Operation) -> Vec<Operation> {
    (0..count).flat_map(|turn| [Operation::H(turn % n), measurement(turn % n)]).collect()
}

fn many_random(write: Write) -> io::Result<()> {
    let mut random = Random::new(MOST_RANDOM as u64);
    let most = MOST_OPERATIONS / 2;
    let few = [0, 1, 2, 3, 10, 51, 52, 53, 54, 64, 127, 128, 255, 256, 511, 512];
    let around = [MOST_RANDOM - 1, MOST_RANDOM, MOST_RANDOM + 1, MOST_RANDOM + 2];
    for count in few.into_iter().chain(around).chain([1074, 1075, most - 1, most]) {
        let text = make::text(1, &turns(1, count, Operation::M));
        let mixed = characters(&mut random, count);
        for stated in [vec![b'0'; count], vec![b'1'; count], mixed] {
            write(Case::Probability(text.clone(), stated))?;
        }
    }
    for n in [1, 2, SEAM + 1, MOST_QUBITS] {
        for count in [53, MOST_RANDOM, MOST_RANDOM + 1] {
            let text = make::text(n, &turns(n, count, Operation::MR));
            write(Case::Probability(text, characters(&mut random, count)))?;
        }
    }
    Ok(())
}

/// The text with a readout that has the other character at some places.
fn turned(text: &[u8], readout: &[u8], places: &[usize]) -> Case {
    let mut stated = readout.to_vec();
    for place in places {
        stated[*place] = other(stated[*place]);
    }
    Case::Probability(text.to_vec(), stated)
}

/// A fixed measurement before many random ones, one among them and one after
/// them: all agree, some do not, a character is none, or one is lacking too.
fn many_and_fixed(write: Write) -> io::Result<()> {
    let mut random = Random::new(14);
    for count in [2, MOST_RANDOM - 1, MOST_RANDOM, MOST_RANDOM + 1, MOST_OPERATIONS / 2 - 2] {
        let half = turns(1, count / 2, Operation::M);
        let rest = turns(1, count - count / 2, Operation::M);
        let fixed = [Operation::M(0)];
        let text = make::text(1, &[&fixed[..], &half, &fixed, &rest, &fixed].concat());
        let mut readout = some_readout(&mut random, &text);
        let (first, middle, last) = (0, count / 2 + 1, count + 2);
        for places in [&[][..], &[last], &[middle], &[first], &[middle, last], &[first, last]] {
            write(turned(&text, &readout, places))?;
        }
        for place in [last, first] {
            readout[place] = b'2';
            write(turned(&text, &readout, &[middle]))?;
            write(turned(&text, &readout[..last], &[]))?;
        }
    }
    Ok(())
}

/// All qubits tied to the first one; all random, and then the same again;
/// all random and reset; and the last one the parity of the others.
fn tied_qubits(n: usize) -> [Vec<Operation>; 4] {
    let each = |operation: fn(usize) -> Operation| (0..n).map(operation).collect::<Vec<_>>();
    let (spread, all, reset) = (each(Operation::H), each(Operation::M), each(Operation::MR));
    let mut tied = vec![Operation::H(0)];
    tied.extend((1..n).map(|b| Operation::CX(b - 1, b)));
    let mut parity = spread[..n - 1].to_vec();
    parity.extend((0..n - 1).map(|a| Operation::CX(a, n - 1)));
    tied.extend(&all);
    parity.extend(&all);
    let again = [&spread[..], &all, &all].concat();
    [tied, again, [&spread[..], &reset, &all].concat(), parity]
}

fn sizes(write: Write) -> io::Result<()> {
    let mut random = Random::new(SEAM as u64);
    for n in SIZES {
        for operations in tied_qubits(n) {
            let text = make::text(n, &operations);
            let readout = some_readout(&mut random, &text);
            let (middle, last) = (readout.len() / 2, readout.len() - 1);
            for places in [&[][..], &[last], &[middle, last]] {
                write(turned(&text, &readout, places))?;
            }
        }
    }
    Ok(())
}

fn most_characters(write: Write) -> io::Result<()> {
    for (n, name) in [(1, "M"), (1, "MR"), (MOST_QUBITS, "M"), (MOST_QUBITS, "MR")] {
        let line = format!("{name} {}\n", n - 1);
        let text = format!("Q {n}\n{}", line.repeat(MOST_OPERATIONS)).into_bytes();
        let zeros = vec![b'0'; MOST_OPERATIONS];
        let mut wrong = zeros.clone();
        wrong[MOST_OPERATIONS - 1] = b'1';
        let longer = [&zeros[..], b"0"].concat();
        for stated in [&zeros[..], &wrong, &zeros[1..], &longer] {
            write(Case::Probability(text.clone(), stated.to_vec()))?;
        }
    }
    Ok(())
}
