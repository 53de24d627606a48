//! The circuit text: its lines, their words and numbers, and the refusals 1
//! to 6 in the order document 01 gives. The ninth operation, `MR a`, is that
//! of document 02, request b, and the most qubits are those of request i.

use crate::refusal::Refusal;

pub const MOST_OPERATIONS: usize = 4096;
pub const MOST_QUBITS: usize = 128;

#[derive(Clone, Copy, PartialEq, Eq, Debug)]
pub enum Operation {
    H(usize),
    S(usize),
    X(usize),
    Y(usize),
    Z(usize),
    CX(usize, usize),
    CZ(usize, usize),
    M(usize),
    MR(usize),
}

pub struct Circuit {
    pub n: usize,
    pub operations: Vec<Operation>,
}

impl Circuit {
    pub fn measurements(&self) -> usize {
        self.operations.iter().filter_map(|operation| measured(*operation)).count()
    }
}

/// One line without its end byte, and whether the end byte was there.
struct Line<'a> {
    bytes: &'a [u8],
    ended: bool,
}

fn lines(text: &[u8]) -> Vec<Line<'_>> {
    let mut found = Vec::new();
    let mut start = 0;
    for (place, byte) in text.iter().enumerate() {
        if *byte == 10 {
            found.push(Line { bytes: &text[start..place], ended: true });
            start = place + 1;
        }
    }
    if start < text.len() {
        found.push(Line { bytes: &text[start..], ended: false });
    }
    found
}

/// One to three decimal digits, no leading zero except `0` itself.
fn number(word: &[u8]) -> Option<usize> {
    if word.is_empty() || word.len() > 3 {
        return None;
    }
    if word.len() > 1 && word[0] == b'0' {
        return None;
    }
    let mut value = 0;
    for byte in word {
        if !(b'0'..=b'9').contains(byte) {
            return None;
        }
        value = value * 10 + (*byte - b'0') as usize;
    }
    Some(value)
}

fn first_line(line: Option<&Line>) -> Result<usize, Refusal> {
    let refused = Err(Refusal::at(1, 1));
    let Some(line) = line else {
        return refused;
    };
    let words: Vec<&[u8]> = line.bytes.split(|byte| *byte == b' ').collect();
    if !line.ended || words.len() != 2 || words[0] != b"Q" {
        return refused;
    }
    match number(words[1]) {
        None => refused,
        Some(n) if n < 1 || n > MOST_QUBITS => Err(Refusal::at(2, 1)),
        Some(n) => Ok(n),
    }
}

/// The operation a line writes, whatever its qubits are.
fn written(line: &Line) -> Option<Operation> {
    if !line.ended {
        return None;
    }
    let words: Vec<&[u8]> = line.bytes.split(|byte| *byte == b' ').collect();
    let mut numbers = Vec::new();
    for word in &words[1..] {
        numbers.push(number(word)?);
    }
    match (words[0], numbers.as_slice()) {
        (b"H", [a]) => Some(Operation::H(*a)),
        (b"S", [a]) => Some(Operation::S(*a)),
        (b"X", [a]) => Some(Operation::X(*a)),
        (b"Y", [a]) => Some(Operation::Y(*a)),
        (b"Z", [a]) => Some(Operation::Z(*a)),
        (b"CX", [a, b]) => Some(Operation::CX(*a, *b)),
        (b"CZ", [a, b]) => Some(Operation::CZ(*a, *b)),
        (b"M", [a]) => Some(Operation::M(*a)),
        (b"MR", [a]) => Some(Operation::MR(*a)),
        _ => None,
    }
}

impl Operation {
    /// The qubits the operation names.
    pub fn qubits(self) -> Vec<usize> {
        match self {
            Operation::H(a) | Operation::S(a) => vec![a],
            Operation::X(a) | Operation::Y(a) | Operation::Z(a) => vec![a],
            Operation::CX(a, b) | Operation::CZ(a, b) => vec![a, b],
            Operation::M(a) | Operation::MR(a) => vec![a],
        }
    }
}

/// The qubit an operation measures, if it measures one.
pub fn measured(operation: Operation) -> Option<usize> {
    match operation {
        Operation::M(a) | Operation::MR(a) => Some(a),
        _ => None,
    }
}

/// A line by the refusals 3, 4, 5.
fn operation(line: &Line, n: usize, place: usize) -> Result<Operation, Refusal> {
    let Some(operation) = written(line) else {
        return Err(Refusal::at(3, place));
    };
    let named = operation.qubits();
    if named.iter().any(|qubit| *qubit >= n) {
        return Err(Refusal::at(4, place));
    }
    if named.len() == 2 && named[0] == named[1] {
        return Err(Refusal::at(5, place));
    }
    Ok(operation)
}

pub fn parse(text: &[u8]) -> Result<Circuit, Refusal> {
    let all = lines(text);
    let n = first_line(all.first())?;
    let mut operations = Vec::new();
    for (index, line) in all.iter().enumerate().skip(1) {
        if operations.len() == MOST_OPERATIONS {
            return Err(Refusal::at(6, MOST_OPERATIONS + 2));
        }
        operations.push(operation(line, n, index + 1)?);
    }
    Ok(Circuit { n, operations })
}
