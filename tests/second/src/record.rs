//! The run record: outcomes, rows and the trailer that points back. Written
//! and read as document 01 says under "The run record", with the refusals 9,
//! 10 and 11 in that order.

use crate::circuit::{MOST_OPERATIONS, MOST_QUBITS};
use crate::refusal::Refusal;
use crate::row::Row;
use crate::tableau::Tableau;

pub const TRAILER: usize = 12;
pub const LONGEST: usize = distance_to_rows(MOST_QUBITS) + MOST_OPERATIONS;

/// Distance from the record's end to its first row.
pub const fn distance_to_rows(n: usize) -> usize {
    TRAILER + 2 * n * (n + 1)
}

fn lowest_first(number: usize, places: usize) -> Vec<u8> {
    let mut rest = number;
    let mut bytes = Vec::new();
    for _ in 0..places {
        bytes.push((rest % 256) as u8);
        rest /= 256;
    }
    bytes
}

fn from_lowest_first(bytes: &[u8]) -> usize {
    let mut value = 0;
    for byte in bytes.iter().rev() {
        value = value * 256 + *byte as usize;
    }
    value
}

pub fn write(outcomes: &[u8], tableau: &Tableau) -> Vec<u8> {
    let first = distance_to_rows(tableau.n);
    let mut record = outcomes.to_vec();
    for row in &tableau.rows {
        record.extend(row.text());
    }
    record.extend(lowest_first(first, 4));
    record.extend(lowest_first(first + outcomes.len(), 4));
    record.extend(lowest_first(tableau.n, 2));
    record.extend([0x53, 0x52]);
    record
}

/// The last record of the lent bytes.
pub struct Record {
    pub start: usize,
    pub length: usize,
    pub outcomes: Vec<u8>,
    pub tableau: Tableau,
}

/// n, the first and the second distance, when the trailer holds good.
pub fn trailer(bytes: &[u8]) -> Option<(usize, usize, usize)> {
    if bytes.len() < TRAILER {
        return None;
    }
    let last = &bytes[bytes.len() - TRAILER..];
    let first = from_lowest_first(&last[0..4]);
    let second = from_lowest_first(&last[4..8]);
    let n = from_lowest_first(&last[8..10]);
    if last[10] != 0x53 || last[11] != 0x52 {
        return None;
    }
    if n < 1 || n > MOST_QUBITS || first != distance_to_rows(n) {
        return None;
    }
    if second < first || second > first + MOST_OPERATIONS || second > bytes.len() {
        return None;
    }
    Some((n, first, second))
}

fn outcomes(part: &[u8]) -> Result<Vec<u8>, Refusal> {
    for (place, byte) in part.iter().enumerate() {
        if !b"0123".contains(byte) {
            return Err(Refusal::at(10, place));
        }
    }
    Ok(part.to_vec())
}

fn rows(part: &[u8], n: usize, before: usize) -> Result<Vec<Row>, Refusal> {
    let mut found = Vec::new();
    for index in 0..2 * n {
        let start = index * (n + 1);
        match Row::from_text(&part[start..start + n + 1]) {
            Ok(row) => found.push(row),
            Err(place) => return Err(Refusal::at(10, before + start + place)),
        }
    }
    Ok(found)
}

/// The record by the refusals 9 and 10, its rows properly paired or not.
pub fn unpaired(bytes: &[u8]) -> Result<Record, Refusal> {
    let Some((n, first, second)) = trailer(bytes) else {
        return Err(Refusal::at(9, 0));
    };
    let start = bytes.len() - second;
    let rows_at = bytes.len() - first;
    let outcomes = outcomes(&bytes[start..rows_at])?;
    let rows = rows(&bytes[rows_at..], n, outcomes.len())?;
    Ok(Record { start, length: second, outcomes, tableau: Tableau { n, rows } })
}

pub fn read(bytes: &[u8]) -> Result<Record, Refusal> {
    let found = unpaired(bytes)?;
    if let Some(lower) = found.tableau.first_wrong_pair() {
        return Err(Refusal::at(11, lower));
    }
    Ok(found)
}
