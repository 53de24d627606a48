//! A Pauli row: a sign and n letters. Rows are multiplied letter by letter,
//! the powers of i are summed as signed numbers, each minus sign adds two,
//! and the total is reduced by a remainder that is never negative.

use crate::circuit::MOST_QUBITS;
use crate::letters::{product, Letter};

/// A sign and a letter for each qubit.
pub const LONGEST_TEXT: usize = 1 + MOST_QUBITS;

#[derive(Clone, PartialEq, Eq, Debug)]
pub struct Row {
    pub minus: bool,
    pub letters: Vec<Letter>,
}

impl Row {
    /// Plus, with one letter at place a and I at all other places.
    pub fn single(n: usize, a: usize, letter: Letter) -> Row {
        let mut letters = vec![Letter::I; n];
        letters[a] = letter;
        Row { minus: false, letters }
    }

    /// The powers of i of all places together, and two for each minus sign.
    pub fn power_sum(&self, other: &Row) -> i32 {
        let mut power: i32 = 0;
        for place in 0..self.letters.len() {
            power += product(self.letters[place], other.letters[place]).1;
        }
        if self.minus {
            power += 2;
        }
        if other.minus {
            power += 2;
        }
        power
    }

    pub fn times(&self, other: &Row) -> Row {
        let power = self.power_sum(other);
        let mut letters = Vec::new();
        for place in 0..self.letters.len() {
            letters.push(product(self.letters[place], other.letters[place]).0);
        }
        Row { minus: power.rem_euclid(4) == 2, letters }
    }

    pub fn commutes(&self, other: &Row) -> bool {
        let mut differing = 0;
        for place in 0..self.letters.len() {
            let (first, second) = (self.letters[place], other.letters[place]);
            if first != second && first != Letter::I && second != Letter::I {
                differing += 1;
            }
        }
        differing % 2 == 0
    }

    pub fn has_x_or_y(&self, a: usize) -> bool {
        self.letters[a] == Letter::X || self.letters[a] == Letter::Y
    }

    pub fn text(&self) -> Vec<u8> {
        let mut text = vec![if self.minus { b'-' } else { b'+' }];
        for letter in &self.letters {
            text.push(letter.byte());
        }
        text
    }

    /// The row that a text names, or the place of the first byte not listed.
    pub fn from_text(text: &[u8]) -> Result<Row, usize> {
        let minus = match text[0] {
            b'+' => false,
            b'-' => true,
            _ => return Err(0),
        };
        let mut letters = Vec::new();
        for (place, byte) in text.iter().enumerate().skip(1) {
            match Letter::from_byte(*byte) {
                Some(letter) => letters.push(letter),
                None => return Err(place),
            }
        }
        Ok(Row { minus, letters })
    }
}
