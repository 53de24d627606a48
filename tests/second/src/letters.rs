//! The four Pauli letters and their sixteen products, as document 01 lists
//! them under "Rows and their products". The power of i of a product is a
//! signed number here, -1 where the document says "3 (that is, -1)", so that
//! sums of powers do go below zero and the remainder by four is put to use.

#[derive(Clone, Copy, PartialEq, Eq, Debug)]
pub enum Letter {
    I,
    X,
    Y,
    Z,
}

use Letter::{I, X, Y, Z};

pub const ALL: [Letter; 4] = [I, X, Y, Z];

/// The letter of the product, and its power of i.
pub fn product(first: Letter, second: Letter) -> (Letter, i32) {
    match (first, second) {
        (I, I) => (I, 0),
        (I, X) => (X, 0),
        (I, Y) => (Y, 0),
        (I, Z) => (Z, 0),
        (X, I) => (X, 0),
        (X, X) => (I, 0),
        (X, Y) => (Z, 1),
        (X, Z) => (Y, -1),
        (Y, I) => (Y, 0),
        (Y, X) => (Z, -1),
        (Y, Y) => (I, 0),
        (Y, Z) => (X, 1),
        (Z, I) => (Z, 0),
        (Z, X) => (Y, 1),
        (Z, Y) => (X, -1),
        (Z, Z) => (I, 0),
    }
}

impl Letter {
    pub fn x(self) -> bool {
        match self {
            I | Z => false,
            X | Y => true,
        }
    }

    pub fn z(self) -> bool {
        match self {
            I | X => false,
            Y | Z => true,
        }
    }

    pub fn from_bits(x: bool, z: bool) -> Letter {
        match (x, z) {
            (false, false) => I,
            (true, false) => X,
            (true, true) => Y,
            (false, true) => Z,
        }
    }

    pub fn byte(self) -> u8 {
        match self {
            I => b'I',
            X => b'X',
            Y => b'Y',
            Z => b'Z',
        }
    }

    pub fn from_byte(byte: u8) -> Option<Letter> {
        match byte {
            b'I' => Some(I),
            b'X' => Some(X),
            b'Y' => Some(Y),
            b'Z' => Some(Z),
            _ => None,
        }
    }
}
