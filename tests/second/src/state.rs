//! A state vector, exact: every amplitude is a Gaussian integer, and all of
//! them share one power of 1/sqrt 2. The gates are the matrices printed in
//! source document 000, sections 3 and 4.1; CZ, which is not printed there,
//! is CNOT between two H on the target. Nothing here knows of a tableau.
//! `choices_selftest` multiplies the same matrices.

use crate::circuit::Operation;
use crate::letters::Letter;
use crate::row::Row;

/// re + im i.
#[derive(Clone, Copy, PartialEq, Eq, Debug)]
pub struct Gaussian {
    re: i64,
    im: i64,
}

const fn g(re: i64, im: i64) -> Gaussian {
    Gaussian { re, im }
}

pub const O: Gaussian = g(0, 0);
pub const ONE: Gaussian = g(1, 0);
pub const MINUS: Gaussian = g(-1, 0);
pub const TIMES_I: Gaussian = g(0, 1);
pub const MINUS_I: Gaussian = g(0, -1);

pub type Two = [[Gaussian; 2]; 2];

const IDENTITY: Two = [[ONE, O], [O, ONE]];
const PAULI_X: Two = [[O, ONE], [ONE, O]];
const PAULI_Y: Two = [[O, MINUS_I], [TIMES_I, O]];
const PAULI_Z: Two = [[ONE, O], [O, MINUS]];
const PHASE: Two = [[ONE, O], [O, TIMES_I]];
/// Without its factor 1/sqrt 2.
const HADAMARD: Two = [[ONE, ONE], [ONE, MINUS]];
/// Over 00, 01, 10, 11, the control written first.
const CNOT: [[Gaussian; 4]; 4] = [[ONE, O, O, O], [O, ONE, O, O], [O, O, O, ONE], [O, O, ONE, O]];

pub fn pauli(letter: Letter) -> Two {
    match letter {
        Letter::I => IDENTITY,
        Letter::X => PAULI_X,
        Letter::Y => PAULI_Y,
        Letter::Z => PAULI_Z,
    }
}

impl Gaussian {
    pub fn plus(self, other: Gaussian) -> Gaussian {
        g(self.re + other.re, self.im + other.im)
    }

    pub fn times(self, other: Gaussian) -> Gaussian {
        let re = self.re * other.re - self.im * other.im;
        g(re, self.re * other.im + self.im * other.re)
    }

    fn square(self) -> i64 {
        self.re * self.re + self.im * self.im
    }

    fn is_even(self) -> bool {
        self.re % 2 == 0 && self.im % 2 == 0
    }
}

/// Amplitude k belongs to the basis state whose qubit q is digit q of k in
/// base two; each is to be divided by sqrt 2 as often as `roots` says.
#[derive(Clone, PartialEq, Eq, Debug)]
pub struct State {
    amplitudes: Vec<Gaussian>,
    roots: u32,
}

fn weight_of(qubit: usize) -> usize {
    2usize.pow(qubit as u32)
}

fn digit(index: usize, qubit: usize) -> usize {
    index / weight_of(qubit) % 2
}

impl State {
    pub fn start(n: usize) -> State {
        let mut amplitudes = vec![O; weight_of(n)];
        amplitudes[0] = ONE;
        State { amplitudes, roots: 0 }
    }

    fn one(&mut self, matrix: Two, q: usize) {
        for low in 0..self.amplitudes.len() {
            if digit(low, q) == 1 {
                continue;
            }
            let high = low + weight_of(q);
            let old = [self.amplitudes[low], self.amplitudes[high]];
            for (index, line) in [low, high].into_iter().zip(matrix) {
                self.amplitudes[index] = line[0].times(old[0]).plus(line[1].times(old[1]));
            }
        }
    }

    fn hadamard(&mut self, q: usize) {
        self.one(HADAMARD, q);
        self.roots += 1;
        while self.roots >= 2 && self.amplitudes.iter().all(|a| a.is_even()) {
            for amplitude in &mut self.amplitudes {
                *amplitude = g(amplitude.re / 2, amplitude.im / 2);
            }
            self.roots -= 2;
        }
    }

    fn cnot(&mut self, control: usize, target: usize) {
        for base in 0..self.amplitudes.len() {
            if digit(base, control) == 1 || digit(base, target) == 1 {
                continue;
            }
            let (c, t) = (weight_of(control), weight_of(target));
            let four = [base, base + t, base + c, base + c + t];
            let old = four.map(|index| self.amplitudes[index]);
            for (index, line) in four.into_iter().zip(CNOT) {
                let mut sum = O;
                for (entry, amplitude) in line.into_iter().zip(old) {
                    sum = sum.plus(entry.times(amplitude));
                }
                self.amplitudes[index] = sum;
            }
        }
    }

    /// Every operation but a measurement.
    pub fn gate(&mut self, operation: Operation) {
        match operation {
            Operation::H(a) => self.hadamard(a),
            Operation::S(a) => self.one(PHASE, a),
            Operation::X(a) => self.one(PAULI_X, a),
            Operation::Y(a) => self.one(PAULI_Y, a),
            Operation::Z(a) => self.one(PAULI_Z, a),
            Operation::CX(a, b) => self.cnot(a, b),
            Operation::CZ(a, b) => {
                self.hadamard(b);
                self.cnot(a, b);
                self.hadamard(b);
            }
            Operation::M(_) | Operation::MR(_) => {}
        }
    }

    /// The squared lengths of the parts with qubit a at 0 and at 1, in units
    /// of which the whole state has `whole`.
    pub fn weights(&self, a: usize) -> [i64; 2] {
        let mut weights = [0, 0];
        for (index, amplitude) in self.amplitudes.iter().enumerate() {
            weights[digit(index, a)] += amplitude.square();
        }
        weights
    }

    pub fn whole(&self) -> i64 {
        2i64.pow(self.roots)
    }

    /// Keep the part of the state with qubit a at the value, as long or as
    /// short as it is.
    pub fn keep(&mut self, a: usize, value: bool) {
        for index in 0..self.amplitudes.len() {
            if (digit(index, a) == 1) != value {
                self.amplitudes[index] = O;
            }
        }
    }

    /// Keep the half of the state with qubit a at the value, and bring it
    /// back to length one.
    pub fn project(&mut self, a: usize, value: bool) {
        self.keep(a, value);
        self.roots -= 1;
    }

    /// The squared length of the state: a whole number, and how often it is
    /// to be halved.
    pub fn squared_length(&self) -> (i64, u32) {
        (self.amplitudes.iter().map(|amplitude| amplitude.square()).sum(), self.roots)
    }

    /// Whether the row with its sign leaves the state as it is.
    pub fn is_left_by(&self, row: &Row) -> bool {
        let mut image = self.clone();
        for (q, letter) in row.letters.iter().enumerate() {
            image.one(pauli(*letter), q);
        }
        let sign = if row.minus { MINUS } else { ONE };
        for amplitude in &mut image.amplitudes {
            *amplitude = sign.times(*amplitude);
        }
        image == *self
    }
}
