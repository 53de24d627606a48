//! The measurement of one qubit, random or fixed, in the words of document
//! 01 under "M a", what `MR a` of document 02 does after it, and the run of
//! all operations with lent coins.

use crate::circuit::{measured, Circuit, Operation};
use crate::letters::Letter;
use crate::refusal::Refusal;
use crate::row::Row;
use crate::tableau::Tableau;

impl Tableau {
    /// The lowest stabilizer row with X or Y at a: there is one exactly when
    /// the measurement is random.
    pub fn random_row(&self, a: usize) -> Option<usize> {
        (self.n..2 * self.n).find(|row| self.rows[*row].has_x_or_y(a))
    }

    /// The rows that a random measurement of a multiplies by row p.
    pub fn multiplied(&self, a: usize, p: usize) -> Vec<usize> {
        let mut found = Vec::new();
        for row in 0..2 * self.n {
            if row != p && row != self.partner(p) && self.rows[row].has_x_or_y(a) {
                found.push(row);
            }
        }
        found
    }

    /// A random measurement of a, p being the row found, with its coin.
    pub fn collapse(mut self, a: usize, p: usize, coin: bool) -> Tableau {
        let old = self.rows[p].clone();
        let partner = self.partner(p);
        for row in self.multiplied(a, p) {
            self.rows[row] = self.rows[row].times(&old);
        }
        self.rows[partner] = self.rows[p].clone();
        self.rows[p] = Row::single(self.n, a, Letter::Z);
        self.rows[p].minus = coin;
        self
    }

    /// The stabilizers that a fixed measurement of a multiplies.
    pub fn chosen(&self, a: usize) -> Vec<usize> {
        let partner_has = |row: &usize| self.rows[self.partner(*row)].has_x_or_y(a);
        (self.n..2 * self.n).filter(partner_has).collect()
    }

    /// The outcome of a fixed measurement of a.
    pub fn fixed_value(&self, a: usize) -> bool {
        let mut total = Row { minus: false, letters: vec![Letter::I; self.n] };
        for stabilizer in self.chosen(a) {
            total = total.times(&self.rows[stabilizer]);
        }
        total.minus
    }

    /// What an operation does once its measurement is done and the outcome
    /// known: `MR a` applies X on a when the outcome was 1, `M a` nothing.
    pub fn reset(self, operation: Operation, outcome: bool) -> Tableau {
        match operation {
            Operation::MR(a) if outcome => self.gate(Operation::X(a)),
            _ => self,
        }
    }
}

/// What a run leaves: the outcome characters, the rows, and the coins taken.
pub struct Finished {
    pub outcomes: Vec<u8>,
    pub tableau: Tableau,
    pub random: usize,
    pub taken: usize,
}

pub fn outcome_byte(random: bool, value: bool) -> u8 {
    match (random, value) {
        (false, false) => b'0',
        (false, true) => b'1',
        (true, false) => b'2',
        (true, true) => b'3',
    }
}

pub fn is_one(coin: u8) -> bool {
    coin % 2 == 1
}

pub fn run(circuit: &Circuit, coins: &[u8]) -> Result<Finished, Refusal> {
    let mut tableau = Tableau::start(circuit.n);
    let mut outcomes = Vec::new();
    let (mut random, mut taken) = (0, 0);
    for (index, operation) in circuit.operations.iter().enumerate() {
        let Some(a) = measured(*operation) else {
            tableau = tableau.gate(*operation);
            continue;
        };
        let found = tableau.random_row(a);
        let value = match found {
            None => tableau.fixed_value(a),
            Some(_) if taken == coins.len() => return Err(Refusal::at(7, index + 2)),
            Some(_) => is_one(coins[taken]),
        };
        if let Some(p) = found {
            tableau = tableau.collapse(a, p, value);
            random += 1;
            taken += 1;
        }
        tableau = tableau.reset(*operation, value);
        outcomes.push(outcome_byte(found.is_some(), value));
    }
    Ok(Finished { outcomes, tableau, random, taken })
}
