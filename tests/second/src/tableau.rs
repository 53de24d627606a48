//! The 2n rows and what the seven gates do to them: for every row the sign
//! rule and the new bits of the table in document 01 under "The operations",
//! always read from the old letters.

use crate::circuit::Operation;
use crate::letters::Letter;
use crate::row::Row;

#[derive(Clone, PartialEq, Eq, Debug)]
pub struct Tableau {
    pub n: usize,
    pub rows: Vec<Row>,
}

impl Tableau {
    pub fn start(n: usize) -> Tableau {
        let mut rows = Vec::new();
        for qubit in 0..n {
            rows.push(Row::single(n, qubit, Letter::X));
        }
        for qubit in 0..n {
            rows.push(Row::single(n, qubit, Letter::Z));
        }
        Tableau { n, rows }
    }

    pub fn partner(&self, row: usize) -> usize {
        if row < self.n {
            row + self.n
        } else {
            row - self.n
        }
    }

    /// The lower row of the first pair that commutes where it should not, or
    /// does not where it should.
    pub fn first_wrong_pair(&self) -> Option<usize> {
        for lower in 0..2 * self.n {
            for upper in lower + 1..2 * self.n {
                let partners = upper == self.partner(lower);
                if self.rows[lower].commutes(&self.rows[upper]) == partners {
                    return Some(lower);
                }
            }
        }
        None
    }

    /// Every operation but a measurement.
    pub fn gate(self, operation: Operation) -> Tableau {
        match operation {
            Operation::H(a) => self.one(a, |x, z| (x && z, z, x)),
            Operation::S(a) => self.one(a, |x, z| (x && z, x, z != x)),
            Operation::X(a) => self.one(a, |x, z| (z, x, z)),
            Operation::Y(a) => self.one(a, |x, z| (x != z, x, z)),
            Operation::Z(a) => self.one(a, |x, z| (x, x, z)),
            Operation::CX(a, b) => self.cx(a, b),
            Operation::CZ(a, b) => self.cz(a, b),
            Operation::M(_) | Operation::MR(_) => self,
        }
    }

    /// A gate on qubit a by its rule: from the old x and z to whether the
    /// sign turns over, the new x and the new z.
    fn one(mut self, a: usize, rule: fn(bool, bool) -> (bool, bool, bool)) -> Tableau {
        for row in &mut self.rows {
            let old = row.letters[a];
            let (turns, x, z) = rule(old.x(), old.z());
            row.minus = row.minus != turns;
            row.letters[a] = Letter::from_bits(x, z);
        }
        self
    }

    fn cx(mut self, a: usize, b: usize) -> Tableau {
        for row in &mut self.rows {
            let (xa, za) = (row.letters[a].x(), row.letters[a].z());
            let (xb, zb) = (row.letters[b].x(), row.letters[b].z());
            let turns = xa && zb && xb == za;
            row.minus = row.minus != turns;
            row.letters[a] = Letter::from_bits(xa, za != zb);
            row.letters[b] = Letter::from_bits(xb != xa, zb);
        }
        self
    }

    fn cz(mut self, a: usize, b: usize) -> Tableau {
        for row in &mut self.rows {
            let (xa, za) = (row.letters[a].x(), row.letters[a].z());
            let (xb, zb) = (row.letters[b].x(), row.letters[b].z());
            let turns = xa && xb && za != zb;
            row.minus = row.minus != turns;
            row.letters[a] = Letter::from_bits(xa, za != xb);
            row.letters[b] = Letter::from_bits(xb, zb != xa);
        }
        self
    }
}
