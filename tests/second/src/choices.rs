//! Products over choices, and the three statements of document 02, request m.
//! A choice says of each row whether it is in. Its product is that of the rows
//! that are in, in their order: letters and power of i by the table of
//! document 01, place by place, and two for each minus. The statements are
//! asked of every choice, one after another; no routine that multiplies two
//! rows is used, and no pair of rows is looked at.

use crate::letters::{product, Letter};
use crate::row::Row;
use crate::tableau::Tableau;

/// A power of i, 0 to 3, and a letter for each qubit.
#[derive(Clone, PartialEq, Eq, Debug)]
pub struct Product {
    pub power: i32,
    pub letters: Vec<Letter>,
}

/// The product over a choice of rows on n qubits. Where no row is in, it is
/// plus with only I letters.
pub fn over(n: usize, rows: &[Row], choice: &[bool]) -> Product {
    let mut total = Product { power: 0, letters: vec![Letter::I; n] };
    for (row, is_in) in rows.iter().zip(choice) {
        if !is_in {
            continue;
        }
        if row.minus {
            total.power += 2;
        }
        for place in 0..n {
            let (letter, power) = product(total.letters[place], row.letters[place]);
            total.letters[place] = letter;
            total.power += power;
        }
    }
    total.power = total.power.rem_euclid(4);
    total
}

/// Every choice among so many rows, the empty one first.
pub fn all(rows: usize) -> Vec<Vec<bool>> {
    let mut found = vec![Vec::new()];
    for _ in 0..rows {
        let without = found.iter().map(|choice| [choice.as_slice(), &[false]].concat());
        let with = found.iter().map(|choice| [choice.as_slice(), &[true]].concat());
        found = without.chain(with).collect();
    }
    found
}

/// What all the choices of a tableau's rows say.
pub struct Said {
    /// A nonempty choice of the 2n rows whose product has only I letters.
    pub dependent: Option<Vec<bool>>,
    /// A choice of the stabilizers whose product is minus the identity.
    pub minus_identity: Option<Vec<bool>>,
    /// For each qubit, whether plus Z there alone is a product of stabilizers,
    /// and whether minus Z is.
    pub z: Vec<(bool, bool)>,
    /// For each qubit, whether such a product has another sign than the minus
    /// signs of its rows alone would give it.
    pub by_power: Vec<bool>,
}

pub fn ask(tableau: &Tableau) -> Said {
    let n = tableau.n;
    let only_i = vec![Letter::I; n];
    let has_only_i = |choice: &Vec<bool>| over(n, &tableau.rows, choice).letters == only_i;
    let stabilizers = &tableau.rows[n..];
    let choices = all(n);
    let products: Vec<Product> =
        choices.iter().map(|choice| over(n, stabilizers, choice)).collect();
    let find = |power: i32, letters: &[Letter]| {
        products.iter().position(|one| one.power == power && one.letters == letters)
    };
    let (mut z, mut by_power) = (Vec::new(), Vec::new());
    for a in 0..n {
        let alone = Row::single(n, a, Letter::Z).letters;
        let found = [find(0, &alone), find(2, &alone)];
        let minus = found.map(|place| place.is_some_and(|place| odd(stabilizers, &choices[place])));
        z.push((found[0].is_some(), found[1].is_some()));
        by_power.push(minus[0] || found[1].is_some() && !minus[1]);
    }
    let dependent = all(2 * n).into_iter().skip(1).find(has_only_i);
    let minus_identity = find(2, &only_i).map(|place| choices[place].clone());
    Said { dependent, minus_identity, z, by_power }
}

/// Whether an odd number of the rows that are in have a minus.
fn odd(rows: &[Row], choice: &[bool]) -> bool {
    let minus = rows.iter().zip(choice).filter(|(row, is_in)| **is_in && row.minus);
    minus.count() % 2 == 1
}

/// The rows that are in a choice, counted from `first`.
fn named(choice: &[bool], first: usize) -> String {
    let rows = (0..choice.len()).filter(|row| choice[*row]);
    rows.map(|row| (first + row).to_string()).collect::<Vec<_>>().join(" ")
}

impl Said {
    /// Statement 3 for qubit a, which the letters of the stabilizers tell to
    /// be fixed or not.
    fn third(&self, tableau: &Tableau, a: usize) -> Option<String> {
        let fixed = tableau.rows[tableau.n..].iter().all(|row| !row.has_x_or_y(a));
        match (fixed, self.z[a]) {
            (true, (true, false) | (false, true)) | (false, (false, false)) => None,
            (_, (true, true)) => Some(format!("plus and minus Z on {a} are products")),
            (true, _) => Some(format!("{a} is fixed, and neither Z is a product")),
            (false, _) => Some(format!("{a} is not fixed, and one Z is a product")),
        }
    }

    /// The number of each statement that fails, and how.
    pub fn failing(&self, tableau: &Tableau) -> Vec<(usize, String)> {
        let mut found = Vec::new();
        if let Some(choice) = &self.dependent {
            found.push((1, format!("only I in the product of rows {}", named(choice, 0))));
        }
        if let Some(choice) = &self.minus_identity {
            let rows = named(choice, tableau.n);
            found.push((2, format!("minus the identity is the product of rows {rows}")));
        }
        for a in 0..tableau.n {
            found.extend(self.third(tableau, a).map(|how| (3, how)));
        }
        found
    }

    /// Whether a measurement of a has the outcome that the products say: 0
    /// where plus Z is among them, 1 where minus Z is, random where neither.
    pub fn gives(&self, a: usize, outcome: u8) -> bool {
        match self.z[a] {
            (true, false) => outcome == b'0',
            (false, true) => outcome == b'1',
            (false, false) => outcome == b'2' || outcome == b'3',
            (true, true) => false,
        }
    }
}
