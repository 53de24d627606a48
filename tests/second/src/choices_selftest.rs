//! Examples of request m with what all choices of their rows say, worked out
//! by hand; and products over choices held against products of matrices. A
//! row is the Kronecker product of its letters' matrices, those printed in
//! source document 000, with its sign; the rows that are in are multiplied as
//! matrices are, in whole complex numbers. This rests on nobody's table.

use crate::answers;
use crate::choices::{self, Product};
use crate::choices_cases::{paired, tableau, MINUS, TEXTBOOK};
use crate::letters::Letter;
use crate::make;
use crate::random::Random;
use crate::row::Row;
use crate::selftest::Tests;
use crate::state::{self, Gaussian, Two};
use crate::tableau::Tableau;

pub fn all(tests: &mut Tests) {
    sound(tests);
    unsound(tests);
    outcomes(tests);
    textbook(tests);
    by_matrices(tests);
}

/// What is said of the rows: `1` where they are dependent, `2` where minus the
/// identity is a product, then `+`, `-`, `?` or `!` for each qubit, as plus Z
/// alone is a product, minus Z, neither, or both; and the statements that
/// fail.
fn said(tests: &mut Tests, rows: &[&str], expected: &str) {
    let tableau = tableau(rows);
    let said = choices::ask(&tableau);
    let mut found = String::new();
    found.push_str(if said.dependent.is_some() { "1" } else { "" });
    found.push_str(if said.minus_identity.is_some() { "2" } else { "" });
    for z in &said.z {
        found.push(match z {
            (true, false) => '+',
            (false, true) => '-',
            (false, false) => '?',
            (true, true) => '!',
        });
    }
    for (which, _) in said.failing(&tableau) {
        found.push_str(&format!(" {which}"));
    }
    tests.equal(&format!("choices of {}", rows.join(" ")), &found, expected);
}

fn sound(tests: &mut Tests) {
    said(tests, &["+X", "+Z"], "+");
    said(tests, &["+X", "-Z"], "-");
    said(tests, &["-Z", "-X"], "?");
    said(tests, &["+Z", "+Y"], "?");
    said(tests, &["+XX", "+IX", "-ZI", "+ZZ"], "--");
    said(tests, &["+ZI", "+IX", "+XX", "+ZZ"], "??");
    said(tests, &["+ZI", "+XX", "+IZ", "-XI"], "?+");
    said(tests, &["+IX", "+XI", "+ZZ", "-ZI"], "--");
    said(tests, &["+XXI", "+IXX", "+XXX", "+ZZI", "-IZZ", "-ZZZ"], "++-");
    said(tests, &["+XIY", "+XYI", "+XII", "+YYI", "-XXI", "+IIZ"], "??+");
}

fn unsound(tests: &mut Tests) {
    said(tests, &["+X", "+X"], "1? 1");
    said(tests, &["+X", "+I"], "1? 1 3");
    said(tests, &["+Z", "-I"], "12? 1 2 3");
    said(tests, &["+XI", "+IX", "+ZI", "+ZI"], "1+? 1 3");
    said(tests, &["+XI", "+IX", "+ZI", "-ZI"], "12!? 1 2 3 3");
    said(tests, &["+XI", "+IX", "+ZI", "+XZ"], "+? 3 3");
    said(tests, &MINUS, "12??? 1 2 3");
}

fn outcomes(tests: &mut Tests) {
    for (rows, gives) in [(["+X", "+Z"], "0"), (["+X", "-Z"], "1"), (["+Z", "+X"], "23")] {
        let said = choices::ask(&tableau(&rows));
        let found = "0123".bytes().filter(|outcome| said.gives(0, *outcome)).collect();
        let found = String::from_utf8(found).unwrap_or_default();
        tests.equal(&format!("outcomes of M 0 on {}", rows.join(" ")), &found, gives);
    }
}

/// Every run of the list is one.
fn textbook(tests: &mut Tests) {
    for text in TEXTBOOK {
        let refused = answers::check(text.as_bytes()).number;
        tests.equal(&format!("check of {text:?}"), &refused.to_string(), "0");
    }
}

type Matrix = Vec<Vec<Gaussian>>;

fn scaled(by: Gaussian, matrix: Matrix) -> Matrix {
    let line = |line: Vec<Gaussian>| line.into_iter().map(|entry| by.times(entry)).collect();
    matrix.into_iter().map(line).collect()
}

/// Every entry of the first becomes the second, times that entry.
fn kronecker(first: &Matrix, second: Two) -> Matrix {
    let mut found = Vec::new();
    for line in first {
        for entries in second {
            let times = |entry: &Gaussian| entries.map(|other| entry.times(other));
            found.push(line.iter().flat_map(times).collect());
        }
    }
    found
}

fn times(first: &Matrix, second: &Matrix) -> Matrix {
    let size = first.len();
    let mut found = vec![vec![state::O; size]; size];
    for (line, row) in found.iter_mut().zip(first) {
        for (column, entry) in line.iter_mut().enumerate() {
            for place in 0..size {
                *entry = entry.plus(row[place].times(second[place][column]));
            }
        }
    }
    found
}

fn of_letters(letters: &[Letter]) -> Matrix {
    let one = vec![vec![state::ONE]];
    letters.iter().fold(one, |matrix, letter| kronecker(&matrix, state::pauli(*letter)))
}

fn of_row(row: &Row) -> Matrix {
    scaled(if row.minus { state::MINUS } else { state::ONE }, of_letters(&row.letters))
}

fn of_product(product: &Product) -> Matrix {
    let powers = [state::ONE, state::TIMES_I, state::MINUS, state::MINUS_I];
    scaled(powers[product.power as usize], of_letters(&product.letters))
}

/// How many of all choices of the rows have another product as matrices.
fn differing(tableau: &Tableau) -> usize {
    let rows: Vec<Matrix> = tableau.rows.iter().map(of_row).collect();
    let mut count = 0;
    for choice in choices::all(rows.len()) {
        let mut product = of_letters(&vec![Letter::I; tableau.n]);
        for (row, _) in rows.iter().zip(&choice).filter(|(_, is_in)| **is_in) {
            product = times(&product, row);
        }
        let found = choices::over(tableau.n, &tableau.rows, &choice);
        count += usize::from(of_product(&found) != product);
    }
    count
}

/// Rows that are properly paired, and rows of any kind.
fn by_matrices(tests: &mut Tests) {
    let mut random = Random::new(1);
    for round in 0..36 {
        let n = 1 + round % 3;
        let mut tableau = paired(&mut random, n);
        if round % 2 == 0 {
            tableau.rows = (0..2 * n).map(|_| make::row(&mut random, n)).collect();
        }
        let what = format!("choices with another product as matrices, round {round}");
        tests.equal(&what, &differing(&tableau).to_string(), "0");
    }
}
