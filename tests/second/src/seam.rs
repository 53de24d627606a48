//! What is peculiar to more than 64 qubits. A library may hold its rows in
//! words of 64 bits, those from 64 on in other words than those before; the
//! documents know nothing of it. Here are the sizes on both sides of that
//! seam, circuits whose outcomes hang on rows of both sides, and the names
//! under which `coverage` counts how often they do.

use crate::circuit::{measured, Operation, MOST_QUBITS};
use crate::letters::Letter;
use crate::make;
use crate::random::Random;
use crate::row::Row;
use crate::tableau::Tableau;

/// The first row, stabilizer or destabilizer, and the first qubit beyond a
/// word of 64 bits.
pub const SEAM: usize = 64;

/// The sizes that must come: the ends, both sides of the seam, and a patch
/// of distance 7.
pub const SIZES: [usize; 7] =
    [1, SEAM - 1, SEAM, SEAM + 1, 97, MOST_QUBITS - 1, MOST_QUBITS];

/// Kinds of measurements on more than 64 qubits. Those of a random one speak
/// of its row p and the rows multiplied by it, those of a fixed one of the
/// stabilizers multiplied.
pub const RANDOM: [&str; 5] = [
    "p before 64",
    "p from 64 on",
    "rows from 64 on by p before",
    "rows before 64 by p beyond",
    "p before 64, the next beyond",
];
pub const FIXED: [&str; 4] =
    ["before 64 alone", "from 64 on alone", "both sides", "both sides, odd Y before"];
/// Other things that hang on what lies beyond the seam: two rows whose
/// letters from 64 on add to the power of i, and a refusal 11 there.
pub const BEYOND: [&str; 2] = ["powers from 64 on", "wrong pairs from row 64 on"];

fn is_beyond(tableau: &Tableau, row: usize) -> bool {
    row % tableau.n >= SEAM
}

/// The kinds that a measurement of a is of.
pub fn kinds(tableau: &Tableau, a: usize) -> Vec<&'static str> {
    if tableau.n <= SEAM {
        return Vec::new();
    }
    match tableau.random_row(a) {
        Some(p) => random_kinds(tableau, a, p),
        None => fixed_kinds(tableau, a),
    }
}

fn random_kinds(tableau: &Tableau, a: usize, p: usize) -> Vec<&'static str> {
    let side = usize::from(is_beyond(tableau, p));
    let mut kinds = vec![RANDOM[side]];
    let multiplied = tableau.multiplied(a, p);
    if multiplied.iter().any(|row| is_beyond(tableau, *row) != is_beyond(tableau, p)) {
        kinds.push(RANDOM[2 + side]);
    }
    let next = multiplied.iter().find(|row| **row > p);
    if side == 0 && next.is_some_and(|row| is_beyond(tableau, *row)) {
        kinds.push(RANDOM[4]);
    }
    kinds
}

/// Where stabilizers of both sides are multiplied, the parities of the first
/// ones' letters count for the second ones too. A sign that is counted from
/// pairs of an earlier z and a later x goes wrong without them exactly when
/// the product of the first ones has Y at an odd number of places.
fn fixed_kinds(tableau: &Tableau, a: usize) -> Vec<&'static str> {
    let (mut before, mut beyond) = (None::<Row>, false);
    for row in tableau.chosen(a) {
        if is_beyond(tableau, row) {
            beyond = true;
        } else {
            let row = &tableau.rows[row];
            before = Some(before.map_or(row.clone(), |product| product.times(row)));
        }
    }
    let Some(product) = before else {
        return vec![FIXED[1]];
    };
    if !beyond {
        return vec![FIXED[0]];
    }
    let odd = product.letters.iter().filter(|letter| **letter == Letter::Y).count() % 2 == 1;
    if odd { vec![FIXED[2], FIXED[3]] } else { vec![FIXED[2]] }
}

/// Whether the letters of two rows from 64 on add to the power of i.
pub fn power_beyond(one: &Row, two: &Row) -> bool {
    let part = |row: &Row| {
        let letters = row.letters.iter().skip(SEAM).copied().collect();
        Row { minus: false, letters }
    };
    part(one).power_sum(&part(two)).rem_euclid(4) != 0
}

/// The rows after an operation; the coin of a measurement is 0, since a coin
/// decides no letter.
fn after(tableau: Tableau, operation: Operation) -> Tableau {
    let found = measured(operation).and_then(|a| Some((a, tableau.random_row(a)?)));
    match found {
        Some((a, p)) => tableau.collapse(a, p, false),
        None => tableau.gate(operation),
    }
}

/// Ancilla a takes in the parity of a row that has I there. Between an S
/// undone, which is Z and S, and an S the controlled X is a controlled Y.
pub fn parity(a: usize, row: &Row) -> Vec<Operation> {
    let mut made = vec![Operation::H(a)];
    for (q, letter) in row.letters.iter().enumerate() {
        let (z, s, cx) = (Operation::Z(q), Operation::S(q), Operation::CX(a, q));
        match letter {
            Letter::I => {}
            Letter::X => made.push(cx),
            Letter::Y => made.extend([z, s, cx, s]),
            Letter::Z => made.push(Operation::CZ(a, q)),
        }
    }
    made.push(Operation::H(a));
    made
}

/// The product of up to three stabilizers of one side of the seam or of
/// both, none of them an ancilla's own.
fn some_product(random: &mut Random, tableau: &Tableau, ancillas: &[usize]) -> Row {
    let n = tableau.n;
    let (least, most) = *random.one_of(&[(0, SEAM - 1), (SEAM, n - 1), (0, n - 1)]);
    let mut product = Row { minus: false, letters: vec![Letter::I; n] };
    for _ in 0..random.between(1, 3) {
        let place = random.between(least, most);
        if !ancillas.contains(&place) {
            product = product.times(&tableau.rows[n + place]);
        }
    }
    product
}

/// A circuit on more than 64 qubits: random operations beside a few
/// ancillas, and then on each ancilla the parity of a product of stabilizers,
/// which is fixed, and fixed by just these rows and the ancilla's.
pub fn circuit(random: &mut Random, n: usize) -> Vec<u8> {
    let ancillas = [random.below(SEAM), random.between(SEAM, n - 1), random.below(n)];
    let mut made = make::spread(random, n);
    let count = random.below(2 * n);
    let percent = *random.one_of(&[0, 5, 20]);
    made.extend(make::operations(random, n, count, percent));
    made.retain(|operation| !operation.qubits().iter().any(|q| ancillas.contains(q)));
    let mut tableau = Tableau::start(n);
    for operation in &made {
        tableau = after(tableau, *operation);
    }
    for a in ancillas {
        let product = some_product(random, &tableau, &ancillas);
        if product.letters[a] == Letter::I {
            let mut check = parity(a, &product);
            check.push(if random.chance(50) { Operation::M(a) } else { Operation::MR(a) });
            for operation in &check {
                tableau = after(tableau, *operation);
            }
            made.extend(check);
        }
    }
    let more = random.below(n);
    made.extend(make::operations(random, n, more, 30));
    make::text(n, &made)
}
