//! Cases for the statements of document 02, request m, on up to four qubits:
//! runs from the textbooks and random ones, of each every prefix, and behind
//! every prefix the same with `M a` for each qubit a; some of the random ones
//! end with a measurement whose sign hangs on powers of i; every record on one
//! qubit; and records whose rows were damaged, in ways after which many are
//! still properly paired and in ways after which rows are dependent or minus
//! the identity is a product.

use crate::choices;
use crate::circuit::{self, Circuit, Operation};
use crate::letters::{Letter, ALL};
use crate::make;
use crate::protocol::Case;
use crate::random::Random;
use crate::record;
use crate::row::Row;
use crate::sweeps::Write;
use crate::tableau::Tableau;
use std::io;

const MOST_QUBITS: usize = 4;
const MOST_OPERATIONS: usize = 14;
/// How many records come behind each random run.
const RECORDS: usize = 12;

/// Document 01's examples, a pair that is measured as -Y, a pair whose YY is
/// asked with a third qubit, a ring of three whose XXX is asked with a fourth,
/// a state of four qubits alike, one sent over, a ring of four, and a code's
/// syndrome by MR.
pub const TEXTBOOK: [&str; 9] = [
    "Q 1\nH 0\nS 0\nS 0\nH 0\nM 0\n",
    "Q 2\nH 0\nCX 0 1\nM 0\nM 1\n",
    "Q 2\nH 0\nS 0\nZ 0\nH 1\nZ 0\nS 0\nCX 1 0\nS 0\nH 1\nM 1\nM 0\nM 0\n",
    "Q 3\nH 0\nCX 0 1\nS 0\nS 0\nS 0\nH 0\nS 1\nS 1\nS 1\nH 1\n\
     CX 0 2\nCX 1 2\nH 0\nS 0\nH 1\nS 1\nM 2\n",
    "Q 4\nH 0\nH 1\nH 2\nCZ 0 1\nCZ 1 2\nCZ 2 0\n\
     H 0\nH 1\nH 2\nCX 0 3\nCX 1 3\nCX 2 3\nH 0\nH 1\nH 2\nM 3\n",
    "Q 4\nH 0\nCX 0 1\nCX 1 2\nCX 2 3\nM 3\nM 0\n",
    "Q 3\nX 0\nH 1\nCX 1 2\nCX 0 1\nH 0\nM 0\nM 1\nCX 1 2\nCZ 0 2\nM 2\n",
    "Q 4\nH 0\nH 1\nH 2\nH 3\nCZ 0 1\nCZ 1 2\nCZ 2 3\nCZ 3 0\nH 0\nM 0\nH 2\nM 2\nM 1\n",
    "Q 4\nH 0\nCX 0 1\nCX 0 2\nX 1\nCX 0 3\nCX 1 3\nMR 3\nCX 1 3\nCX 2 3\nMR 3\nM 0\n",
];

/// Rows whose stabilizers are all plus and have minus the identity for their
/// product, by powers of i.
pub const MINUS: [&str; 6] = ["+ZII", "+IZI", "+IIX", "+XXI", "+ZZI", "+YYI"];

fn run(n: usize, operations: &[Operation], coins: &[u8]) -> Case {
    let circuit = Circuit { n, operations: operations.to_vec() };
    let length = circuit.measurements() + record::distance_to_rows(n);
    Case::Run(make::text(n, operations), coins.to_vec(), length)
}

/// Every prefix of a run, and behind each of them the n runs that measure one
/// qubit more. The judge counts on this order.
fn prefixes(circuit: &Circuit, coins: &[u8], write: Write) -> io::Result<()> {
    for end in 0..=circuit.operations.len() {
        let prefix = &circuit.operations[..end];
        write(run(circuit.n, prefix, coins))?;
        for a in 0..circuit.n {
            write(run(circuit.n, &[prefix, &[Operation::M(a)]].concat(), coins))?;
        }
    }
    Ok(())
}

fn random_run(random: &mut Random) -> Circuit {
    let n = random.between(1, MOST_QUBITS);
    let count = random.below(MOST_OPERATIONS + 1);
    let percent = *random.one_of(&[10, 25, 50]);
    let mut operations = Vec::new();
    if random.chance(50) {
        operations = make::spread(random, n);
    }
    operations.extend(make::operations(random, n, count, percent));
    Circuit { n, operations }
}

/// The operations after which Z on qubit `into` has become Z there times the
/// letter at a.
fn parity(a: usize, letter: Letter, into: usize) -> Vec<Operation> {
    let (h, s, cx) = (Operation::H(a), Operation::S(a), Operation::CX(a, into));
    match letter {
        Letter::I => vec![],
        Letter::X => vec![h, cx, h],
        Letter::Y => vec![s, s, s, h, cx, h, s],
        Letter::Z => vec![cx],
    }
}

/// Gates, and then a product of the stabilizers asked with one qubit more: the
/// outcome is fixed, and its sign often hangs on powers of i.
fn asked_run(random: &mut Random) -> Circuit {
    let n = random.between(2, MOST_QUBITS - 1);
    let mut operations: Vec<Operation> = (0..n).map(Operation::H).collect();
    operations.extend(make::operations(random, n, MOST_OPERATIONS, 0));
    let gates = operations.iter();
    let reached = gates.fold(Tableau::start(n), |tableau, gate| tableau.gate(*gate));
    let choice: Vec<bool> = (0..n).map(|_| random.chance(90)).collect();
    let product = choices::over(n, &reached.rows[n..], &choice);
    for (a, letter) in product.letters.iter().enumerate() {
        operations.extend(parity(a, *letter, n));
    }
    operations.push(*random.one_of(&[Operation::M(n), Operation::MR(n)]));
    Circuit { n: n + 1, operations }
}

pub fn tableau(rows: &[&str]) -> Tableau {
    let rows: Vec<Row> =
        rows.iter().filter_map(|row| Row::from_text(row.as_bytes()).ok()).collect();
    Tableau { n: rows.len() / 2, rows }
}

/// Both rows of one qubit, every letter with every sign.
fn of_one_qubit() -> Vec<Tableau> {
    let mut rows = Vec::new();
    for letter in ALL {
        rows.extend([false, true].map(|minus| Row { minus, letters: vec![letter] }));
    }
    let mut found = Vec::new();
    for first in &rows {
        for second in &rows {
            found.push(Tableau { n: 1, rows: vec![first.clone(), second.clone()] });
        }
    }
    found
}

/// Random rows that are properly paired: two that do not commute, each of
/// which commutes with the rows of all pairs before.
pub fn paired(random: &mut Random, n: usize) -> Tableau {
    let (mut upper, mut lower): (Vec<Row>, Vec<Row>) = (Vec::new(), Vec::new());
    while upper.len() < n {
        let (one, two) = (make::row(random, n), make::row(random, n));
        let commutes = |row: &Row| upper.iter().chain(&lower).all(|other| row.commutes(other));
        if !one.commutes(&two) && commutes(&one) && commutes(&two) {
            upper.push(one);
            lower.push(two);
        }
    }
    Tableau { n, rows: [upper, lower].concat() }
}

/// One step on one or two rows, after which some are still properly paired.
fn step(random: &mut Random, tableau: &mut Tableau) {
    let n = tableau.n;
    let (one, two) = (random.below(2 * n), random.below(2 * n));
    let partner = tableau.partner(one);
    let place = random.below(n);
    match random.below(8) {
        0 => tableau.rows[one].minus = !tableau.rows[one].minus,
        1 => tableau.rows[one].letters[place] = make::letter(random),
        2 => tableau.rows.swap(one, two),
        3 => tableau.rows.swap(one, partner),
        4 => tableau.rows[one] = tableau.rows[one].times(&tableau.rows[two]),
        5 => tableau.rows[one] = tableau.rows[one].times(&tableau.rows[partner]),
        6 => tableau.rows[one] = tableau.rows[two].clone(),
        _ => tableau.rows[n + one % n] = tableau.rows[n + one % n].times(&tableau.rows[two % n]),
    }
}

/// A stabilizer becomes a product of others, with any sign.
fn depend(random: &mut Random, tableau: &mut Tableau) {
    let n = tableau.n;
    let one = n + random.below(n);
    let mut product = Row { minus: random.chance(50), letters: vec![Letter::I; n] };
    for other in (n..2 * n).filter(|other| *other != one) {
        if random.chance(60) {
            product = product.times(&tableau.rows[other]);
        }
    }
    tableau.rows[one] = product;
}

fn damaged(random: &mut Random) -> Tableau {
    let n = random.between(1, MOST_QUBITS);
    let mut tableau = make::finished(random, n).1;
    match random.below(8) {
        0 => tableau = paired(random, n),
        1 => make::shuffle(random, &mut tableau),
        2 => depend(random, &mut tableau),
        3 => tableau.rows = (0..2 * n).map(|_| make::row(random, n)).collect(),
        4 => {
            tableau = paired(random, n);
            step(random, &mut tableau);
        }
        _ => {
            for _ in 0..random.between(1, 3) {
                step(random, &mut tableau);
            }
        }
    }
    tableau
}

fn read(tableau: &Tableau) -> Case {
    Case::Read(record::write(b"", tableau))
}

pub fn all(seed: u64, count: u64, write: Write) -> io::Result<()> {
    for circuit in TEXTBOOK.iter().filter_map(|text| circuit::parse(text.as_bytes()).ok()) {
        for coins in [[0, 0], [1, 1], [0, 1]] {
            prefixes(&circuit, &coins.repeat(circuit.operations.len()), write)?;
        }
    }
    for one in of_one_qubit().iter().chain([&tableau(&MINUS)]) {
        write(read(one))?;
    }
    let mut random = Random::new(seed);
    for _ in 0..count {
        let circuit =
            if random.chance(25) { asked_run(&mut random) } else { random_run(&mut random) };
        let coins = random.bytes(circuit.operations.len() + 1);
        prefixes(&circuit, &coins, write)?;
        for _ in 0..RECORDS {
            write(read(&damaged(&mut random)))?;
        }
    }
    Ok(())
}
