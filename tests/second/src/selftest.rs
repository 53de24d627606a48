//! The examples of document 01, some of `MR` in document 02, and some points
//! of the order of refusals that are easy to get wrong, each written out with
//! its answer. Those of stated readouts are in `probability_selftest`, those of
//! products over choices in `choices_selftest`.

use crate::answers;
use crate::choices_selftest;
use crate::circuit::Operation;
use crate::probability_selftest;
use crate::protocol::{hex, lent, Case};
use crate::record;
use crate::row::Row;
use crate::shot::shot;
use crate::tableau::Tableau;

pub struct Tests {
    passed: usize,
    failed: Vec<String>,
}

impl Tests {
    pub fn equal(&mut self, what: &str, found: &str, expected: &str) {
        if found == expected {
            self.passed += 1;
        } else {
            self.failed.push(format!("{what}: found {found:?}, expected {expected:?}"));
        }
    }

    /// The number and places of a check, given as one line.
    fn check(&mut self, text: &str, expected: &str) {
        let found = answers::check(text.as_bytes()).line();
        self.equal(&format!("check of {:.40?}", text), &found, expected);
    }

    fn shot(&mut self, input: &str, expected: &str) {
        self.equal(&format!("shot of {:.60?}", input), &shot(input.as_bytes()), expected);
    }

    pub fn case(&mut self, case: Case, expected: &str) {
        let found = case.answer().line();
        self.equal(&format!("{:.80}", case.line()), &found, expected);
    }

    fn product(&mut self, first: &str, second: &str, expected: &str) {
        let (one, two) = (first.as_bytes().to_vec(), second.as_bytes().to_vec());
        let lent = first.len();
        let word = match expected.as_bytes()[0] {
            b'+' | b'-' => format!("0 0 {lent} {}", hex(expected.as_bytes())),
            _ => expected.to_string(),
        };
        self.case(Case::Product(one, two, lent), &word);
    }

    fn gate(&mut self, gate: Operation, before: &str, after: &str) {
        let rows = Row::from_text(before.as_bytes()).into_iter().collect();
        let found = Tableau { n: before.len() - 1, rows }.gate(gate).rows[0].text();
        let found = String::from_utf8_lossy(&found).into_owned();
        self.equal(&format!("{gate:?} on {before}"), &found, after);
    }
}

fn rows_and_gates(tests: &mut Tests) {
    tests.product("+XX", "+ZZ", "-YY");
    tests.product("+ZZ", "+XX", "-YY");
    tests.product("-XX", "+ZZ", "+YY");
    tests.product("+X", "+Z", "12 0 0 030a");
    tests.product("+XIX", "+ZIZ", "-YIY");
    tests.case(Case::Product(b"+".to_vec(), b"+".to_vec(), 2), "13 0 0 030a");
    tests.case(Case::Product(b"+x".to_vec(), b"*Z".to_vec(), 2), "10 1 0 030a");
    tests.case(Case::Product(b"+X".to_vec(), b"+z".to_vec(), 0), "10 3 0 -");
    tests.case(Case::Product(b"+X".to_vec(), b"+Z".to_vec(), 1), "12 0 0 03");
    tests.case(Case::Product(b"+X".to_vec(), b"-X".to_vec(), 1), "8 0 0 03");
    tests.case(Case::Product(b"+X".to_vec(), b"-X".to_vec(), 3), "0 0 2 2d4911");
    tests.gate(Operation::H(0), "+Y", "-Y");
    tests.gate(Operation::S(0), "+Y", "-X");
    tests.gate(Operation::CX(0, 1), "+XZ", "-YY");
    tests.gate(Operation::CX(0, 1), "+YY", "-XZ");
    tests.gate(Operation::CZ(0, 1), "+XX", "+YY");
    tests.gate(Operation::CZ(0, 1), "+XY", "-YX");
}

fn texts(tests: &mut Tests) {
    tests.check("Q 64\n", "0 0 64 0");
    tests.check("Q 65\n", "0 0 65 0");
    tests.check("Q 128\nM 127\nCX 100 99\n", "0 0 128 2");
    tests.check("Q 128\nM 128\n", "4 2 0 0");
    for text in ["Q 129\n", "Q 0\n", "Q 999\n"] {
        tests.check(text, "2 1 0 0");
    }
    for text in ["Q 064\n", "", "Q 1000\n", "Q 2", "Q 129", "q 2\n"] {
        tests.check(text, "1 1 0 0");
    }
    tests.check("Q 2\nCX 1 1\n", "5 2 0 0");
    tests.check("Q 2\nCX 9 9\n", "4 2 0 0");
    for line in ["H 00\n", "h 0\n", "H  0\n", "H 9", "\n", "H 0 \n", "H 1000\n"] {
        tests.check(&format!("Q 2\n{line}"), "3 2 0 0");
    }
    tests.check("Q 2\nH 9\nh 0\n", "4 2 0 0");
    let most = "Q 1\n".to_string() + &"H 0\n".repeat(4096);
    tests.check(&most, "0 0 1 4096");
    tests.check(&(most.clone() + "H 0\n"), "6 4098 0 0");
    tests.check(&(most.clone() + "?"), "6 4098 0 0");
    tests.check(&most[..most.len() - 1], "3 4097 0 0");
}

fn runs(tests: &mut Tests) {
    tests.shot("\nQ 1\n", "+X\n+Z\n");
    tests.shot("\nQ 1\nH 0\nS 0\nS 0\nH 0\nM 0\n", "6 0 fixed 1\n+X\n-Z\n");
    tests.shot("0\nQ 2\nH 0\nCX 0 1\nM 1\n", "4 1 random 0\n+XX\n+XI\n+IZ\n+ZZ\n");
    tests.shot("0\nQ 1\nH 0\nM 0\nH 0\nM 0\n", "refused 7 5\n");
    tests.shot("00\nQ 1\nH 0\nM 0\nH 0\nM 0\n", "3 0 random 0\n5 0 random 0\n+X\n+Z\n");
    let printed = "4 0 random 1\n5 1 fixed 1\n+XX\n+IX\n-ZI\n+ZZ\n";
    tests.shot("1\nQ 2\nH 0\nCX 0 1\nM 0\nM 1\n", printed);
    tests.shot("1010", "refused 1 1\n");
    tests.shot(&"1".repeat(60_001), "input too long\n");
    tests.shot(&"1".repeat(60_000), "refused 1 1\n");

    let text = b"Q 2\nH 0\nCX 0 1\nM 0\nM 1\n".to_vec();
    let record = "33312b58582b49582d5a492b5a5a180000001a000000020053 52".replace(' ', "");
    let accepted = format!("0 0 26 0 2 1 1 {record}b9");
    tests.case(Case::Run(text.clone(), vec![255], 27), &accepted);
    tests.case(Case::Run(text.clone(), vec![], 4), "8 0 0 0 0 0 0 030a1118");
    let refused = answers::run(&text, &[], vec![9; 26]);
    tests.equal(
        "run without coins",
        &refused.line(),
        &format!("7 4 0 0 0 0 0 {}", "09".repeat(26)),
    );
    let all_coins = "7 5 0 1 0 0 0";
    let found = answers::run(b"Q 1\nH 0\nM 0\nH 0\nM 0\n", &[8], vec![0; 18]).line();
    tests.equal("coins left when refused", &found[..13], all_coins);
    let empty = answers::run(b"Q 1\n", &[5, 6], vec![0; 16]).line();
    tests.equal("the empty run", &empty, "0 0 16 2 0 0 0 2b582b5a100000001000000001005352");
}

fn reset_lines(tests: &mut Tests) {
    tests.check("Q 2\nMR 1\n", "0 0 2 1");
    tests.check("Q 13\nMR 12\nM 12\n", "0 0 13 2");
    tests.check("Q 2\nMR 2\n", "4 2 0 0");
    for line in ["M0\n", "MR0\n", "MRR 0\n", "M R 0\n", "MR\n", "MR \n", "MR  0\n"] {
        tests.check(&format!("Q 2\n{line}"), "3 2 0 0");
    }
    for line in ["MR 0", "MR 00\n", "MR 0 \n", "MR 0 1\n", "mr 0\n", "Mr 0\n", "RM 0\n", "R 0\n"] {
        tests.check(&format!("Q 2\n{line}"), "3 2 0 0");
    }
}

fn resets(tests: &mut Tests) {
    tests.shot("\nQ 1\nMR 0\n", "2 0 fixed 0\n+X\n+Z\n");
    tests.shot("\nQ 1\nX 0\nMR 0\nM 0\n", "3 0 fixed 1\n4 0 fixed 0\n+X\n+Z\n");
    tests.shot("0\nQ 1\nH 0\nMR 0\n", "3 0 random 0\n+X\n+Z\n");
    tests.shot("1\nQ 1\nH 0\nMR 0\n", "3 0 random 1\n+X\n+Z\n");
    tests.shot("0\nQ 1\nH 0\nS 0\nMR 0\n", "4 0 random 0\n+Y\n+Z\n");
    tests.shot("1\nQ 1\nH 0\nS 0\nMR 0\n", "4 0 random 1\n-Y\n+Z\n");
    tests.shot("1\nQ 1\nH 0\nMR 0\nH 0\nMR 0\n", "refused 7 5\n");
    let printed = "4 0 random 1\n5 1 fixed 1\n+XX\n+IX\n+ZI\n-ZZ\n";
    tests.shot("1\nQ 2\nH 0\nCX 0 1\nMR 0\nM 1\n", printed);
    let printed = "4 0 random 1\n5 1 fixed 1\n+XX\n+IX\n+ZI\n+ZZ\n";
    tests.shot("1\nQ 2\nH 0\nCX 0 1\nMR 0\nMR 1\n", printed);

    let text = b"Q 2\nH 0\nCX 0 1\nMR 0\nM 1\n".to_vec();
    let record: &[u8] = b"31+XX+IX+ZI-ZZ\x18\0\0\0\x1a\0\0\0\x02\0SR";
    let accepted = format!("0 0 26 1 2 1 1 {}", hex(record));
    tests.case(Case::Run(text.clone(), vec![7, 8], 26), &accepted);
    tests.case(Case::Run(text.clone(), vec![], 4), "8 0 0 0 0 0 0 030a1118");
    let refused = format!("7 4 0 0 0 0 0 {}", hex(&lent(26)));
    tests.case(Case::Run(text, vec![], 26), &refused);
}

fn records(tests: &mut Tests) {
    let bell: &[u8] = b"31+XX+IX-ZI+ZZ\x18\0\0\0\x1a\0\0\0\x02\0SR";
    let start: &[u8] = b"+X+Z\x10\0\0\0\x10\0\0\0\x01\0SR";
    let turned: &[u8] = b"31+ZX+IX-XI+XZ\x18\0\0\0\x1a\0\0\0\x02\0SR";
    let archive = [start, bell].concat();
    tests.case(Case::Read(archive.clone()), "0 0 26 2 16 2");
    tests.case(Case::Read(start.to_vec()), "0 0 16 1 0 0");
    tests.case(Case::Read(b"\x10\0\0\0\x10\0\0\0\x01\0SR".to_vec()), "9 0 0 0 0 0");
    tests.case(Case::Copy(archive.clone(), 26), &format!("0 0 26 {}", hex(bell)));
    let mut bad = archive.clone();
    bad[16] = b'4';
    bad[19] = b'x';
    tests.case(Case::Read(bad.clone()), "10 0 0 0 0 0");
    bad[16] = b'2';
    tests.case(Case::Read(bad), "10 3 0 0 0 0");
    let wrong: &[u8] = b"+X+X\x10\0\0\0\x10\0\0\0\x01\0SR";
    tests.case(Case::Read(wrong.to_vec()), "11 0 0 0 0 0");
    tests.case(Case::Same(wrong.to_vec(), vec![]), "11 1 0 0");
    tests.case(Case::Same(bell.to_vec(), vec![]), "9 2 0 0");
    tests.case(Case::Same(bell.to_vec(), archive.clone()), "0 0 0 1");
    tests.case(Case::Same(bell.to_vec(), start.to_vec()), "0 0 0 0");
    tests.case(Case::Same(bell.to_vec(), turned.to_vec()), "0 0 0 0");
}

/// What document 02, request i, moves: the longest record and the longest
/// rows.
fn limits(tests: &mut Tests) {
    let text = "Q 128\n".to_string() + &"M 127\n".repeat(4096);
    let found = answers::run(text.as_bytes(), &[], lent(37_132)).line();
    tests.equal("the longest record", &found[..20], "0 0 37132 0 4096 0 0");
    let found = answers::run(text.as_bytes(), &[], lent(37_131)).line();
    tests.equal("a byte too few for it", &found[..13], "8 0 0 0 0 0 0");
    let row = |length: usize| "+".to_string() + &"Y".repeat(length - 1);
    let product = "+".to_string() + &"I".repeat(128);
    tests.product(&row(129), &row(129), &product);
    let refused = format!("13 0 0 {}", hex(&lent(130)));
    tests.product(&row(130), &row(130), &refused);
    let wide = |n: usize| record::write(b"", &Tableau::start(n));
    for n in [65, 128] {
        let length = 12 + 2 * n * (n + 1);
        tests.case(Case::Read(wide(n)), &format!("0 0 {length} {n} 0 0"));
    }
    tests.case(Case::Read(wide(129)), "9 0 0 0 0 0");
}

pub fn run() -> Result<String, String> {
    let mut tests = Tests { passed: 0, failed: Vec::new() };
    rows_and_gates(&mut tests);
    texts(&mut tests);
    runs(&mut tests);
    reset_lines(&mut tests);
    resets(&mut tests);
    records(&mut tests);
    limits(&mut tests);
    probability_selftest::all(&mut tests);
    choices_selftest::all(&mut tests);
    if tests.failed.is_empty() {
        return Ok(format!("examples of documents 01 and 02: {} as written", tests.passed));
    }
    Err(tests.failed.join("\n"))
}
