//! Stated readouts with the answers that document 02, request h, gives them,
//! worked out by hand; and for small circuits, whether the answer says how
//! many of all coin lists give the readout.

use crate::answers;
use crate::circuit;
use crate::measure;
use crate::probability_cases::readout;
use crate::probability_sweeps::{lists, SMALL};
use crate::protocol::{hex, Case};
use crate::selftest::Tests;

pub fn all(tests: &mut Tests) {
    possible_or_not(tests);
    by_other_qubits(tests);
    refused(tests);
    many_random(tests);
    coin_lists(tests);
}

fn ask(tests: &mut Tests, text: &str, stated: &str, expected: &str) {
    tests.case(Case::Probability(text.into(), stated.into()), expected);
}

/// The bits of 1, 1/2 and 1/4, of which the sign and the fraction are zero
/// and the exponent field is 1,023, 1,022 and 1,021.
const HALVES: [&str; 3] = ["4607182418800017408", "4602678819172646912", "4598175219545276416"];

const BELL: &str = "Q 2\nH 0\nCX 0 1\nM 0\nM 1\n";

fn possible_or_not(tests: &mut Tests) {
    let [whole, half, quarter] = HALVES;
    ask(tests, BELL, "00", &format!("0 0 1 1 {half}"));
    ask(tests, BELL, "11", &format!("0 0 1 1 {half}"));
    ask(tests, BELL, "01", "0 0 0 5 0");
    ask(tests, BELL, "10", "0 0 0 5 0");
    ask(tests, "Q 1\n", "", &format!("0 0 1 0 {whole}"));
    ask(tests, "Q 1\nM 0\n", "0", &format!("0 0 1 0 {whole}"));
    ask(tests, "Q 1\nM 0\n", "1", "0 0 0 2 0");
    ask(tests, "Q 1\nM 0\nM 0\nM 0\n", "011", "0 0 0 3 0");
    ask(tests, "Q 1\nH 0\nM 0\nH 0\nM 0\n", "10", &format!("0 0 1 2 {quarter}"));
    let reset = "Q 1\nX 0\nMR 0\nH 0\nMR 0\nM 0\n";
    ask(tests, reset, "110", &format!("0 0 1 1 {half}"));
    ask(tests, reset, "111", "0 0 0 6 0");
    ask(tests, reset, "011", "0 0 0 3 0");
}

fn by_other_qubits(tests: &mut Tests) {
    let half = HALVES[1];
    let minus_y = "Q 2\nH 0\nS 0\nZ 0\nH 1\nZ 0\nS 0\nCX 1 0\nS 0\nH 1\nM 1\nM 0\nM 0\n";
    ask(tests, minus_y, "111", &format!("0 0 1 1 {half}"));
    ask(tests, minus_y, "010", "0 0 0 11 0");
    ask(tests, minus_y, "110", "0 0 0 13 0");
    let sent = "Q 3\nX 0\nH 1\nCX 1 2\nCX 0 1\nH 0\nM 0\nM 1\nCX 1 2\nCZ 0 2\nM 2\n";
    for stated in ["001", "011", "101", "111"] {
        ask(tests, sent, stated, &format!("0 0 1 2 {}", HALVES[2]));
    }
    ask(tests, sent, "010", "0 0 0 11 0");
}

fn refused(tests: &mut Tests) {
    for stated in ["", "0", "2", "000", "0 2"] {
        ask(tests, BELL, stated, "15 0 0 0 0");
    }
    ask(tests, BELL, "x0", "10 0 0 0 0");
    ask(tests, BELL, "02", "10 1 0 0 0");
    ask(tests, BELL, "\u{0}\u{1}", "10 0 0 0 0");
    ask(tests, "Q 1\nM 0\nM 0\n", "12", "10 1 0 0 0");
    ask(tests, "", "2", "1 1 0 0 0");
    ask(tests, "Q 129\nM 0\n", "", "2 1 0 0 0");
    ask(tests, "Q 1\nM 0\nM 1\n", "2", "4 3 0 0 0");
}

fn many_random(tests: &mut Tests) {
    let text = |count: usize| "Q 1\n".to_string() + &"H 0\nM 0\n".repeat(count);
    ask(tests, &text(1022), &"1".repeat(1022), "0 0 1 1022 4503599627370496");
    ask(tests, &text(1023), &"1".repeat(1023), "14 0 0 0 0");
    ask(tests, &text(2048), &"0".repeat(2048), "14 0 0 0 0");
    ask(tests, &text(1023), &("1".repeat(1022) + "2"), "10 1022 0 0 0");
    ask(tests, &text(1023), &"1".repeat(1022), "15 0 0 0 0");
    let fixed = text(1023) + "M 0\n";
    ask(tests, &fixed, &("1".repeat(1023) + "0"), "0 0 0 2048 0");
    ask(tests, &fixed, &"1".repeat(1024), "14 0 0 0 0");
}

/// Of the lists of as many coins as there are measurements, those that give a
/// readout: all of them halved as often as k says, or none.
fn coin_lists(tests: &mut Tests) {
    for text in SMALL {
        let Ok(circuit) = circuit::parse(text.as_bytes()) else {
            return tests.equal("a small circuit", "refused", text);
        };
        let every = lists(circuit.measurements());
        for stated in &every {
            let gives = |coins: &Vec<u8>| {
                measure::run(&circuit, coins).is_ok_and(|done| readout(&done.outcomes) == *stated)
            };
            let found = every.iter().filter(|coins| gives(coins)).count();
            let places = answers::probability(text.as_bytes(), stated).places;
            let expected = if places[1] == 1 { every.len() >> places[2] } else { 0 };
            let what = format!("coin lists of {text:?} that give {}", hex(stated));
            tests.equal(&what, &found.to_string(), &expected.to_string());
        }
    }
}
