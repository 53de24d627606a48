//! What the program `shot` of document 01 prints for an input: the first
//! line is the coins, the rest is the circuit.

use crate::circuit;
use crate::measure;
use crate::refusal::Refusal;

const LONGEST_INPUT: usize = 60_000;

fn split(input: &[u8]) -> (&[u8], &[u8]) {
    match input.iter().position(|byte| *byte == 10) {
        Some(end) => (&input[..end], &input[end + 1..]),
        None => (input, &[]),
    }
}

fn outcome_line(line: usize, qubit: usize, outcome: u8) -> String {
    let (kind, value) = match outcome {
        b'0' => ("fixed", 0),
        b'1' => ("fixed", 1),
        b'2' => ("random", 0),
        _ => ("random", 1),
    };
    format!("{line} {qubit} {kind} {value}\n")
}

fn printed(input: &[u8]) -> Result<String, Refusal> {
    let (coins, text) = split(input);
    let circuit = circuit::parse(text)?;
    let done = measure::run(&circuit, coins)?;
    let mut out = String::new();
    let mut outcomes = done.outcomes.iter();
    for (index, operation) in circuit.operations.iter().enumerate() {
        let Some(a) = circuit::measured(*operation) else {
            continue;
        };
        for outcome in outcomes.by_ref().take(1) {
            out.push_str(&outcome_line(index + 2, a, *outcome));
        }
    }
    for row in &done.tableau.rows {
        out.push_str(&String::from_utf8_lossy(&row.text()));
        out.push('\n');
    }
    Ok(out)
}

pub fn shot(input: &[u8]) -> String {
    if input.len() > LONGEST_INPUT {
        return "input too long\n".to_string();
    }
    match printed(input) {
        Ok(out) => out,
        Err(refusal) => format!("refused {} {}\n", refusal.number, refusal.place),
    }
}
