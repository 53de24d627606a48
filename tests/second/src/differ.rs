//! Compares two files of answer lines to one file of cases, line by line,
//! and prints the first few cases on which they differ. The first file is
//! taken to hold the second program's answers.

use std::fs::File;
use std::io::{self, BufRead, BufReader, Lines};

const SHOWN: u64 = 5;
const WIDTH: usize = 150;

pub fn open(path: &str) -> io::Result<Lines<BufReader<File>>> {
    let file = File::open(path)
        .map_err(|error| io::Error::new(error.kind(), format!("{path}: {error}")))?;
    Ok(BufReader::new(file).lines())
}

pub fn shortened(line: &str) -> String {
    match line.get(..WIDTH) {
        Some(front) => format!("{front}... ({} characters)", line.len()),
        None => line.to_string(),
    }
}

pub fn next(lines: &mut Lines<BufReader<File>>) -> io::Result<String> {
    match lines.next() {
        Some(line) => line,
        None => Ok("no answer".to_string()),
    }
}

fn show(place: u64, case: &str, one: &str, two: &str) {
    let first = one.bytes().zip(two.bytes()).take_while(|(a, b)| a == b).count();
    println!("case {place}: {}", shortened(case));
    println!("  second: {}", shortened(one));
    println!("  other:  {}", shortened(two));
    println!("  alike up to character {first}");
}

pub fn print(cases: &str, one: &str, two: &str) -> io::Result<bool> {
    let (mut first, mut second) = (open(one)?, open(two)?);
    let (mut compared, mut differing) = (0, 0);
    for case in open(cases)? {
        let case = case?;
        let (answer, other) = (next(&mut first)?, next(&mut second)?);
        compared += 1;
        if answer != other {
            differing += 1;
            if differing <= SHOWN {
                show(compared, &case, &answer, &other);
            }
        }
    }
    let surplus = first.count() + second.count();
    println!("{compared} answers compared, {differing} differ, {surplus} without a case");
    Ok(differing == 0 && surplus == 0)
}
