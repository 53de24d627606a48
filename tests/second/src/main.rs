//! The second program: everything the library answers, written once more
//! from the documents alone, letter by letter. It makes cases for a
//! comparison, answers them, counts what they cover, checks itself against a
//! state vector, holds answers to statements about products of rows, and prints
//! what `shot` prints.

mod answers;
mod cases;
mod choices;
mod choices_cases;
mod choices_judge;
mod choices_selftest;
mod circuit;
mod coverage;
mod damage;
mod differ;
mod letters;
mod limits;
mod make;
mod measure;
mod probability;
mod probability_cases;
mod probability_selftest;
mod probability_state;
mod probability_sweeps;
mod protocol;
mod random;
mod record;
mod refusal;
mod row;
mod seam;
mod seam_sweeps;
mod selftest;
mod shot;
mod state;
mod state_check;
mod sweeps;
mod tableau;

use protocol::Case;
use std::io::{self, BufRead, BufWriter, Read, Write};
use std::process::ExitCode;

const HELP: &str = "\
second cases SEED COUNT      write the fixed sweeps and COUNT random cases
second answer                read cases, write one answer line for each
second coverage              read cases, print what they cover
second differ CASES A B      compare its answers A to CASES with the answers B
second choices SEED COUNT    write the cases of request m, with COUNT random runs
second chosen CASES ANSWERS  hold a harness's answers to these against request m
second state SEED COUNT      run COUNT random circuits beside a state vector
second shot                  read the input of `shot`, print what it prints
second selftest              run the examples of the documents
";

fn write_cases(seed: u64, count: u64) -> io::Result<bool> {
    let mut out = BufWriter::new(io::stdout().lock());
    let mut write = |case: Case| writeln!(out, "{}", case.line());
    sweeps::all(&mut write)?;
    limits::all(&mut write)?;
    seam_sweeps::all(&mut write)?;
    probability_sweeps::all(&mut write)?;
    let mut random = random::Random::new(seed);
    for _ in 0..count {
        write(cases::case(&mut random))?;
    }
    out.flush()?;
    Ok(true)
}

fn write_choices(seed: u64, count: u64) -> io::Result<bool> {
    let mut out = BufWriter::new(io::stdout().lock());
    choices_cases::all(seed, count, &mut |case: Case| writeln!(out, "{}", case.line()))?;
    out.flush()?;
    Ok(true)
}

fn each_case(mut visit: impl FnMut(Case) -> io::Result<()>) -> io::Result<()> {
    for (index, line) in io::stdin().lock().lines().enumerate() {
        match Case::from_line(&line?) {
            Some(case) => visit(case)?,
            None => {
                let message = format!("line {} is no case", index + 1);
                return Err(io::Error::new(io::ErrorKind::InvalidData, message));
            }
        }
    }
    Ok(())
}

fn answer_cases() -> io::Result<bool> {
    let mut out = BufWriter::new(io::stdout().lock());
    each_case(|case| writeln!(out, "{}", case.answer().line()))?;
    out.flush()?;
    Ok(true)
}

fn print_coverage() -> io::Result<bool> {
    let mut coverage = coverage::Coverage::default();
    each_case(|case| {
        coverage.count(&case);
        Ok(())
    })?;
    print!("{}", coverage.table());
    let lacking = coverage.lacking();
    for line in &lacking {
        println!("not enough: {line}");
    }
    Ok(lacking.is_empty())
}

fn print_shot() -> io::Result<bool> {
    let mut input = Vec::new();
    io::stdin().lock().read_to_end(&mut input)?;
    print!("{}", shot::shot(&input));
    Ok(true)
}

fn report(result: Result<String, String>) -> io::Result<bool> {
    match &result {
        Ok(line) => println!("{line}"),
        Err(line) => println!("differs: {line}"),
    }
    Ok(result.is_ok())
}

fn command(words: &[&str]) -> io::Result<bool> {
    let bad = |_| io::Error::new(io::ErrorKind::InvalidInput, "SEED and COUNT are whole numbers");
    match words {
        ["cases", seed, count] => {
            write_cases(seed.parse().map_err(bad)?, count.parse().map_err(bad)?)
        }
        ["choices", seed, count] => {
            write_choices(seed.parse().map_err(bad)?, count.parse().map_err(bad)?)
        }
        ["chosen", cases, answers] => choices_judge::print(cases, answers),
        ["answer"] => answer_cases(),
        ["coverage"] => print_coverage(),
        ["state", seed, count] => {
            report(state_check::check(seed.parse().map_err(bad)?, count.parse().map_err(bad)?))
        }
        ["differ", cases, one, two] => differ::print(cases, one, two),
        ["shot"] => print_shot(),
        ["selftest"] => report(selftest::run()),
        _ => {
            eprint!("{HELP}");
            Ok(false)
        }
    }
}

fn main() -> ExitCode {
    let words: Vec<String> = std::env::args().skip(1).collect();
    let words: Vec<&str> = words.iter().map(|word| word.as_str()).collect();
    match command(&words) {
        Ok(true) => ExitCode::SUCCESS,
        Ok(false) => ExitCode::FAILURE,
        Err(error) => {
            eprintln!("second: {error}");
            ExitCode::from(2)
        }
    }
}
