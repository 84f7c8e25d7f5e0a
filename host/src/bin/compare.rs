//! Compares the library with the second implementation: `compare [SEED [ROUNDS]]`.

use std::process::ExitCode;

const SEED: u64 = 1;
const ROUNDS: u64 = 3000;

fn main() -> ExitCode {
    let numbers: Result<Vec<u64>, _> = std::env::args().skip(1).map(|word| word.parse()).collect();
    match numbers.as_deref() {
        Ok([]) => compare(SEED, ROUNDS),
        Ok([seed]) => compare(*seed, ROUNDS),
        Ok([seed, rounds]) => compare(*seed, *rounds),
        _ => failed("usage: compare [SEED [ROUNDS]]"),
    }
}

fn compare(seed: u64, rounds: u64) -> ExitCode {
    let answers = match olivrescum::compare::compare(seed, rounds) {
        Ok(answers) => answers,
        Err(difference) => return failed(&difference),
    };
    println!("seed {seed}, {rounds} rounds, answers met:\n{answers}");
    match answers.never_met() {
        never if never.is_empty() => ExitCode::SUCCESS,
        never => failed(&never.join("\n")),
    }
}

fn failed(sentence: &str) -> ExitCode {
    eprintln!("{sentence}");
    ExitCode::FAILURE
}
