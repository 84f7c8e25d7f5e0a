//! Runs a table on the second implementation, so that its instructions can be counted from outside.
//!
//! `second chart|flat|check-chart|check-flat TABLE EVENTS`: TABLE holds little-endian words, EVENTS one byte an event.
//! `chart` and `flat` run each event once, from the start state, with 512 words lent; `check-chart` and `check-flat`
//! judge the table once for each event. Prints the last answer, and the sum of all output words.

use olivrescum::{second, Refusal};
use std::process::ExitCode;

const LENT: usize = 512;

/// What one event gives: the number of outputs, or a refusal.
type Run = fn(&[u16], &mut [u16], u32, &mut [u16]) -> Result<u32, Refusal>;

fn main() -> ExitCode {
    let arguments: Vec<String> = std::env::args().skip(1).collect();
    let [what, table, events] = &arguments[..] else {
        return wrong("usage: second chart|flat|check-chart|check-flat TABLE EVENTS");
    };
    let (Ok(table), Ok(events)) = (std::fs::read(table), std::fs::read(events)) else {
        return wrong("second: a file cannot be read");
    };
    let table = words_of(&table);
    let (answer, sum) = match what.as_str() {
        "chart" => run_all(&table, &events, chart_start(&table), run_chart),
        "flat" => run_all(&table, &events, flat_start(&table), run_flat),
        "check-chart" => (check_all(&table, &events, second::check_chart), 0),
        "check-flat" => (check_all(&table, &events, second::check_flat), 0),
        _ => return wrong("second: the first word is chart, flat, check-chart or check-flat"),
    };
    println!("{answer} {sum}");
    ExitCode::SUCCESS
}

fn wrong(sentence: &str) -> ExitCode {
    eprintln!("{sentence}");
    ExitCode::FAILURE
}

fn words_of(bytes: &[u8]) -> Vec<u16> {
    bytes.chunks_exact(2).map(|pair| u16::from_le_bytes([pair[0], pair[1]])).collect()
}

/// The start state; no words where the table is refused.
fn chart_start(table: &[u16]) -> Vec<u16> {
    let mut state = vec![0; second::chart_state_words(table).unwrap_or(0)];
    let _ = second::start_chart(table, &mut state);
    state
}

fn flat_start(table: &[u16]) -> Vec<u16> {
    let mut state = vec![0; second::flat_state_words(table).unwrap_or(0)];
    let _ = second::start_flat(table, &mut state);
    state
}

fn run_chart(table: &[u16], state: &mut [u16], event: u32, outputs: &mut [u16]) -> Result<u32, Refusal> {
    second::run_chart(table, state, event, outputs).map(|counts| counts.outputs)
}

fn run_flat(table: &[u16], state: &mut [u16], event: u32, outputs: &mut [u16]) -> Result<u32, Refusal> {
    second::run_flat(table, state, event, outputs).map(|counts| counts.outputs)
}

/// Runs every event once. Gives the last answer and the sum of all output words.
fn run_all(table: &[u16], events: &[u8], mut state: Vec<u16>, run: Run) -> (u32, u64) {
    let mut outputs = [0; LENT];
    let (mut answer, mut sum) = (0, 0);
    for &event in events {
        let result = run(table, &mut state, event.into(), &mut outputs);
        let pairs = result.unwrap_or(0) as usize;
        answer = result.map_or_else(|refusal| refusal.answer, |_| 0);
        sum += outputs[..2 * pairs].iter().map(|&word| u64::from(word)).sum::<u64>();
    }
    (answer, sum)
}

/// Judges the table once for each event. Gives the last answer.
fn check_all(table: &[u16], events: &[u8], check: fn(&[u16]) -> Result<(), Refusal>) -> u32 {
    events.iter().fold(0, |_, _| match check(std::hint::black_box(table)) {
        Ok(()) => 0,
        Err(refusal) => refusal.answer,
    })
}
