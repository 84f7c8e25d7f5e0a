//! The repository's vectors, run on the second implementation: every line must agree.

use olivrescum::{second, ChartCounts, FlatCounts, Refusal};
use std::fmt::Write;
use std::path::Path;

const PATTERN: u16 = 0xA5A5;

/// One case of the vectors' file.
struct Case {
    call: u16,
    /// The event; for a flattening the number of events that follow.
    number: u32,
    room: usize,
    table: Vec<u16>,
    state: Vec<u16>,
    /// For a flattening: each event with its output room.
    events: Vec<(u32, usize)>,
}

/// The words of a file, taken from its beginning.
struct Words(std::vec::IntoIter<u16>);

impl Words {
    fn of(bytes: &[u8]) -> Words {
        let words: Vec<u16> = bytes.chunks_exact(2).map(|pair| u16::from_le_bytes([pair[0], pair[1]])).collect();
        Words(words.into_iter())
    }

    fn take(&mut self, count: usize) -> Vec<u16> {
        let words: Vec<u16> = self.0.by_ref().take(count).collect();
        assert_eq!(words.len(), count, "the file ends inside a case");
        words
    }

    fn case(&mut self) -> Option<Case> {
        let call = self.0.next()?;
        let head = self.take(5);
        let number = u32::from(head[0]) | u32::from(head[1]) << 16;
        let table = self.take(head[2].into());
        let state = self.take(head[3].into());
        let event_words = if call == 7 { self.take(2 * number as usize) } else { Vec::new() };
        let events = event_words.chunks(2).map(|pair| (pair[0].into(), pair[1].into())).collect();
        Some(Case { call, number, room: head[4].into(), table, state, events })
    }
}

fn checksum(words: &[u16]) -> u32 {
    words.iter().fold(1, |sum, &word| (sum * 31 + u32::from(word)) % 65521)
}

/// Answer and place, as a line begins.
fn told<T>(result: &Result<T, Refusal>) -> String {
    match result {
        Ok(_) => "0 0".to_string(),
        Err(refusal) => format!("{} {}", refusal.answer, refusal.place),
    }
}

fn run_chart_line(case: &mut Case) -> String {
    let mut outputs = vec![PATTERN; case.room];
    let result = second::run_chart(&case.table, &mut case.state, case.number, &mut outputs);
    let ChartCounts { microsteps, taken, left, entered, outputs: pairs } = result.unwrap_or_default();
    let sums = (checksum(&case.state), checksum(&outputs));
    format!("{} {microsteps} {taken} {left} {entered} {pairs} {} {}", told(&result), sums.0, sums.1)
}

fn run_flat_line(case: &mut Case) -> String {
    let mut outputs = vec![PATTERN; case.room];
    let result = second::run_flat(&case.table, &mut case.state, case.number, &mut outputs);
    let FlatCounts { microsteps, fired, outputs: pairs } = result.unwrap_or_default();
    let sums = (checksum(&case.state), checksum(&outputs));
    format!("{} {microsteps} {fired} {pairs} {} {}", told(&result), sums.0, sums.1)
}

/// The flattening's line, and a line for each event.
fn flatten_lines(case: &Case) -> String {
    let mut room = vec![PATTERN; case.room];
    let result = second::flatten(&case.table, &mut room);
    let Ok(words) = result else { return format!("{} 0", told(&result)) };
    let flat = &room[..words];
    let checked = second::check_flat(flat).map_or_else(|refusal| refusal.answer, |()| 0);
    let mut lines = format!("{} {checked}", told(&result));
    let variables = flat[7] as usize;
    let mut state = vec![0; flat[2] as usize + variables];
    let mut chart_state = state.clone();
    second::start_flat(flat, &mut state).expect("the flat table starts");
    second::start_chart(&case.table, &mut chart_state).expect("the chart starts");
    for &(event, room) in &case.events {
        let mut outputs = vec![PATTERN; room];
        let run = second::run_flat(flat, &mut state, event, &mut outputs);
        let chart_run = second::run_chart(&case.table, &mut chart_state, event, &mut vec![0; room]);
        let counts = run.unwrap_or_default();
        let allowed = chart_run.map_or(0, |chart| chart.left + chart.entered + chart.taken);
        let within = u32::from(counts.fired <= allowed);
        let answer = run.map_or_else(|refusal| refusal.answer, |_| 0);
        let sums = (checksum(&outputs), checksum(&state[state.len() - variables..]));
        let FlatCounts { microsteps, outputs: pairs, .. } = counts;
        write!(lines, "\n. {answer} {microsteps} {pairs} {} {} {within}", sums.0, sums.1).expect("a line is written");
    }
    lines
}

fn lines_of(case: &mut Case) -> String {
    let told = match case.call {
        1 => told(&second::check_chart(&case.table)),
        2 => {
            let result = second::start_chart(&case.table, &mut case.state);
            format!("{} {}", told(&result), checksum(&case.state))
        }
        3 => run_chart_line(case),
        4 => told(&second::check_flat(&case.table)),
        5 => {
            let result = second::start_flat(&case.table, &mut case.state);
            format!("{} {}", told(&result), checksum(&case.state))
        }
        6 => run_flat_line(case),
        7 => flatten_lines(case),
        call => panic!("call {call} is not known"),
    };
    format!("{} {told}", case.call)
}

#[test]
fn second_implementation_reproduces_the_vectors() {
    let folder = Path::new(env!("CARGO_MANIFEST_DIR")).join("../crates/vectors");
    let input = std::fs::read(folder.join("stdin")).expect("the vectors' cases");
    let expected = std::fs::read_to_string(folder.join("stdout")).expect("the vectors' lines");
    let mut words = Words::of(&input);
    let mut expected = expected.lines();
    let mut cases = 0;
    while let Some(mut case) = words.case() {
        for line in lines_of(&mut case).lines() {
            assert_eq!(Some(line), expected.next(), "case {cases}");
        }
        cases += 1;
    }
    assert_eq!(expected.next(), None);
    assert!(cases > 0);
}
