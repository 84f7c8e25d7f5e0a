//! Document 01's aid chart and its seven events: both implementations give the lines that the document prints.

use olivrescum::second::{self, words::CHART};
use olivrescum::{ChartCounts, Refusal};

const NONE: u16 = 65535;

const EVENTS: [u32; 7] = [0, 3, 2, 2, 1, 0, 2];

const LINES: [&str; 8] = [
    "0 0 1 1 1 3 1:20000",
    "3 0 2 2 2 2 2:0",
    "2 0 1 2 2 2 0:0 3:0",
    "2 0 1 1 1 1 2:0",
    "1 0 1 1 3 1 3:0",
    "0 0 1 1 1 3 1:-25536 2:0",
    "2 0 1 1 1 1 3:0",
    "2 4 7 -25536",
];

fn aid() -> Vec<u16> {
    let states: [[u16; 7]; 9] = [
        [0, NONE, 1, 0, 0, 0, 0],
        [2, 0, NONE, 0, 0, 0, 0],
        [2, 0, NONE, 0, 0, 0, 0],
        [1, 2, 4, 0, 0, 0, 0],
        [2, 3, NONE, 0, 0, 0, 0],
        [2, 3, NONE, 5, 1, 4, 1],
        [0, 2, 7, 0, 0, 0, 0],
        [2, 6, NONE, 0, 0, 0, 0],
        [2, 6, NONE, 0, 0, 0, 0],
    ];
    let transitions: [[u16; 8]; 8] = [
        [1, 0, 0, 0, 0, 2, 0, 1],
        [2, 1, 0, 0, 0, 0, 1, 1],
        [8, 2, 0, 0, 2, 1, 2, 1],
        [4, 2, 0, 0, 0, 0, 3, 1],
        [5, 2, 0, 0, 0, 0, 4, 1],
        [7, 3, 0, 0, 3, 1, 5, 1],
        [4, 4, 0, 1, 0, 0, 3, 1],
        [2, 2, 1, 1, 0, 0, 1, 1],
    ];
    let targets = vec![2, 1, 7, 5, 4, 8];
    let literals = vec![0, 8, 0, 3, 0, 0];
    let items = vec![2, 0, 20000, 5, 1, 0, 0, 0, 0, 1, 0, 0, 0, 2, 0, 0, 3, 0];
    let sections = [states.concat(), transitions.concat(), targets, literals, items];
    CHART.table(&[9, 8, 4, 1, 4, 1, 6, 2, 6], &sections)
}

type Start = fn(&[u16], &mut [u16]) -> Result<(), Refusal>;
type Run = fn(&[u16], &mut [u16], u32, &mut [u16]) -> Result<ChartCounts, Refusal>;

/// A line for each event, then the state.
fn lines(start: Start, run: Run) -> Result<Vec<String>, Refusal> {
    let chart = aid();
    let mut state = [0; 4];
    let mut outputs = [0; 512];
    start(&chart, &mut state)?;
    let mut lines = Vec::new();
    for event in EVENTS {
        let counts = run(&chart, &mut state, event, &mut outputs)?;
        let ChartCounts { microsteps, taken, left, entered, outputs: pairs } = counts;
        let mut line = format!("{event} 0 {microsteps} {taken} {left} {entered}");
        for pair in outputs.chunks(2).take(pairs as usize) {
            line += &format!(" {}:{}", pair[0], pair[1] as i16);
        }
        lines.push(line);
    }
    lines.push(state.map(|word| (word as i16).to_string()).join(" "));
    Ok(lines)
}

#[test]
fn the_aid_chart_has_173_words() {
    assert_eq!(aid().len(), 173);
    assert_eq!(second::room_needed(&aid()), Ok(1231));
}

#[test]
fn second_implementation_prints_document_01s_lines() {
    assert_eq!(lines(second::start_chart, second::run_chart).expect("no refusal"), LINES);
}

#[cfg(feature = "library")]
#[test]
fn library_prints_document_01s_lines() {
    assert_eq!(lines(olivrescum::start_chart, olivrescum::run_chart).expect("no refusal"), LINES);
}

#[cfg(feature = "library")]
#[test]
fn a_refusal_tells_its_place_and_its_sentence() {
    let mut chart = aid();
    chart[16 + 7 * 6] = 3;
    let refusal = olivrescum::check_chart(&chart).expect_err("state 6 has an unknown kind");
    assert_eq!(refusal, Refusal { answer: 4, place: 6 });
    assert!(refusal.to_string().starts_with("4: "));
    assert!(refusal.to_string().contains(refusal.sentence()));
}
