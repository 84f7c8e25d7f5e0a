//! Document 01's limits: 32 waiting signals, 64 microsteps, 256 outputs and 48 transitions pass, and one more of each is refused.

use olivrescum::second::{self, words::CHART};
use olivrescum::{ChartCounts, Refusal};

const NONE: u16 = 65535;

/// A root with one and-state, one event, one signal, one output and one variable.
fn chart(transitions: &[[u16; 8]], literals: &[[u16; 3]], items: &[[u16; 3]]) -> Vec<u16> {
    let states: [[u16; 7]; 2] = [[0, NONE, 1, 0, 0, 0, 0], [2, 0, NONE, 0, 0, 0, 0]];
    let [transition_count, literal_count, item_count] = [transitions.len(), literals.len(), items.len()].map(|n| n as u16);
    CHART.table(
        &[2, transition_count, 1, 1, 1, 1, 0, literal_count, item_count],
        &[states.concat(), transitions.concat(), Vec::new(), literals.concat(), items.concat()],
    )
}

/// One transition that does so many items of a kind: 0 emits, 1 raises.
fn of_items(kind: u16, size: u16) -> Vec<u16> {
    chart(&[[1, 0, 0, 0, 0, size, 0, 0]], &[], &vec![[kind, 0, 0]; size.into()])
}

/// A macrostep of so many microsteps: the event sets the variable and raises the signal, which counts the variable down and
/// raises itself until it is 0. The first microstep and the last count nothing down.
fn of_microsteps(size: u16) -> Vec<u16> {
    chart(
        &[[1, 0, 0, 0, 0, 2, 0, 0], [1, 1, 0, 1, 1, 2, 0, 0]],
        &[[2, 0, 1]],
        &[[4, 0, size - 2], [1, 0, 0], [2, 0, 65535]],
    )
}

fn of_transitions(size: usize) -> Vec<u16> {
    chart(&vec![[1, 0, 0, 0, 0, 0, 0, 0]; size], &[], &[])
}

type Check = fn(&[u16]) -> Result<(), Refusal>;
type Start = fn(&[u16], &mut [u16]) -> Result<(), Refusal>;
type Run = fn(&[u16], &mut [u16], u32, &mut [u16]) -> Result<ChartCounts, Refusal>;

/// Microsteps and outputs of the event, with more words lent than a macrostep may write; or the refusal's number.
fn ran(start: Start, run: Run, chart: &[u16]) -> Result<(u32, u32), u32> {
    let mut state = [0; 2];
    let mut outputs = [0; 600];
    start(chart, &mut state).expect("a chart");
    let counts = run(chart, &mut state, 0, &mut outputs).map_err(|refusal| refusal.answer)?;
    Ok((counts.microsteps, counts.outputs))
}

fn limits_hold(check: Check, start: Start, run: Run) {
    assert_eq!(ran(start, run, &of_items(1, 32)), Ok((33, 0)));
    assert_eq!(ran(start, run, &of_items(1, 33)), Err(21));
    assert_eq!(ran(start, run, &of_microsteps(64)), Ok((64, 0)));
    assert_eq!(ran(start, run, &of_microsteps(65)), Err(23));
    assert_eq!(ran(start, run, &of_items(0, 256)), Ok((1, 256)));
    assert_eq!(ran(start, run, &of_items(0, 257)), Err(22));
    assert_eq!(check(&of_transitions(48)), Ok(()));
    assert_eq!(check(&of_transitions(49)), Err(Refusal::of(2)));
}

#[test]
fn second_implementation_keeps_document_01s_limits() {
    limits_hold(second::check_chart, second::start_chart, second::run_chart);
}

#[cfg(feature = "library")]
#[test]
fn library_keeps_document_01s_limits() {
    limits_hold(olivrescum::check_chart, olivrescum::start_chart, olivrescum::run_chart);
}
