//! The seven calls of document 01: the library's answer and report as a `Result`.

use crate::ffi::{self, report, REPORT_WORDS};
use crate::{ChartCounts, FlatCounts, Refusal};

type Report = [u32; REPORT_WORDS];

/// Makes one call with a report of its own.
fn asked(call: impl FnOnce(&mut [u32]) -> u32) -> Result<Report, Refusal> {
    let mut words = [0; REPORT_WORDS];
    match call(&mut words) {
        0 => Ok(words),
        answer => Err(Refusal { answer, place: words[report::PLACE] }),
    }
}

/// Judges a chart table.
pub fn check_chart(chart: &[u16]) -> Result<(), Refusal> {
    asked(|report| ffi::check_chart(chart, report)).map(|_| ())
}

/// Writes a chart's start state.
pub fn start_chart(chart: &[u16], state: &mut [u16]) -> Result<(), Refusal> {
    asked(|report| ffi::start_chart(chart, state, report)).map(|_| ())
}

/// Runs one event on a chart: the state moves on, the outputs are written as pairs (number, value).
pub fn run_chart(chart: &[u16], state: &mut [u16], event: u32, outputs: &mut [u16]) -> Result<ChartCounts, Refusal> {
    let words = asked(|report| ffi::run_chart(chart, state, event, outputs, report))?;
    Ok(ChartCounts {
        microsteps: words[report::MICROSTEPS],
        taken: words[report::TAKEN],
        left: words[report::LEFT],
        entered: words[report::ENTERED],
        outputs: words[report::OUTPUTS],
    })
}

/// Writes a flat table that behaves like the chart, and gives the number of its words.
pub fn flatten(chart: &[u16], room: &mut [u16]) -> Result<usize, Refusal> {
    asked(|report| ffi::flatten(chart, room, report)).map(|words| words[report::WORDS] as usize)
}

/// Judges a flat table.
pub fn check_flat(flat: &[u16]) -> Result<(), Refusal> {
    asked(|report| ffi::check_flat(flat, report)).map(|_| ())
}

/// Writes a flat table's start state.
pub fn start_flat(flat: &[u16], state: &mut [u16]) -> Result<(), Refusal> {
    asked(|report| ffi::start_flat(flat, state, report)).map(|_| ())
}

/// Runs one event on a flat table: the state moves on, the outputs are written as pairs (number, value).
pub fn run_flat(flat: &[u16], state: &mut [u16], event: u32, outputs: &mut [u16]) -> Result<FlatCounts, Refusal> {
    let words = asked(|report| ffi::run_flat(flat, state, event, outputs, report))?;
    Ok(FlatCounts {
        microsteps: words[report::MICROSTEPS],
        fired: words[report::FIRED],
        outputs: words[report::OUTPUTS],
    })
}
