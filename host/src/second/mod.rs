//! The seven calls of document 01 a second time, written from the document alone and in the plainest way: a table is
//! read into vectors, the macrostep runs on them, and lent words are written only when all is done.
//!
//! `words` cuts a table into rows; `tree` and `chart` judge and read a chart, `chart_run` runs it; `flat` judges and
//! reads a flat table, `flat_run` runs it; `macrostep` has the queue, the outputs and the limits of both; `flatten`
//! writes a flat table of its own design.

#![forbid(unsafe_code)]

mod chart;
mod chart_run;
mod flat;
mod flat_run;
mod flatten;
mod items;
mod macrostep;
mod tree;
pub mod words;

pub use chart_run::{run_chart, start_chart};
pub use flat_run::{run_flat, start_flat};
pub use flatten::{flatten, room_needed};

use crate::Refusal;

/// Judges a chart table.
pub fn check_chart(chart: &[u16]) -> Result<(), Refusal> {
    chart::Chart::read(chart).map(|_| ())
}

/// Judges a flat table.
pub fn check_flat(flat: &[u16]) -> Result<(), Refusal> {
    flat::Flat::read(flat).map(|_| ())
}

/// How many words a chart's state has.
pub fn chart_state_words(chart: &[u16]) -> Result<usize, Refusal> {
    chart::Chart::read(chart).map(|chart| chart.state_words())
}

/// How many words a flat table's state has.
pub fn flat_state_words(flat: &[u16]) -> Result<usize, Refusal> {
    flat::Flat::read(flat).map(|flat| flat.state_words())
}
