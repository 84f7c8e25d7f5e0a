//! The seven calls of the library and of the second implementation, chosen by `Call`.

use super::calls::{Call, Report};
use crate::ffi::{self, report};
use crate::{second, ChartCounts, FlatCounts, Refusal};

type Check = fn(&[u16]) -> Result<(), Refusal>;
type Start = fn(&[u16], &mut [u16]) -> Result<(), Refusal>;
type Run<Counts> = fn(&[u16], &mut [u16], u32, &mut [u16]) -> Result<Counts, Refusal>;
type Flatten = fn(&[u16], &mut [u16]) -> Result<usize, Refusal>;

/// The seven calls of one implementation.
pub struct Engine {
    check_chart: Check,
    start_chart: Start,
    run_chart: Run<ChartCounts>,
    flatten: Flatten,
    check_flat: Check,
    start_flat: Start,
    run_flat: Run<FlatCounts>,
}

pub const LIBRARY: Engine = Engine {
    check_chart: crate::check_chart,
    start_chart: crate::start_chart,
    run_chart: crate::run_chart,
    flatten: crate::flatten,
    check_flat: crate::check_flat,
    start_flat: crate::start_flat,
    run_flat: crate::run_flat,
};

pub const SECOND: Engine = Engine {
    check_chart: second::check_chart,
    start_chart: second::start_chart,
    run_chart: second::run_chart,
    flatten: second::flatten,
    check_flat: second::check_flat,
    start_flat: second::start_flat,
    run_flat: second::run_flat,
};

/// The slices lent to one call.
pub struct Slices<'a> {
    pub table: &'a [u16],
    pub state: &'a mut [u16],
    pub room: &'a mut [u16],
}

impl Engine {
    pub fn make(&self, call: Call, event: u32, lent: Slices) -> (u32, Report) {
        let Slices { table, state, room } = lent;
        let result = match call {
            Call::CheckChart => (self.check_chart)(table).map(|()| Report::default()),
            Call::StartChart => (self.start_chart)(table, state).map(|()| Report::default()),
            Call::RunChart => (self.run_chart)(table, state, event, room).map(chart_report),
            Call::Flatten => (self.flatten)(table, room).map(flatten_report),
            Call::CheckFlat => (self.check_flat)(table).map(|()| Report::default()),
            Call::StartFlat => (self.start_flat)(table, state).map(|()| Report::default()),
            Call::RunFlat => (self.run_flat)(table, state, event, room).map(flat_report),
        };
        match result {
            Ok(report) => (0, report),
            Err(refusal) => (refusal.answer, place_report(refusal.place)),
        }
    }
}

/// The report of a refusal: only its place.
pub fn place_report(place: u32) -> Report {
    let mut words = Report::default();
    words[report::PLACE] = place;
    words
}

fn chart_report(counts: ChartCounts) -> Report {
    let mut words = Report::default();
    words[report::MICROSTEPS] = counts.microsteps;
    words[report::TAKEN] = counts.taken;
    words[report::LEFT] = counts.left;
    words[report::ENTERED] = counts.entered;
    words[report::OUTPUTS] = counts.outputs;
    words
}

fn flat_report(counts: FlatCounts) -> Report {
    let mut words = Report::default();
    words[report::MICROSTEPS] = counts.microsteps;
    words[report::FIRED] = counts.fired;
    words[report::OUTPUTS] = counts.outputs;
    words
}

fn flatten_report(written: usize) -> Report {
    let mut words = Report::default();
    words[report::WORDS] = written as u32;
    words
}

/// Makes one raw call of the library, with a report of its own length.
pub fn raw(call: Call, event: u32, lent: Slices, report: &mut [u32]) -> u32 {
    let Slices { table, state, room } = lent;
    match call {
        Call::CheckChart => ffi::check_chart(table, report),
        Call::StartChart => ffi::start_chart(table, state, report),
        Call::RunChart => ffi::run_chart(table, state, event, room, report),
        Call::Flatten => ffi::flatten(table, room, report),
        Call::CheckFlat => ffi::check_flat(table, report),
        Call::StartFlat => ffi::start_flat(table, state, report),
        Call::RunFlat => ffi::run_flat(table, state, event, room, report),
    }
}
