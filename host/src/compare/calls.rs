//! A call, what it is given, and what it leaves.

use crate::ffi::REPORT_WORDS;

#[derive(Clone, Copy, Debug, PartialEq, Eq, PartialOrd, Ord)]
pub enum Call {
    CheckChart,
    StartChart,
    RunChart,
    Flatten,
    CheckFlat,
    StartFlat,
    RunFlat,
}

impl Call {
    pub const ALL: [Call; 7] = [
        Call::CheckChart,
        Call::StartChart,
        Call::RunChart,
        Call::Flatten,
        Call::CheckFlat,
        Call::StartFlat,
        Call::RunFlat,
    ];

    pub fn name(self) -> &'static str {
        match self {
            Call::CheckChart => "check_chart",
            Call::StartChart => "start_chart",
            Call::RunChart => "run_chart",
            Call::Flatten => "flatten",
            Call::CheckFlat => "check_flat",
            Call::StartFlat => "start_flat",
            Call::RunFlat => "run_flat",
        }
    }

    /// Every answer that the call can give.
    pub fn answers(self) -> Vec<u32> {
        let table: Vec<u32> = match self {
            Call::CheckFlat | Call::StartFlat | Call::RunFlat => [0].into_iter().chain(11..=18).collect(),
            _ => (0..=9).collect(),
        };
        let more: &[u32] = match self {
            Call::CheckChart | Call::CheckFlat => &[],
            Call::StartChart | Call::StartFlat => &[24],
            Call::RunChart | Call::RunFlat => &[20, 21, 22, 23, 24],
            Call::Flatten => &[31],
        };
        [&table, more].concat()
    }
}

/// What a call is given. What it does not take is empty.
pub struct Input<'a> {
    pub call: Call,
    pub table: &'a [u16],
    pub state: &'a [u16],
    pub event: u32,
    /// Words of output room or flat room.
    pub room: usize,
}

impl Input<'_> {
    /// The input in words, so that it can be made again.
    pub fn told(&self) -> String {
        let Input { call, table, state, event, room } = self;
        format!("{}, event {event}, {room} words of room, state {state:?}, table {table:?}", call.name())
    }

    /// What the room holds before the call.
    pub fn pattern(&self) -> Vec<u16> {
        (0..self.room).map(|k| 0xA5A5 ^ k as u16).collect()
    }
}

pub type Report = [u32; REPORT_WORDS];

/// What a call leaves: its answer, its report, and all lent words.
#[derive(Clone, Debug, PartialEq, Eq)]
pub struct Outcome {
    pub answer: u32,
    pub report: Report,
    pub state: Vec<u16>,
    pub room: Vec<u16>,
}
