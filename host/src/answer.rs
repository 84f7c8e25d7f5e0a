//! What a call can say: the counts of a run that is done, or a refusal with its number and place.

use std::fmt;

/// The header of the C library: one line `X(number, NAME, "sentence", "what the place names")` for each answer.
const HEADER: &str = include_str!("../../include/olivrescum.h");

/// A refusal by document 01's number, and where in the table it was met (0 where no place is named).
#[derive(Clone, Copy, Debug, PartialEq, Eq)]
pub struct Refusal {
    pub answer: u32,
    pub place: u32,
}

/// What a chart run counts.
#[derive(Clone, Copy, Debug, Default, PartialEq, Eq)]
pub struct ChartCounts {
    pub microsteps: u32,
    /// Transitions taken.
    pub taken: u32,
    /// And-states left.
    pub left: u32,
    /// And-states entered.
    pub entered: u32,
    /// Output pairs written.
    pub outputs: u32,
}

/// What a flat run counts.
#[derive(Clone, Copy, Debug, Default, PartialEq, Eq)]
pub struct FlatCounts {
    pub microsteps: u32,
    /// Rules fired.
    pub fired: u32,
    /// Output pairs written.
    pub outputs: u32,
}

impl Refusal {
    /// A refusal that names no place.
    pub fn of(answer: u32) -> Refusal {
        Refusal { answer, place: 0 }
    }

    /// The refusal in words, or nothing where the header does not know the number.
    pub fn sentence(&self) -> &'static str {
        line_of(self.answer).and_then(|line| quoted(line, 0)).unwrap_or("")
    }

    /// What the place names, or nothing where the answer has no place.
    pub fn place_names(&self) -> &'static str {
        line_of(self.answer).and_then(|line| quoted(line, 1)).unwrap_or("")
    }
}

impl fmt::Display for Refusal {
    fn fmt(&self, out: &mut fmt::Formatter) -> fmt::Result {
        write!(out, "{}: {}", self.answer, self.sentence())?;
        match self.place_names() {
            "" => Ok(()),
            names => write!(out, " ({names} {})", self.place),
        }
    }
}

impl std::error::Error for Refusal {}

/// What follows the number in the header's line for an answer.
fn line_of(answer: u32) -> Option<&'static str> {
    HEADER.lines().find_map(|line| {
        let (number, rest) = line.trim_start().strip_prefix("X(")?.split_once(',')?;
        (number.trim().parse() == Ok(answer)).then_some(rest)
    })
}

/// The quoted text of a line, counted from 0.
fn quoted(line: &str, which: usize) -> Option<&str> {
    line.split('"').nth(2 * which + 1)
}

#[cfg(test)]
mod tests {
    use super::*;

    #[test]
    fn every_answer_has_a_sentence() {
        for answer in (0..=9).chain(11..=18).chain(20..=24).chain([31]) {
            assert!(!Refusal::of(answer).sentence().is_empty(), "answer {answer}");
        }
        assert_eq!(Refusal::of(10).sentence(), "");
    }

    #[test]
    fn places_are_named_where_document_01_names_them() {
        for answer in (4..=9).chain(14..=18) {
            assert!(!Refusal::of(answer).place_names().is_empty(), "answer {answer}");
        }
        for answer in (0..=3).chain(11..=13).chain(20..=24).chain([31]) {
            assert!(Refusal::of(answer).place_names().is_empty(), "answer {answer}");
        }
    }
}
