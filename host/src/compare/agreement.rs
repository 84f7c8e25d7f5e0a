//! The library and the second implementation on one input: each on words lent to it alone, and what they must share.

use super::calls::{Input, Outcome, Report};
use super::engines::{place_report, raw, Engine, Slices, LIBRARY, SECOND};
use crate::ffi::{report, REPORT_WORDS};

/// Words lent from the middle of a longer piece, so that a write beyond them shows.
struct Lent {
    piece: Vec<u16>,
    end: usize,
}

const MARGIN: [u16; 16] = [0x5A5A; 16];

/// What stands where no report has been written.
const UNTOUCHED: u32 = 0xC3C3_C3C3;

impl Lent {
    fn of(words: &[u16]) -> Lent {
        Lent { piece: [&MARGIN, words, &MARGIN].concat(), end: MARGIN.len() + words.len() }
    }

    fn words(&mut self) -> &mut [u16] {
        &mut self.piece[MARGIN.len()..self.end]
    }

    /// The words afterwards, if nothing beside them was changed.
    fn given_back(mut self) -> Result<Vec<u16>, String> {
        let before = self.piece[..MARGIN.len()] == MARGIN;
        match before && self.piece[self.end..] == MARGIN {
            true => Ok(self.words().to_vec()),
            false => Err("a word beyond the lent ones was changed".to_string()),
        }
    }
}

/// Makes a call on words lent for it alone. The table must stay as it is.
fn outcome(input: &Input, make: impl FnOnce(Slices) -> (u32, Report)) -> Result<Outcome, String> {
    let [mut table, mut state, mut room] = [input.table, input.state, &input.pattern()].map(Lent::of);
    let (answer, report) = make(Slices { table: table.words(), state: state.words(), room: room.words() });
    if table.given_back()? != input.table {
        return Err("the table was changed".to_string());
    }
    Ok(Outcome { answer, report, state: state.given_back()?, room: room.given_back()? })
}

/// What the library and the second implementation leave of the same input.
struct Both {
    library: Outcome,
    second: Outcome,
}

/// Makes a call on both, and on the library once more with a report of so many words.
fn both(input: &Input, report_words: usize) -> Result<Both, String> {
    let made = |engine: &Engine| outcome(input, |lent| engine.make(input.call, input.event, lent));
    let second = made(&SECOND).map_err(|wrong| format!("second implementation: {wrong}"))?;
    let library = made(&LIBRARY).map_err(|wrong| format!("library: {wrong}"))?;
    let again = with_report(input, &library.report, report_words)?;
    if again != library {
        return Err(format!("a report of {report_words} words: {again:?}, and the library before: {library:?}"));
    }
    refusal_changes_nothing(input, &library)?;
    Ok(Both { library, second })
}

/// The library's outcome with a report of so many words: those of the report that are lent, and none beyond.
fn with_report(input: &Input, expected: &Report, report_words: usize) -> Result<Outcome, String> {
    let mut piece = [UNTOUCHED; 2 * REPORT_WORDS];
    let lent_report = &mut piece[..report_words];
    let again = outcome(input, |lent| (raw(input.call, input.event, lent, lent_report), *expected))?;
    let mut right = [UNTOUCHED; 2 * REPORT_WORDS];
    let written = report_words.min(REPORT_WORDS);
    right[..written].copy_from_slice(&expected[..written]);
    match piece == right {
        true => Ok(again),
        false => Err(format!("a report of {report_words} words leaves {piece:?}, not {right:?}")),
    }
}

/// A refusal reports counts 0 and changes no lent word.
fn refusal_changes_nothing(input: &Input, outcome: &Outcome) -> Result<(), String> {
    let unchanged = outcome.state == input.state && outcome.room == input.pattern();
    let only_place = outcome.report == place_report(outcome.report[report::PLACE]);
    match outcome.answer == 0 || unchanged && only_place {
        true => Ok(()),
        false => Err(format!("the library's refusal leaves {outcome:?}")),
    }
}

/// Both outcomes of a call whose every word document 01 settles: they must be one.
pub fn agreed(input: &Input, report_words: usize) -> Result<Outcome, String> {
    let Both { library, second } = both(input, report_words)?;
    match library == second {
        true => Ok(library),
        false => Err(format!("library: {library:?}, second implementation: {second:?}")),
    }
}

/// The flat tables that the library and the second implementation write of a chart.
pub type FlatTables = [Vec<u16>; 2];

/// The answer of both to a flattening, and their flat tables if it is done. Words beyond a table stay as they are.
pub fn flat_tables(input: &Input, report_words: usize) -> Result<(u32, Option<FlatTables>), String> {
    let Both { library, second } = both(input, report_words)?;
    if (library.answer, library.report[report::PLACE]) != (second.answer, second.report[report::PLACE]) {
        return Err(format!("library: {}, second implementation: {}", library.answer, second.answer));
    }
    if library.answer != 0 {
        return Ok((library.answer, None));
    }
    let tables = [written(input, &library)?, written(input, &second)?];
    Ok((0, Some(tables)))
}

/// The flat table in the room, if it is as long as reported and the room beyond it is untouched.
fn written(input: &Input, outcome: &Outcome) -> Result<Vec<u16>, String> {
    let words = outcome.report[report::WORDS] as usize;
    let total = outcome.room.get(1).map_or(0, |&total| total as usize);
    if words != total || words > outcome.room.len() {
        return Err(format!("{words} words reported, the table's total is {total}"));
    }
    if outcome.room[words..] != input.pattern()[words..] {
        return Err("a word of the room beyond the flat table was changed".to_string());
    }
    Ok(outcome.room[..words].to_vec())
}
