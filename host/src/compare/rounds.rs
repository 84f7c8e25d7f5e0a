//! The inputs of one round: a chart, its flat tables, a flat table of no chart, and damage to all of them.

use super::agreement::{agreed, flat_tables, FlatTables};
use super::answers::Answers;
use super::calls::{Call, Input, Outcome};
use super::flattening::Flattened;
use crate::generate::{damaged, damaged_state, event, flat_room, noise, output_room};
use crate::generate::{ChartDraft, Draft, FlatDraft, Random};
use crate::second::{self, words::Layout, words::CHART, words::FLAT};

/// How many inputs of each sort a round has.
const EVENTS: usize = 8;
const STATES: usize = 3;
const DAMAGED_STATES: usize = 2;
const DAMAGED_TABLES: usize = 8;

/// The calls for one form of table.
struct Form {
    layout: &'static Layout,
    check: Call,
    start: Call,
    run: Call,
}

const CHARTS: Form = Form { layout: &CHART, check: Call::CheckChart, start: Call::StartChart, run: Call::RunChart };
const FLATS: Form = Form { layout: &FLAT, check: Call::CheckFlat, start: Call::StartFlat, run: Call::RunFlat };

pub fn round(random: &mut Random, answers: &mut Answers) -> Result<(), String> {
    let mut round = Round { random, answers };
    let chart = ChartDraft::any(round.random);
    round.table(&CHARTS, &chart)?;
    for flat in round.flattening(&chart)? {
        round.flattened_table(&flat)?;
    }
    let flat = FlatDraft::any(round.random);
    round.table(&FLATS, &flat)
}

struct Round<'a> {
    random: &'a mut Random,
    answers: &'a mut Answers,
}

impl Round<'_> {
    /// All that is done with one good table.
    fn table(&mut self, form: &Form, draft: &impl Draft) -> Result<(), String> {
        let table = draft.words();
        self.done(form.check, &table)?;
        self.walk(form, draft, &table)?;
        self.states(form, draft, &table)?;
        (0..DAMAGED_TABLES).try_for_each(|_| {
            let words = damaged(self.random, form.layout, &table);
            self.bad_table(form, draft, &words)
        })?;
        let words = noise(self.random, form.layout);
        self.bad_table(form, draft, &words)
    }

    /// A table that a flattening wrote, with any states and with damage.
    fn flattened_table(&mut self, table: &[u16]) -> Result<(), String> {
        let draft = FlatDraft::of_table(table);
        self.states(&FLATS, &draft, table)?;
        let words = damaged(self.random, &FLAT, table);
        self.bad_table(&FLATS, &draft, &words)
    }

    /// Makes one call on both implementations.
    fn make(&mut self, input: Input) -> Result<Outcome, String> {
        let report_words = self.random.pick(&[0, 3, 8, 10]);
        let outcome = agreed(&input, report_words).map_err(|difference| format!("{}: {difference}", input.told()))?;
        self.answers.count(input.call, outcome.answer);
        Ok(outcome)
    }

    fn check(&mut self, call: Call, table: &[u16]) -> Result<Outcome, String> {
        self.make(Input { call, table, state: &[], event: 0, room: 0 })
    }

    /// A table that the check must accept.
    fn done(&mut self, call: Call, table: &[u16]) -> Result<(), String> {
        match self.check(call, table)?.answer {
            0 => Ok(()),
            answer => Err(format!("{} answers {answer} to a good table {table:?}", call.name())),
        }
    }

    fn start(&mut self, form: &Form, table: &[u16], state: &[u16]) -> Result<Outcome, String> {
        self.make(Input { call: form.start, table, state, event: 0, room: 0 })
    }

    fn run(&mut self, form: &Form, table: &[u16], state: &[u16], event: u32, room: usize) -> Result<Outcome, String> {
        self.make(Input { call: form.run, table, state, event, room })
    }

    /// Some events from the start state.
    fn walk(&mut self, form: &Form, draft: &impl Draft, table: &[u16]) -> Result<(), String> {
        let garbage = draft.state(self.random);
        let mut state = self.start(form, table, &garbage)?.state;
        (0..EVENTS).try_for_each(|_| {
            let (event, room) = self.event_and_room(form, draft, table, &state);
            state = self.run(form, table, &state, event, room)?.state;
            Ok(())
        })
    }

    /// An event, and output room chosen by the outputs it has.
    fn event_and_room(&mut self, form: &Form, draft: &impl Draft, table: &[u16], state: &[u16]) -> (u32, usize) {
        let useful = draft.useful_event(self.random);
        let events = table.get(4).copied().unwrap_or(1);
        let event = event(self.random, useful, events.max(1));
        let outputs = outputs_of(form, table, state, event);
        (event, output_room(self.random, outputs))
    }

    /// Any states of the table, and states with damage.
    fn states(&mut self, form: &Form, draft: &impl Draft, table: &[u16]) -> Result<(), String> {
        for k in 0..STATES + DAMAGED_STATES {
            let mut state = draft.state(self.random);
            if k >= STATES {
                state = damaged_state(self.random, &state);
                self.start(form, table, &state)?;
            }
            let (event, room) = self.event_and_room(form, draft, table, &state);
            self.run(form, table, &state, event, room)?;
        }
        Ok(())
    }

    /// Every call that takes such a table.
    fn bad_table(&mut self, form: &Form, draft: &impl Draft, table: &[u16]) -> Result<(), String> {
        self.check(form.check, table)?;
        let mut state = draft.state(self.random);
        if self.random.chance(20) {
            state = damaged_state(self.random, &state);
        }
        self.start(form, table, &state)?;
        let (event, room) = self.event_and_room(form, draft, table, &state);
        self.run(form, table, &state, event, room)?;
        if form.run == Call::RunChart {
            let needed = second::room_needed(table).unwrap_or(1000);
            let room = flat_room(self.random, needed);
            self.flatten(table, room)?;
        }
        Ok(())
    }

    /// The library's and the second implementation's flat tables, or none where both refuse.
    fn flatten(&mut self, chart: &[u16], room: usize) -> Result<Option<FlatTables>, String> {
        let input = Input { call: Call::Flatten, table: chart, state: &[], event: 0, room };
        let report_words = self.random.pick(&[0, 3, 8, 10]);
        let (answer, tables) =
            flat_tables(&input, report_words).map_err(|difference| format!("{}: {difference}", input.told()))?;
        self.answers.count(Call::Flatten, answer);
        Ok(tables)
    }

    /// Flattens a good chart with too little room and with enough, and compares runs. Gives the flat tables.
    fn flattening(&mut self, draft: &ChartDraft) -> Result<Vec<Vec<u16>>, String> {
        let chart = draft.words();
        let judge = Flattened::of(&chart);
        let needed = judge.room();
        self.flatten(&chart, needed - 1)?;
        let room = needed + self.random.pick(&[0, 0, 1, 100]);
        let Some(flats) = self.flatten(&chart, room)? else {
            return Err(format!("flatten refuses {room} words of room for {chart:?}"));
        };
        for flat in &flats {
            self.done(Call::CheckFlat, flat)?;
            judge.judge_table(flat).map_err(|wrong| format!("flatten of {chart:?} wrote {flat:?}: {wrong}"))?;
        }
        self.side_by_side(draft, &chart, &flats, &judge)?;
        Ok(flats.into())
    }

    /// The same events on the chart and on its flat tables, from the start states.
    fn side_by_side(
        &mut self,
        draft: &ChartDraft,
        chart: &[u16],
        flats: &[Vec<u16>],
        judge: &Flattened,
    ) -> Result<(), String> {
        let garbage = draft.state(self.random);
        let mut state = self.start(&CHARTS, chart, &garbage)?.state;
        let mut flat_states = Vec::new();
        for flat in flats {
            flat_states.push(self.start(&FLATS, flat, &garbage)?.state);
        }
        for _ in 0..EVENTS {
            let (event, room) = self.event_and_room(&CHARTS, draft, chart, &state);
            let run = self.run(&CHARTS, chart, &state, event, room)?;
            for (flat, flat_state) in flats.iter().zip(&mut flat_states) {
                let flat_run = self.run(&FLATS, flat, flat_state, event, room)?;
                let told =
                    |wrong| format!("chart {chart:?}, flat table {flat:?}, state {state:?}, event {event}: {wrong}");
                judge.judge_run(&run, &flat_run).map_err(told)?;
                *flat_state = flat_run.state;
            }
            state = run.state;
        }
        Ok(())
    }
}

/// The outputs of a run with plenty of room.
fn outputs_of(form: &Form, table: &[u16], state: &[u16], event: u32) -> usize {
    let (mut state, mut outputs) = (state.to_vec(), [0; 512]);
    let outputs = match form.run {
        Call::RunChart => second::run_chart(table, &mut state, event, &mut outputs).map(|counts| counts.outputs),
        _ => second::run_flat(table, &mut state, event, &mut outputs).map(|counts| counts.outputs),
    };
    outputs.unwrap_or(0) as usize
}
