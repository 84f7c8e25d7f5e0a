//! Inputs for all seven calls, from a seed and nothing else: charts and flat tables that are right, tables with damage,
//! states, events, and sizes of the room lent.
//!
//! `chart` and `flat` write tables that pass their check; `damage` spoils a table; `lent` has what is lent beside it.

mod chart;
mod damage;
mod flat;
mod lent;
mod random;

pub use chart::ChartDraft;
pub use damage::{damaged, noise};
pub use flat::FlatDraft;
pub use lent::{damaged_state, event, flat_room, output_room};
pub use random::Random;

/// A table that passes its check, with what may be lent to its runs.
pub trait Draft {
    /// The table's words.
    fn words(&self) -> Vec<u16>;

    /// Mostly a state of the table, and always of the right length.
    fn state(&self, random: &mut Random) -> Vec<u16>;

    /// An event that something waits for, if there is one.
    fn useful_event(&self, random: &mut Random) -> u32;
}

/// One of the triggers that is an event, or any event where there is none.
fn event_waited_for(random: &mut Random, triggers: impl Iterator<Item = u16>, events: u16) -> u32 {
    let waited_for: Vec<u16> = triggers.filter(|&trigger| trigger < events).collect();
    match waited_for.is_empty() {
        true => random.below(events.into()) as u32,
        false => random.pick(&waited_for).into(),
    }
}
