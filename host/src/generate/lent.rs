//! What is lent beside a table: states, events, and room.

use super::random::Random;

/// A state with a wrong word or of a wrong length.
pub fn damaged_state(random: &mut Random, state: &[u16]) -> Vec<u16> {
    let mut words = state.to_vec();
    match random.below(6) {
        0 => words.push(random.below(3) as u16),
        1 => words.truncate(state.len() - 1),
        2 => words.truncate(random.below(state.len())),
        3 => words.resize(47, 0),
        _ => {
            let at = random.below(state.len());
            words[at] = random.pick(&[0, words[at].wrapping_add(1), words[at].wrapping_sub(1), 47, 48, u16::MAX]);
        }
    }
    words
}

/// An event: mostly the useful one, else at or far beyond the last.
pub fn event(random: &mut Random, useful: u32, events: u16) -> u32 {
    let events = u32::from(events);
    match random.below(24) {
        0 => events,
        1 => events + random.below(40) as u32,
        2 => 65536 + useful,
        3 => random.pick(&[u32::MAX, 65535, 256 + useful, 1 << 31]),
        4 => events - 1,
        5 => random.below(events as usize) as u32,
        _ => useful,
    }
}

/// Output words to lend for a run that has so many outputs.
pub fn output_room(random: &mut Random, outputs: usize) -> usize {
    let exact = 2 * outputs;
    match random.below(10) {
        0 => 0,
        1 => 1 + 2 * random.below(6),
        2 => exact.saturating_sub(1),
        3 => exact,
        4 => exact + 1,
        5 => exact.saturating_sub(2),
        6 => 600,
        7 => 513,
        _ => 512,
    }
}

/// Words to lend for a flat table that needs so many.
pub fn flat_room(random: &mut Random, needed: usize) -> usize {
    match random.below(8) {
        0 => needed - 1,
        1 => random.below(needed),
        2 => 0,
        3 | 4 => needed,
        5 => 70_000,
        _ => needed + random.from_to(1, 40),
    }
}
