//! Starting a flat table, and running one event on it.

use super::flat::{Flat, Literal};
use super::macrostep::{macrostep, Running};
use super::words::write_outputs;
use crate::{FlatCounts, Refusal};

/// Writes the start state: initial states, and zeros.
pub fn start_flat(flat: &[u16], state: &mut [u16]) -> Result<(), Refusal> {
    let flat = Flat::read(flat)?;
    if state.len() != flat.state_words() {
        return Err(Refusal::of(24));
    }
    write_state(&flat.initials, &vec![0; flat.names.variables], state);
    Ok(())
}

/// Runs one event: judges table, state and event, and writes state and outputs when the macrostep is done.
pub fn run_flat(flat: &[u16], state: &mut [u16], event: u32, outputs: &mut [u16]) -> Result<FlatCounts, Refusal> {
    let flat = Flat::read(flat)?;
    let mut current = read_current(&flat, state).ok_or(Refusal::of(24))?;
    if event as usize >= flat.names.events {
        return Err(Refusal::of(20));
    }
    let variables = state[current.len()..].iter().map(|&word| word as i16).collect();
    let mut running = Running::begin(variables, outputs.len());
    let mut fired = 0;
    let microsteps = macrostep(flat.names.events, event as usize, &mut running, |trigger, running| {
        fired += microstep(&flat, trigger, &mut current, running)?;
        Ok(())
    })?;
    write_state(&current, &running.variables, state);
    write_outputs(outputs, &running.outputs);
    Ok(FlatCounts { microsteps, fired, outputs: running.outputs.len() as u32 })
}

/// The current state of each machine, if the words are a state of this table.
fn read_current(flat: &Flat, words: &[u16]) -> Option<Vec<usize>> {
    if words.len() != flat.state_words() {
        return None;
    }
    let current: Vec<usize> = words[..flat.initials.len()].iter().map(|&word| word as usize).collect();
    let is_of = |(machine, &state): (usize, &usize)| flat.machines.get(state) == Some(&machine);
    current.iter().enumerate().all(is_of).then_some(current)
}

fn write_state(current: &[usize], variables: &[i16], state: &mut [u16]) {
    let words = current.iter().map(|&state| state as u16).chain(variables.iter().map(|&value| value as u16));
    state.iter_mut().zip(words).for_each(|(lent, word)| *lent = word);
}

/// Rules in order: items run at once, targets become current at the end. Gives the number of rules fired.
fn microstep(flat: &Flat, trigger: usize, current: &mut [usize], running: &mut Running) -> Result<u32, Refusal> {
    let values = guard_values(flat, current, &running.variables);
    let mut fired = 0;
    for rule in &flat.rules {
        if rule.trigger == trigger && rule.guards.iter().all(|&guard| values[guard]) {
            fired += 1;
            running.act(&flat.items[rule.items.clone()])?;
            if let Some(target) = rule.target {
                current[flat.machines[target]] = target;
            }
        }
    }
    Ok(fired)
}

/// All guards on the values at the microstep's start. A guard reads only smaller guards.
fn guard_values(flat: &Flat, current: &[usize], variables: &[i16]) -> Vec<bool> {
    let is_current = |state: usize| current[flat.machines[state]] == state;
    let mut values = Vec::with_capacity(flat.guards.len());
    for guard in &flat.guards {
        let holds = |literal: &Literal| match *literal {
            Literal::Current(state) => is_current(state),
            Literal::NotCurrent(state) => !is_current(state),
            Literal::Variable(comparison) => comparison.holds(variables),
            Literal::True(smaller) => values[smaller],
            Literal::False(smaller) => !values[smaller],
        };
        let value = guard.iter().all(holds);
        values.push(value);
    }
    values
}
