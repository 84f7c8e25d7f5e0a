//! The macrostep: trigger after trigger until no signal waits, with the limits of queue, outputs and microsteps.

use super::items::Item;
use crate::Refusal;
use std::collections::VecDeque;

const SIGNALS_WAITING: usize = 32;
const OUTPUTS: usize = 256;
const MICROSTEPS: u32 = 64;

/// What items act on while a macrostep runs.
pub struct Running {
    pub variables: Vec<i16>,
    pub outputs: Vec<[u16; 2]>,
    waiting: VecDeque<usize>,
    pairs: usize,
}

impl Running {
    /// The beginning of a macrostep, with so many output words lent.
    pub fn begin(variables: Vec<i16>, lent: usize) -> Running {
        Running { variables, outputs: Vec::new(), waiting: VecDeque::new(), pairs: OUTPUTS.min(lent / 2) }
    }

    /// Items act in order, at once.
    pub fn act(&mut self, items: &[Item]) -> Result<(), Refusal> {
        items.iter().try_for_each(|&item| self.act_one(item))
    }

    fn act_one(&mut self, item: Item) -> Result<(), Refusal> {
        let variables = &mut self.variables;
        match item {
            Item::Emit { output } => return self.emit(output, 0),
            Item::Raise { signal } => return self.raise(signal),
            Item::AddWrapping { variable, constant } => {
                variables[variable] = variables[variable].wrapping_add(constant)
            }
            Item::AddSaturating { variable, constant } => {
                variables[variable] = variables[variable].saturating_add(constant)
            }
            Item::Set { variable, constant } => variables[variable] = constant,
            Item::EmitValue { output, variable } => {
                let value = variables[variable] as u16;
                return self.emit(output, value);
            }
        }
        Ok(())
    }

    fn emit(&mut self, output: usize, value: u16) -> Result<(), Refusal> {
        if self.outputs.len() == self.pairs {
            return Err(Refusal::of(22));
        }
        self.outputs.push([output as u16, value]);
        Ok(())
    }

    fn raise(&mut self, signal: usize) -> Result<(), Refusal> {
        if self.waiting.len() == SIGNALS_WAITING {
            return Err(Refusal::of(21));
        }
        self.waiting.push_back(signal);
        Ok(())
    }
}

/// The event is the first trigger, then the oldest signal, until none waits. Gives the number of microsteps.
pub fn macrostep(
    events: usize,
    event: usize,
    running: &mut Running,
    mut microstep: impl FnMut(usize, &mut Running) -> Result<(), Refusal>,
) -> Result<u32, Refusal> {
    let mut trigger = event;
    for microsteps in 1..=MICROSTEPS {
        microstep(trigger, running)?;
        match running.waiting.pop_front() {
            None => return Ok(microsteps),
            Some(signal) => trigger = events + signal,
        }
    }
    Err(Refusal::of(23))
}
