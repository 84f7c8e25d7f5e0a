//! Starting a chart, and running one event on it.

use super::chart::{Chart, Transition};
use super::macrostep::{macrostep, Running};
use super::words::write_outputs;
use crate::{ChartCounts, Refusal};

/// Writes the start state: all initial children, and zeros.
pub fn start_chart(chart: &[u16], state: &mut [u16]) -> Result<(), Refusal> {
    let chart = Chart::read(chart)?;
    if state.len() != chart.state_words() {
        return Err(Refusal::of(24));
    }
    let initial: Vec<usize> = chart.tree.states.iter().map(|state| state.initial.unwrap_or(0)).collect();
    write_state(&chart, &initial, &vec![0; chart.names.variables], state);
    Ok(())
}

/// Runs one event: judges table, state and event, and writes state and outputs when the macrostep is done.
pub fn run_chart(chart: &[u16], state: &mut [u16], event: u32, outputs: &mut [u16]) -> Result<ChartCounts, Refusal> {
    let chart = Chart::read(chart)?;
    let current = read_current(&chart, state).ok_or(Refusal::of(24))?;
    if event as usize >= chart.names.events {
        return Err(Refusal::of(20));
    }
    let variables = state[state.len() - chart.names.variables..].iter().map(|&word| word as i16).collect();
    let mut running = Running::begin(variables, outputs.len());
    let mut walk = Walk { chart: &chart, current, counts: ChartCounts::default() };
    let events = chart.names.events;
    let microsteps =
        macrostep(events, event as usize, &mut running, |trigger, running| walk.microstep(trigger, running))?;
    walk.settle();
    write_state(&chart, &walk.current, &running.variables, state);
    write_outputs(outputs, &running.outputs);
    Ok(ChartCounts { microsteps, outputs: running.outputs.len() as u32, ..walk.counts })
}

/// The current child of each or-state, by state number, if the words are a state of this chart.
fn read_current(chart: &Chart, words: &[u16]) -> Option<Vec<usize>> {
    if words.len() != chart.state_words() {
        return None;
    }
    let tree = &chart.tree;
    let or_states = tree.or_states();
    let mut current = vec![0; tree.states.len()];
    for (&or_state, &word) in or_states.iter().zip(words) {
        current[or_state] = word as usize;
    }
    let active = tree.active_set(&current);
    let is_right = |&or_state: &usize| {
        let state = &tree.states[or_state];
        let child = current[or_state];
        match active[or_state] || state.history {
            true => state.children.contains(&child),
            false => state.initial == Some(child),
        }
    };
    or_states.iter().all(is_right).then_some(current)
}

fn write_state(chart: &Chart, current: &[usize], variables: &[i16], state: &mut [u16]) {
    let children = chart.tree.or_states().into_iter().map(|or_state| current[or_state] as u16);
    let words = children.chain(variables.iter().map(|&value| value as u16));
    state.iter_mut().zip(words).for_each(|(lent, word)| *lent = word);
}

/// A chart on its way through a macrostep.
struct Walk<'a> {
    chart: &'a Chart,
    /// The latest active child of each or-state, by state number.
    current: Vec<usize>,
    counts: ChartCounts,
}

impl<'a> Walk<'a> {
    fn microstep(&mut self, trigger: usize, running: &mut Running) -> Result<(), Refusal> {
        let active = self.chart.tree.active_set(&self.current);
        for transition in taken(self.chart, trigger, &active, &running.variables) {
            self.carry_out(transition, &active, running)?;
        }
        Ok(())
    }

    /// Leaves, runs the transition's own items, enters.
    fn carry_out(&mut self, transition: &Transition, active: &[bool], running: &mut Running) -> Result<(), Refusal> {
        self.counts.taken += 1;
        let items = &self.chart.items;
        if let Some(scope) = transition.scope {
            self.leave(scope, active, running)?;
        }
        running.act(&items[transition.items.clone()])?;
        if let Some(scope) = transition.scope {
            self.enter(scope, &transition.targets, running)?;
        }
        Ok(())
    }

    /// Active states below the scope are left in falling number.
    fn leave(&mut self, scope: usize, active: &[bool], running: &mut Running) -> Result<(), Refusal> {
        let chart = self.chart;
        for state in chart.tree.and_states().into_iter().rev() {
            if active[state] && chart.tree.is_above(scope, state) {
                self.counts.left += 1;
                running.act(&chart.items[chart.exits[state].clone()])?;
            }
        }
        Ok(())
    }

    /// States are entered in rising number, and become the latest child of their or-states.
    fn enter(&mut self, scope: usize, targets: &[usize], running: &mut Running) -> Result<(), Refusal> {
        let chart = self.chart;
        let mut entered = Vec::new();
        self.gather_entered(scope, targets, &mut entered);
        entered.sort_unstable();
        for (state, or_state) in entered {
            self.counts.entered += 1;
            self.current[or_state] = state;
            running.act(&chart.items[chart.entries[state].clone()])?;
        }
        Ok(())
    }

    /// The child entered in an or-state, each with the or-state it is in, and all entered below it.
    fn gather_entered(&self, or_state: usize, targets: &[usize], entered: &mut Vec<(usize, usize)>) {
        let tree = &self.chart.tree;
        let child = self.child_to_enter(or_state, targets);
        entered.push((child, or_state));
        for &region in &tree.states[child].children {
            self.gather_entered(region, targets, entered);
        }
    }

    /// The child towards a target, else the latest child if there is history, else the initial child.
    fn child_to_enter(&self, or_state: usize, targets: &[usize]) -> usize {
        let tree = &self.chart.tree;
        let state = &tree.states[or_state];
        let remembered = if state.history { Some(self.current[or_state]) } else { state.initial };
        tree.child_towards(or_state, targets).or(remembered).expect("an or-state has an initial child")
    }

    /// At the end, an or-state that is neither active nor has history holds its initial child.
    fn settle(&mut self) {
        let active = self.chart.tree.active_set(&self.current);
        for (k, state) in self.chart.tree.states.iter().enumerate() {
            if let (Some(initial), false) = (state.initial, active[k] || state.history) {
                self.current[k] = initial;
            }
        }
    }
}

/// In rising number, an enabled transition is taken unless an earlier one taken has a related scope.
fn taken<'a>(chart: &'a Chart, trigger: usize, active: &[bool], variables: &[i16]) -> Vec<&'a Transition> {
    let mut taken: Vec<&Transition> = Vec::new();
    for transition in &chart.transitions {
        let blocked = || taken.iter().any(|earlier| chart.related(earlier, transition));
        if enabled(transition, trigger, active, variables) && !blocked() {
            taken.push(transition);
        }
    }
    taken
}

/// The trigger matches, the source is active and all literals hold.
fn enabled(transition: &Transition, trigger: usize, active: &[bool], variables: &[i16]) -> bool {
    transition.trigger == trigger
        && active[transition.source]
        && transition.literals.iter().all(|literal| literal.holds(active, variables))
}
