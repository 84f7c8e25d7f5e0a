//! A flat table that behaves like a chart.
//!
//! Guards: first one for each and-state, true while it is active; then one for each transition, true when it is taken;
//! then one for each child that history may choose when a transition enters. Rules, transition by transition: the exit
//! items of every and-state below the scope, if it is active; the transition's own items; every and-state that may be
//! entered. All guards speak of the microstep's start, and that is enough: taken scopes are unrelated, so no state is
//! left or entered by two transitions.

use super::chart::{Chart, Literal, Transition};
use super::words::{FLAT, NONE};
use crate::Refusal;
use std::ops::Range;

/// Writes the flat table of a chart, and gives the number of its words.
pub fn flatten(chart: &[u16], room: &mut [u16]) -> Result<usize, Refusal> {
    let chart = Chart::read(chart)?;
    if room.len() < needed(&chart) {
        return Err(Refusal::of(31));
    }
    let words = Flattening::of(&chart).words();
    room[..words.len()].copy_from_slice(&words);
    Ok(words.len())
}

/// The words of room that flattening a chart asks for.
pub fn room_needed(chart: &[u16]) -> Result<usize, Refusal> {
    Chart::read(chart).map(|chart| needed(&chart))
}

/// The room by the formulas for guards, literals and rules.
fn needed(chart: &Chart) -> usize {
    let and_states = chart.tree.and_states().len();
    let transitions = chart.transitions.len();
    let literals: usize = chart.transitions.iter().map(|transition| transition.literals.len()).sum();
    let pairs = transitions * and_states;
    let earlier = (0..transitions).sum::<usize>();
    let guards = and_states + transitions + pairs;
    let literals = 2 * and_states + transitions + literals + earlier + 2 * pairs;
    let rules = transitions * (2 * and_states + 1);
    FLAT.header() + chart.tree.states.len() + 2 * guards + 3 * literals + 3 * chart.items.len() + 6 * rules
}

/// A flat table being written.
struct Flattening<'a> {
    chart: &'a Chart,
    /// Each chart state's number among the and-states, or among the or-states.
    rank: Vec<usize>,
    and_states: Vec<usize>,
    guards: Vec<[u16; 2]>,
    literals: Vec<[u16; 3]>,
    rules: Vec<[u16; 6]>,
}

impl<'a> Flattening<'a> {
    fn of(chart: &'a Chart) -> Flattening<'a> {
        let and_states = chart.tree.and_states();
        let mut rank = vec![0; chart.tree.states.len()];
        for numbered in [&and_states, &chart.tree.or_states()] {
            numbered.iter().enumerate().for_each(|(number, &state)| rank[state] = number);
        }
        let (guards, literals, rules) = (Vec::new(), Vec::new(), Vec::new());
        let mut flattening = Flattening { chart, rank, and_states, guards, literals, rules };
        flattening.add_active_guards();
        flattening.add_taken_guards();
        (0..chart.transitions.len()).for_each(|t| flattening.add_rules(t));
        flattening
    }

    /// Adds a guard and gives its number.
    fn add_guard(&mut self, literals: &[[u16; 3]]) -> usize {
        self.guards.push([self.literals.len() as u16, literals.len() as u16]);
        self.literals.extend(literals);
        self.guards.len() - 1
    }

    fn is_true(guard: usize) -> [u16; 3] {
        [4, guard as u16, 0]
    }

    fn is_false(guard: usize) -> [u16; 3] {
        [5, guard as u16, 0]
    }

    fn is_current(&self, state: usize) -> [u16; 3] {
        [0, self.rank[state] as u16, 0]
    }

    /// The guard that an and-state is active.
    fn active_guard(&self, state: usize) -> usize {
        self.rank[state]
    }

    /// The guard that a transition is taken, when its trigger comes.
    fn taken_guard(&self, transition: usize) -> usize {
        self.and_states.len() + transition
    }

    /// An and-state is active when it is current, and the and-state two levels up is active.
    fn add_active_guards(&mut self) {
        for state in self.and_states.clone() {
            let mut literals = vec![self.is_current(state)];
            let two_up = self.chart.tree.ancestors(state).nth(1);
            literals.extend(two_up.map(|above| Self::is_true(self.active_guard(above))));
            self.add_guard(&literals);
        }
    }

    /// A transition is taken when its source is active, its literals hold, and no related earlier one is taken.
    fn add_taken_guards(&mut self) {
        let chart = self.chart;
        for (t, transition) in chart.transitions.iter().enumerate() {
            let mut literals = vec![Self::is_true(self.active_guard(transition.source))];
            literals.extend(transition.literals.iter().map(|literal| self.flat_literal(literal)));
            literals.extend((0..t).filter(|&s| self.blocks(s, t)).map(|s| Self::is_false(self.taken_guard(s))));
            self.add_guard(&literals);
        }
    }

    /// An earlier transition that shares the trigger and has a related scope.
    fn blocks(&self, earlier: usize, later: usize) -> bool {
        let (one, other) = (&self.chart.transitions[earlier], &self.chart.transitions[later]);
        one.trigger == other.trigger && self.chart.related(one, other)
    }

    fn flat_literal(&self, literal: &Literal) -> [u16; 3] {
        match literal {
            Literal::Active(state) => Self::is_true(self.active_guard(*state)),
            Literal::NotActive(state) => Self::is_false(self.active_guard(*state)),
            Literal::Variable(comparison) => comparison.words(),
        }
    }

    /// Exits in falling number, the transition's own items, entries in rising number.
    fn add_rules(&mut self, t: usize) {
        let chart = self.chart;
        let transition = &chart.transitions[t];
        let taken = self.taken_guard(t);
        if let Some(scope) = transition.scope {
            for state in self.and_states.clone().into_iter().rev().filter(|&state| chart.tree.is_above(scope, state)) {
                let active = self.active_guard(state);
                self.add_rule(transition, [taken, active], &chart.exits[state], None);
            }
        }
        self.add_rule(transition, [taken, taken], &transition.items, None);
        if let Some(scope) = transition.scope {
            let mut entered = Vec::new();
            self.gather_entered(scope, &transition.targets, taken, &mut entered);
            entered.sort_unstable();
            for (state, guard) in entered {
                self.add_rule(transition, [taken, guard], &chart.entries[state], Some(state));
            }
        }
    }

    /// The and-states that may be entered from an or-state on, each with the guard that it is.
    fn gather_entered(&mut self, or_state: usize, targets: &[usize], guard: usize, entered: &mut Vec<(usize, usize)>) {
        let chart = self.chart;
        let state = &chart.tree.states[or_state];
        match (chart.tree.child_towards(or_state, targets), state.history) {
            (None, true) => {
                for &child in &state.children {
                    let chosen = self.add_guard(&[Self::is_true(guard), self.is_current(child)]);
                    self.gather_below(child, targets, chosen, entered);
                }
            }
            (towards, _) => {
                let child = towards.or(state.initial).expect("an or-state has an initial child");
                self.gather_below(child, targets, guard, entered);
            }
        }
    }

    /// An and-state that may be entered, and all below it.
    fn gather_below(&mut self, child: usize, targets: &[usize], guard: usize, entered: &mut Vec<(usize, usize)>) {
        entered.push((child, guard));
        for &region in &self.chart.tree.states[child].children {
            self.gather_entered(region, targets, guard, entered);
        }
    }

    /// A rule without items and target does nothing and is not written.
    fn add_rule(&mut self, transition: &Transition, guards: [usize; 2], items: &Range<usize>, target: Option<usize>) {
        if items.is_empty() && target.is_none() {
            return;
        }
        let [one, other] = guards.map(|guard| guard as u16);
        let target = target.map_or(NONE, |state| self.rank[state] as u16);
        self.rules.push([transition.trigger as u16, one, other, items.start as u16, items.len() as u16, target]);
    }

    /// Machine i stands for the i-th or-state, flat state j for the j-th and-state.
    fn words(&self) -> Vec<u16> {
        let tree = &self.chart.tree;
        let names = &self.chart.names;
        let rank = |state: Option<usize>| state.map(|state| self.rank[state] as u16);
        let initials: Vec<u16> = tree.or_states().iter().filter_map(|&k| rank(tree.states[k].initial)).collect();
        let machines: Vec<u16> = self.and_states.iter().filter_map(|&k| rank(tree.states[k].parent)).collect();
        let counts = [
            initials.len(),
            machines.len(),
            names.events,
            names.signals,
            names.outputs,
            names.variables,
            self.guards.len(),
            self.literals.len(),
            self.chart.items.len(),
            self.rules.len(),
        ];
        let sections = [
            initials,
            machines,
            self.guards.concat(),
            self.literals.concat(),
            self.chart.item_words.clone(),
            self.rules.concat(),
        ];
        FLAT.table(&counts.map(|count| count as u16), &sections)
    }
}
