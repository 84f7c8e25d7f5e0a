//! Flat tables that pass their check and come from no chart.

use super::chart::{any_span, items, output};
use super::random::Random;
use super::{event_waited_for, Draft};
use crate::second::words::{FLAT, NONE};

/// A flat table as rows, before it is laid out in words.
pub struct FlatDraft {
    /// Events, signals, outputs, variables.
    names: [u16; 4],
    initials: Vec<u16>,
    machines: Vec<u16>,
    guards: Vec<[u16; 2]>,
    literals: Vec<[u16; 3]>,
    items: Vec<[u16; 3]>,
    rules: Vec<[u16; 6]>,
}

/// How many machines, states, guards, literals, items and rules.
type Sizes = [usize; 6];

/// Rules that are kept free for the special ones.
const SPARE_RULES: usize = 8;

const LIMITS: Sizes = [24, 47, 2351, 6166, 512, 4560];
const MIDDLE: Sizes = [24, 47, 80, 200, 200, 150];
const SMALL: Sizes = [5, 12, 16, 40, 30, 30];

impl FlatDraft {
    /// Any flat table: of any size, with guards that name guards, shared spans and equal guards, and sometimes with
    /// rules that come close to one of the run's limits.
    pub fn any(random: &mut Random) -> FlatDraft {
        let sizes = sizes(random);
        let [machine_count, state_count, guards, literals, item_count, rules] = sizes;
        let names = names(random, sizes == LIMITS);
        let (initials, machines) = machines(random, machine_count, state_count);
        let items = items(random, item_count, names);
        let (no_guards, no_literals, no_rules) = (Vec::new(), Vec::new(), Vec::new());
        let mut draft =
            FlatDraft { names, initials, machines, guards: no_guards, literals: no_literals, items, rules: no_rules };
        draft.add_idle_literals(random, literals);
        (0..guards).for_each(|_| draft.add_guard(random, literals));
        (0..rules).for_each(|_| draft.add_rule(random));
        match random.below(6) {
            0 => draft.add_raises(random),
            1 => draft.add_outputs(random),
            2 => draft.add_counting(random),
            _ => {}
        }
        draft
    }

    /// The rows of a flat table that passes its check.
    pub fn of_table(table: &[u16]) -> FlatDraft {
        let counts = &table[2..12];
        let ends = FLAT.offsets(counts);
        let section = |at: usize| &table[ends[at]..ends[at + 1]];
        FlatDraft {
            names: [counts[2], counts[3], counts[4], counts[5]],
            initials: section(0).to_vec(),
            machines: section(1).to_vec(),
            guards: rows(section(2)),
            literals: rows(section(3)),
            items: rows(section(4)),
            rules: rows(section(5)),
        }
    }

    /// Literals that no guard spans may be anything.
    fn add_idle_literals(&mut self, random: &mut Random, most: usize) {
        if random.chance(20) {
            let count = random.below(1 + most.min(4));
            self.literals.extend((0..count).map(|_| [random.word(), random.word(), random.word()]));
        }
    }

    /// A guard with literals of its own, or a part of an earlier guard's.
    fn add_guard(&mut self, random: &mut Random, most: usize) {
        let earlier = self.guards.get(random.below(self.guards.len())).copied();
        let wanted = random.pick(&[0, 1, 1, 2, 2, 3, 12]);
        let span = match earlier {
            Some([first, count]) if random.chance(15) => {
                let (within, length) = any_span(random, count as usize, count as usize);
                [first + within, length]
            }
            _ if self.literals.len() + wanted > most => [random.below(1 + self.literals.len()) as u16, 0],
            _ => {
                let first = self.literals.len() as u16;
                (0..wanted).for_each(|_| self.add_literal(random));
                [first, wanted as u16]
            }
        };
        self.guards.push(span);
    }

    /// A literal for the guard that comes next: it may name any guard before it.
    fn add_literal(&mut self, random: &mut Random) {
        let variables = self.names[3] as usize;
        let state = random.below(self.machines.len()) as u16;
        let smaller = random.below(self.guards.len()) as u16;
        let literal = match random.below(6) {
            kind @ (2 | 3) if variables > 0 => [kind as u16, random.below(variables) as u16, random.constant()],
            kind @ (4 | 5) if !self.guards.is_empty() => [kind as u16, smaller, 0],
            kind => [(kind % 2) as u16, state, 0],
        };
        self.literals.push(literal);
    }

    fn add_rule(&mut self, random: &mut Random) {
        if self.guards.is_empty() {
            return;
        }
        let triggers = (self.names[0] + self.names[1]) as usize;
        let busy = if random.chance(60) { triggers.min(2) } else { triggers };
        let trigger = random.below(busy) as u16;
        let first = random.below(self.guards.len()) as u16;
        let second = if random.chance(40) { first } else { random.below(self.guards.len()) as u16 };
        let longest = if random.chance(5) { 60 } else { 3 };
        let items = any_span(random, self.items.len(), longest);
        let target = if random.chance(30) { NONE } else { random.below(self.machines.len()) as u16 };
        self.rules.push([trigger, first, second, items.0, items.1, target]);
    }

    /// Makes place for some items, with one guard and a few rules at the end.
    fn spare(&mut self, items: usize) {
        self.guards.truncate(LIMITS[2] - 1);
        self.literals.truncate(LIMITS[3] - 1);
        self.items.truncate(LIMITS[4] - items);
        let (guards, literals, items) = (self.guards.len(), self.literals.len(), self.items.len());
        self.guards.iter_mut().filter(|row| (row[0] + row[1]) as usize > literals).for_each(|row| *row = [0, 0]);
        let stays = |row: &[u16; 6]| (row[1].max(row[2]) as usize) < guards && (row[3] + row[4]) as usize <= items;
        self.rules.retain(stays);
        self.rules.truncate(LIMITS[5] - SPARE_RULES);
    }

    /// Adds a guard with the last literals, and gives its number.
    fn add_special_guard(&mut self, literal_count: usize) -> u16 {
        self.guards.push([(self.literals.len() - literal_count) as u16, literal_count as u16]);
        self.guards.len() as u16 - 1
    }

    /// A rule without target that runs the last items.
    fn add_special_rule(&mut self, trigger: u16, guard: u16, item_count: usize) {
        let first = (self.items.len() - item_count) as u16;
        self.rules.push([trigger, guard, guard, first, item_count as u16, NONE]);
    }

    /// About 32 raises at once.
    fn add_raises(&mut self, random: &mut Random) {
        let count = random.from_to(30, 34);
        self.names[1] = self.names[1].max(1);
        self.spare(count);
        for _ in 0..count {
            self.items.push([1, random.below(self.names[1].into()) as u16, 0]);
        }
        let always = self.add_special_guard(0);
        self.add_special_rule(0, always, count);
    }

    /// About 256 outputs in one microstep.
    fn add_outputs(&mut self, random: &mut Random) {
        let rules = random.pick(&[1, 2, 4]);
        let count = 256 / rules + random.below(2);
        self.names[2] = self.names[2].max(1);
        self.spare(count);
        for _ in 0..count {
            self.items.push(output(random, self.names));
        }
        let always = self.add_special_guard(0);
        (0..rules).for_each(|_| self.add_special_rule(0, always, count));
    }

    /// A signal that raises itself until a variable has counted to about 62, with many or few rules that fire on it:
    /// the count of rules fired may pass 65535.
    fn add_counting(&mut self, random: &mut Random) {
        self.names[1] = self.names[1].max(1);
        self.names[3] = self.names[3].max(1);
        self.spare(2);
        self.literals.push([3, 0, random.from_to(59, 65) as u16]);
        let counting = self.add_special_guard(1);
        let signal = random.below(self.names[1].into()) as u16;
        self.items.extend([[3, 0, 1], [1, signal, 0]]);
        let idle = if random.chance(10) { 1200 } else { 3 };
        let trigger = self.names[0] + signal;
        (0..idle.min(LIMITS[5] - 2 - self.rules.len())).for_each(|_| self.add_special_rule(trigger, counting, 0));
        self.add_special_rule(0, counting, 1);
        self.add_special_rule(trigger, counting, 2);
    }
}

impl Draft for FlatDraft {
    fn words(&self) -> Vec<u16> {
        let [events, signals, outputs, variables] = self.names;
        let counts = [
            self.initials.len() as u16,
            self.machines.len() as u16,
            events,
            signals,
            outputs,
            variables,
            self.guards.len() as u16,
            self.literals.len() as u16,
            self.items.len() as u16,
            self.rules.len() as u16,
        ];
        let sections = [
            self.initials.clone(),
            self.machines.clone(),
            self.guards.concat(),
            self.literals.concat(),
            self.items.concat(),
            self.rules.concat(),
        ];
        FLAT.table(&counts, &sections)
    }

    fn useful_event(&self, random: &mut Random) -> u32 {
        event_waited_for(random, self.rules.iter().map(|row| row[0]), self.names[0])
    }

    /// A state of each machine, any variables.
    fn state(&self, random: &mut Random) -> Vec<u16> {
        let mut words: Vec<u16> = Vec::new();
        for machine in 0..self.initials.len() {
            words.push(any_state_of(random, &self.machines, machine));
        }
        words.extend((0..self.names[3]).map(|_| random.constant()));
        words
    }
}

/// The rows of a section.
fn rows<const WORDS: usize>(section: &[u16]) -> Vec<[u16; WORDS]> {
    section.chunks_exact(WORDS).filter_map(|row| row.try_into().ok()).collect()
}

/// Mostly small sizes, and the limits themselves now and then. Every machine needs a state.
fn sizes(random: &mut Random) -> Sizes {
    let most = match random.below(40) {
        0 => return LIMITS,
        1 => LIMITS,
        2..=8 => MIDDLE,
        _ => SMALL,
    };
    let least = [1, 1, 0, 0, 0, 0];
    let mut sizes = [0; 6];
    for which in 0..sizes.len() {
        sizes[which] = random.from_to(least[which], most[which]);
    }
    sizes[1] = sizes[1].max(sizes[0]);
    sizes
}

fn names(random: &mut Random, fullest: bool) -> [u16; 4] {
    match (fullest, random.chance(20)) {
        (true, _) => [32, 32, 64, 16],
        (_, true) => [
            random.from_to(1, 32) as u16,
            random.from_to(0, 32) as u16,
            random.from_to(0, 64) as u16,
            random.from_to(0, 16) as u16,
        ],
        _ => [random.from_to(1, 3) as u16, random.below(4) as u16, random.below(7) as u16, random.below(4) as u16],
    }
}

/// The initial state of each machine and the machine of each state, in any order.
fn machines(random: &mut Random, machine_count: usize, state_count: usize) -> (Vec<u16>, Vec<u16>) {
    let mut machines: Vec<u16> = (0..state_count).map(|state| (state % machine_count) as u16).collect();
    machines[machine_count..].iter_mut().for_each(|machine| *machine = random.below(machine_count) as u16);
    for state in (1..state_count).rev() {
        machines.swap(state, random.below(state + 1));
    }
    let initials = (0..machine_count).map(|machine| any_state_of(random, &machines, machine)).collect();
    (initials, machines)
}

fn any_state_of(random: &mut Random, machines: &[u16], machine: usize) -> u16 {
    let states: Vec<u16> = (0..machines.len() as u16).filter(|&j| machines[j as usize] as usize == machine).collect();
    random.pick(&states)
}
