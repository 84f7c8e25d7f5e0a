//! Charts that pass their check.

use super::random::Random;
use super::{event_waited_for, Draft};
use crate::second::words::{CHART, NONE};

const OR: u16 = 0;
const HISTORY: u16 = 1;
const AND: u16 = 2;

/// The most that a chart may have.
const TRANSITIONS: usize = 48;
const TARGETS: usize = 192;
const LITERALS: usize = 192;
const ITEMS: usize = 512;

/// Transitions that are kept free for the special ones.
const SPARE_TRANSITIONS: usize = 8;

/// A chart as rows, before it is laid out in words.
pub struct ChartDraft {
    /// Events, signals, outputs, variables.
    names: [u16; 4],
    states: Vec<[u16; 7]>,
    transitions: Vec<[u16; 8]>,
    targets: Vec<u16>,
    literals: Vec<[u16; 3]>,
    items: Vec<[u16; 3]>,
}

/// How large a chart is to be.
struct Sizes {
    states: usize,
    transitions: usize,
    literals: usize,
    items: usize,
    names: [u16; 4],
}

impl Sizes {
    fn any(random: &mut Random) -> Sizes {
        match random.below(10) {
            0 => Sizes { states: 48, transitions: 48, literals: 192, items: 512, names: [32, 32, 64, 16] },
            1 | 2 => Sizes::up_to(random, [48, 48, 192, 512], [32, 32, 64, 16]),
            3 | 4 => Sizes::up_to(random, [48, 48, 40, 60], [3, 3, 6, 4]),
            _ => Sizes::up_to(random, [16, 14, 12, 24], [3, 4, 6, 3]),
        }
    }

    fn up_to(random: &mut Random, most: [usize; 4], names: [usize; 4]) -> Sizes {
        Sizes {
            states: random.from_to(2, most[0]),
            transitions: random.from_to(0, most[1]),
            literals: random.from_to(0, most[2]),
            items: random.from_to(0, most[3]),
            names: [
                random.from_to(1, names[0]) as u16,
                random.from_to(0, names[1]) as u16,
                random.from_to(0, names[2]) as u16,
                random.from_to(0, names[3]) as u16,
            ],
        }
    }
}

impl ChartDraft {
    /// Any chart: of any size, and sometimes with transitions that come close to one of the run's limits.
    pub fn any(random: &mut Random) -> ChartDraft {
        let sizes = Sizes::any(random);
        let mut draft = ChartDraft {
            names: sizes.names,
            states: tree(random, sizes.states),
            transitions: Vec::new(),
            targets: Vec::new(),
            literals: Vec::new(),
            items: Vec::new(),
        };
        draft.add_literals(random, sizes.literals);
        draft.items = items(random, sizes.items, sizes.names);
        draft.span_state_items(random);
        (0..sizes.transitions).for_each(|_| draft.add_transition(random));
        draft.add_idle_targets(random);
        match random.below(8) {
            0 => draft.add_raises(random),
            1 => draft.add_outputs(random),
            2 => draft.add_counting(random),
            _ => {}
        }
        draft
    }

    fn is_and(&self, state: usize) -> bool {
        self.states[state][0] == AND
    }

    fn any_child(&self, random: &mut Random, or_state: usize) -> u16 {
        random.pick(&children(&self.states, or_state))
    }

    fn any_and_state(&self, random: &mut Random) -> usize {
        let and_states: Vec<usize> = (0..self.states.len()).filter(|&k| self.is_and(k)).collect();
        random.pick(&and_states)
    }

    /// An and-state that is active at the start.
    fn any_first_active(&self, random: &mut Random) -> usize {
        let mut state = self.first_active();
        loop {
            let regions = children(&self.states, state);
            if regions.is_empty() || random.chance(30) {
                return state;
            }
            let region = random.pick(&regions) as usize;
            state = self.states[region][2] as usize;
        }
    }

    fn add_literals(&mut self, random: &mut Random, count: usize) {
        for _ in 0..count {
            let variables = self.names[3] as usize;
            let literal = match random.below(if variables == 0 { 2 } else { 4 }) {
                kind @ (0 | 1) => [kind as u16, self.any_and_state(random) as u16, 0],
                kind => [kind as u16, random.below(variables) as u16, random.constant()],
            };
            self.literals.push(literal);
        }
    }

    /// Exit and entry items of and-states; the empty spans of or-states may begin anywhere.
    fn span_state_items(&mut self, random: &mut Random) {
        for row in &mut self.states {
            let longest = if row[0] == AND { 3 } else { 0 };
            (row[3], row[4]) = any_span(random, self.items.len(), longest);
            (row[5], row[6]) = any_span(random, self.items.len(), longest);
        }
    }

    fn add_transition(&mut self, random: &mut Random) {
        let source = if random.chance(60) { self.any_first_active(random) } else { self.any_and_state(random) } as u16;
        let longest = random.pick(&[0, 0, 0, 0, 1, 1, 2, 2, 3, 8]);
        let literals = any_span(random, self.literals.len(), longest);
        let longest = if random.chance(5) { 60 } else { 4 };
        let items = any_span(random, self.items.len(), longest);
        let targets = self.any_targets(random);
        let trigger = self.any_trigger(random);
        self.transitions.push([source, trigger, literals.0, literals.1, items.0, items.1, targets.0, targets.1]);
    }

    /// A few triggers are waited for by many transitions.
    fn any_trigger(&self, random: &mut Random) -> u16 {
        let triggers = (self.names[0] + self.names[1]) as usize;
        match random.below(4) {
            0 => random.below(triggers) as u16,
            1 => self.names[0] - 1 + random.below(1 + self.names[1].min(2) as usize) as u16,
            _ => random.below(triggers.min(2)) as u16,
        }
    }

    /// No targets, a part of another transition's targets, or fresh ones that may stand together.
    fn any_targets(&mut self, random: &mut Random) -> (u16, u16) {
        let earlier = self.transitions.get(random.below(self.transitions.len())).map(|row| (row[6], row[7]));
        let wanted = random.pick(&[1, 1, 1, 2, 3, 5]);
        match (random.below(8), earlier) {
            (0, _) => any_span(random, self.targets.len(), 0),
            (1, Some((first, count))) => {
                let (within, length) = any_span(random, count as usize, count as usize);
                (first + within, length)
            }
            _ if self.targets.len() + wanted > TARGETS => (0, 0),
            _ => self.fresh_targets(random, wanted),
        }
    }

    fn fresh_targets(&mut self, random: &mut Random, wanted: usize) -> (u16, u16) {
        let first = self.targets.len();
        for _ in 0..4 * wanted {
            let target = self.any_and_state(random);
            let together = self.targets[first..].iter().all(|&other| self.may_stand_together(target, other as usize));
            if together && self.targets.len() < first + wanted {
                self.targets.push(target as u16);
            }
        }
        (first as u16, (self.targets.len() - first) as u16)
    }

    /// The nearest common ancestor, found by going up from the larger number, is an and-state above both.
    fn may_stand_together(&self, one: usize, other: usize) -> bool {
        let (mut low, mut high) = (one, other);
        while low != high {
            let larger = if low > high { &mut low } else { &mut high };
            *larger = self.states[*larger][1] as usize;
        }
        self.is_and(low) && low != one && low != other
    }

    /// Target words that no transition spans may be anything.
    fn add_idle_targets(&mut self, random: &mut Random) {
        if random.chance(20) {
            let left = TARGETS - self.targets.len();
            let count = random.pick(&[left.min(1), left.min(5), left]);
            self.targets.extend((0..count).map(|_| random.word()));
        }
    }

    /// The root's initial child.
    fn first_active(&self) -> usize {
        self.states[0][2] as usize
    }

    /// Makes place for some items and transitions.
    fn spare(&mut self, items: usize) {
        self.transitions.truncate(TRANSITIONS - SPARE_TRANSITIONS);
        if self.items.len() + items > ITEMS {
            self.items.truncate(ITEMS - items);
            self.mend_item_spans();
        }
    }

    /// Empties the item spans that the section has become too short for.
    fn mend_item_spans(&mut self) {
        let count = self.items.len();
        let too_long = |first: u16, length: u16| first as usize + length as usize > count;
        for row in &mut self.states {
            for at in [3, 5] {
                if too_long(row[at], row[at + 1]) {
                    (row[at], row[at + 1]) = (0, 0);
                }
            }
        }
        for row in &mut self.transitions {
            if too_long(row[4], row[5]) {
                (row[4], row[5]) = (0, 0);
            }
        }
    }

    /// A transition without targets from the first active state, with the last items.
    fn add_inner(&mut self, trigger: u16, literals: (u16, u16), item_count: usize) {
        let first = (self.items.len() - item_count) as u16;
        let row = [self.first_active() as u16, trigger, literals.0, literals.1, first, item_count as u16, 0, 0];
        self.transitions.push(row);
    }

    /// About 32 raises at once.
    fn add_raises(&mut self, random: &mut Random) {
        let count = random.from_to(30, 34);
        self.names[1] = self.names[1].max(1);
        self.spare(count);
        for _ in 0..count {
            self.items.push([1, random.below(self.names[1].into()) as u16, 0]);
        }
        self.add_inner(0, (0, 0), count);
    }

    /// About 256 outputs in one microstep, by one transition or several.
    fn add_outputs(&mut self, random: &mut Random) {
        let transitions = random.pick(&[1, 2, 4, 8]);
        let count = 256 / transitions + random.below(2);
        self.names[2] = self.names[2].max(1);
        self.spare(count);
        for _ in 0..count {
            self.items.push(output(random, self.names));
        }
        (0..transitions).for_each(|_| self.add_inner(0, (0, 0), count));
    }

    /// A signal that raises itself until a variable has counted to about 62: about 64 microsteps.
    fn add_counting(&mut self, random: &mut Random) {
        self.names[1] = self.names[1].max(1);
        self.names[3] = self.names[3].max(1);
        self.spare(2);
        self.literals.truncate(LITERALS - 1);
        self.transitions.retain(|row| ((row[2] + row[3]) as usize) < LITERALS);
        self.literals.push([3, 0, random.from_to(59, 65) as u16]);
        let last = (self.literals.len() as u16 - 1, 1);
        let signal = random.below(self.names[1].into()) as u16;
        self.items.extend([[3, 0, 1], [1, signal, 0]]);
        self.add_inner(0, (0, 0), 1);
        self.add_inner(self.names[0] + signal, last, 2);
    }
}

impl Draft for ChartDraft {
    fn words(&self) -> Vec<u16> {
        let [events, signals, outputs, variables] = self.names;
        let counts = [
            self.states.len() as u16,
            self.transitions.len() as u16,
            events,
            signals,
            outputs,
            variables,
            self.targets.len() as u16,
            self.literals.len() as u16,
            self.items.len() as u16,
        ];
        let sections = [
            self.states.concat(),
            self.transitions.concat(),
            self.targets.clone(),
            self.literals.concat(),
            self.items.concat(),
        ];
        CHART.table(&counts, &sections)
    }

    fn useful_event(&self, random: &mut Random) -> u32 {
        event_waited_for(random, self.transitions.iter().map(|row| row[1]), self.names[0])
    }

    /// A child in each or-state that is active or has history, any variables. Now and then a careless one, where any
    /// or-state holds any child: mostly no state of the chart.
    fn state(&self, random: &mut Random) -> Vec<u16> {
        let careless = random.chance(20);
        let mut active = vec![true; self.states.len()];
        let mut current = vec![NONE; self.states.len()];
        let mut words = Vec::new();
        for (k, row) in self.states.iter().enumerate() {
            let parent = row[1] as usize;
            active[k] = k == 0 || active[parent] && (self.is_and(parent) || current[parent] as usize == k);
            if row[0] != AND {
                let free = active[k] || row[0] == HISTORY || careless;
                current[k] = if free { self.any_child(random, k) } else { row[2] };
                words.push(current[k]);
            }
        }
        words.extend((0..self.names[3]).map(|_| random.constant()));
        words
    }
}

/// A tree of states. An or-state may wait for its first child, as long as there are states left for all that wait.
fn tree(random: &mut Random, count: usize) -> Vec<[u16; 7]> {
    let mut states = vec![[OR, NONE, NONE, 0, 0, 0, 0]];
    let or_percent = random.pick(&[10, 25, 40, 60]);
    let history_percent = random.pick(&[0, 30, 60, 100]);
    while states.len() < count {
        let waiting = childless(&states);
        let and_states: Vec<usize> = (0..states.len()).filter(|&k| states[k][0] == AND).collect();
        let left = count - states.len();
        if !and_states.is_empty() && left > waiting.len() + 1 && random.chance(or_percent) {
            let kind = if random.chance(history_percent) { HISTORY } else { OR };
            states.push([kind, random.pick(&and_states) as u16, NONE, 0, 0, 0, 0]);
        } else {
            let parent = any_parent(random, &states, &waiting, left);
            states.push([AND, parent, NONE, 0, 0, 0, 0]);
        }
    }
    choose_initial(random, &mut states);
    states
}

fn children(states: &[[u16; 7]], parent: usize) -> Vec<u16> {
    (1..states.len()).filter(|&k| states[k][1] as usize == parent).map(|k| k as u16).collect()
}

fn childless(states: &[[u16; 7]]) -> Vec<usize> {
    (0..states.len()).filter(|&k| states[k][0] != AND && children(states, k).is_empty()).collect()
}

/// The or-state for one more and-state: one that waits, if time presses or by chance.
fn any_parent(random: &mut Random, states: &[[u16; 7]], waiting: &[usize], left: usize) -> u16 {
    let or_states: Vec<usize> = (0..states.len()).filter(|&k| states[k][0] != AND).collect();
    let presses = left <= waiting.len();
    match presses || !waiting.is_empty() && random.chance(50) {
        true => random.pick(waiting) as u16,
        false => random.pick(&or_states) as u16,
    }
}

fn choose_initial(random: &mut Random, states: &mut [[u16; 7]]) {
    for k in 0..states.len() {
        if states[k][0] != AND {
            states[k][2] = random.pick(&children(states, k));
        }
    }
}

/// A span inside a section, up to so many long.
pub fn any_span(random: &mut Random, section: usize, longest: usize) -> (u16, u16) {
    let count = random.below(1 + longest.min(section));
    let first = random.from_to(0, section - count);
    (first as u16, count as u16)
}

/// Items that name only what there is. Without outputs, signals and variables there are none.
pub fn items(random: &mut Random, count: usize, names: [u16; 4]) -> Vec<[u16; 3]> {
    let [_, signals, outputs, variables] = names.map(usize::from);
    let raise_percent = random.pick(&[0, 5, 10, 20, 70]);
    let mut items = Vec::new();
    for _ in 0..count {
        let item = match random.below(3) {
            _ if signals > 0 && random.chance(raise_percent) => [1, random.below(signals) as u16, 0],
            0 | 1 if variables > 0 => [random.pick(&[2, 3, 4]), random.below(variables) as u16, random.constant()],
            _ if outputs > 0 => output(random, names),
            _ => continue,
        };
        items.push(item);
    }
    items
}

/// An output item, with or without a variable's value.
pub fn output(random: &mut Random, names: [u16; 4]) -> [u16; 3] {
    let output = random.below(names[2].into()) as u16;
    match names[3] > 0 && random.chance(60) {
        true => [5, output, random.below(names[3].into()) as u16],
        false => [0, output, 0],
    }
}
