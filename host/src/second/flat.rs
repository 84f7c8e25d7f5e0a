//! A flat table judged and read.

use super::items::{Comparison, Item};
use super::words::{below, read_all, span, Names, FLAT, NONE};
use crate::Refusal;
use std::ops::Range;

pub struct Flat {
    pub names: Names,
    /// The initial state of each machine.
    pub initials: Vec<usize>,
    /// The machine of each state.
    pub machines: Vec<usize>,
    pub guards: Vec<Vec<Literal>>,
    pub items: Vec<Item>,
    pub rules: Vec<Rule>,
}

pub struct Rule {
    pub trigger: usize,
    pub guards: [usize; 2],
    pub items: Range<usize>,
    pub target: Option<usize>,
}

#[derive(Clone, Copy, Debug)]
pub enum Literal {
    Current(usize),
    NotCurrent(usize),
    Variable(Comparison),
    True(usize),
    False(usize),
}

impl Flat {
    /// Judges the table by rising answer, then lowest place.
    pub fn read(words: &[u16]) -> Result<Flat, Refusal> {
        let table = FLAT.cut(words)?;
        let names = table.names;
        let (initials, machines) = read_machines(table.column(0), table.column(1))?;
        let guards = table.rows(2);
        let literals = table.rows(3);
        let spans = read_all(15, guards.len(), |g| span(guards[g][0], guards[g][1], literals.len()))?;
        let literal = |row: &[u16], guard| Literal::read(row, machines.len(), guard, &names);
        let held = |g: usize| literals[spans[g].clone()].iter().map(|row| literal(row, g)).collect();
        let guards: Vec<Vec<Literal>> = read_all(16, guards.len(), held)?;
        let items = table.rows(4);
        let items = read_all(17, items.len(), |k| Item::read(items[k], &names))?;
        let rules = table.rows(5);
        let sizes =
            Sizes { triggers: names.triggers(), guards: guards.len(), items: items.len(), states: machines.len() };
        let rules = read_all(18, rules.len(), |r| Rule::read(rules[r], &sizes))?;
        Ok(Flat { names, initials, machines, guards, items, rules })
    }

    /// Words of a state: one for each machine, then the variables.
    pub fn state_words(&self) -> usize {
        self.initials.len() + self.names.variables
    }
}

/// The initial states and the states' machines. All machines come before all states.
fn read_machines(initials: &[u16], machines: &[u16]) -> Result<(Vec<usize>, Vec<usize>), Refusal> {
    let is_of = |state: u16, machine: usize| machines.get(state as usize).is_some_and(|&word| word as usize == machine);
    let initial = |m: usize| is_of(initials[m], m).then_some(initials[m] as usize);
    let machine = |j: usize| below(machines[j], initials.len());
    let after_machines = |refusal: Refusal| Refusal { place: refusal.place + initials.len() as u32, ..refusal };
    let first = read_all(14, initials.len(), initial)?;
    Ok((first, read_all(14, machines.len(), machine).map_err(after_machines)?))
}

impl Literal {
    /// A literal as the guard with this number holds it.
    fn read(row: &[u16], states: usize, guard: usize, names: &Names) -> Option<Literal> {
        match (row[0], row[2]) {
            (0, 0) => below(row[1], states).map(Literal::Current),
            (1, 0) => below(row[1], states).map(Literal::NotCurrent),
            (4, 0) => below(row[1], guard).map(Literal::True),
            (5, 0) => below(row[1], guard).map(Literal::False),
            _ => Comparison::read(row, names).map(Literal::Variable),
        }
    }
}

/// What the fields of a rule must be below.
struct Sizes {
    triggers: usize,
    guards: usize,
    items: usize,
    states: usize,
}

impl Rule {
    fn read(row: &[u16], sizes: &Sizes) -> Option<Rule> {
        let target = match row[5] {
            NONE => None,
            state => Some(below(state, sizes.states)?),
        };
        Some(Rule {
            trigger: below(row[0], sizes.triggers)?,
            guards: [below(row[1], sizes.guards)?, below(row[2], sizes.guards)?],
            items: span(row[3], row[4], sizes.items)?,
            target,
        })
    }
}
