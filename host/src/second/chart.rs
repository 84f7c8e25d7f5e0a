//! A chart table judged and read.

use super::items::{Comparison, Item};
use super::tree::Tree;
use super::words::{below, read_all, span, Names, CHART};
use crate::Refusal;
use std::ops::Range;

const LITERALS_A_TRANSITION: usize = 8;

pub struct Chart {
    pub names: Names,
    pub tree: Tree,
    /// Exit and entry items of each state.
    pub exits: Vec<Range<usize>>,
    pub entries: Vec<Range<usize>>,
    pub transitions: Vec<Transition>,
    pub items: Vec<Item>,
    /// The items' rows as they stand in the table.
    pub item_words: Vec<u16>,
}

pub struct Transition {
    pub source: usize,
    pub trigger: usize,
    pub literals: Vec<Literal>,
    pub items: Range<usize>,
    pub targets: Vec<usize>,
    /// None without targets.
    pub scope: Option<usize>,
}

#[derive(Clone, Copy, Debug)]
pub enum Literal {
    Active(usize),
    NotActive(usize),
    Variable(Comparison),
}

/// The three spans of a transition.
struct Spans {
    literals: Range<usize>,
    items: Range<usize>,
    targets: Range<usize>,
}

impl Chart {
    /// Judges the table by rising answer, then lowest place.
    pub fn read(words: &[u16]) -> Result<Chart, Refusal> {
        let table = CHART.cut(words)?;
        let names = table.names;
        let states = table.rows(0);
        let transitions = table.rows(1);
        let targets = table.column(2);
        let literals = table.rows(3);
        let items = table.rows(4);

        let tree = Tree::read(&states)?;
        let (exits, entries) = read_state_spans(&states, items.len())?;
        let spans = read_transition_spans(&transitions, [literals.len(), items.len(), targets.len()])
            .map_err(|refusal| Refusal { place: refusal.place + states.len() as u32, ..refusal })?;
        let literals = read_all(6, literals.len(), |k| Literal::read(literals[k], &tree, &names))?;
        let item_words = table.column(4).to_vec();
        let items = read_all(7, items.len(), |k| Item::read(items[k], &names))?;
        let starts = read_all(8, transitions.len(), |t| read_start(transitions[t], &tree, &names))?;
        let ends = read_all(9, transitions.len(), |t| read_targets(&targets[spans[t].targets.clone()], &tree))?;

        let transitions =
            spans.into_iter().zip(starts).zip(ends).map(|((spans, (source, trigger)), targets)| Transition {
                source,
                trigger,
                literals: literals[spans.literals].to_vec(),
                items: spans.items,
                scope: tree.scope(source, &targets),
                targets,
            });
        let transitions = transitions.collect();
        Ok(Chart { names, tree, exits, entries, transitions, items, item_words })
    }

    /// Words of a state: one for each or-state, then the variables.
    pub fn state_words(&self) -> usize {
        self.tree.or_states().len() + self.names.variables
    }

    /// The scopes of two transitions are related: equal, or one above the other.
    pub fn related(&self, one: &Transition, other: &Transition) -> bool {
        match (one.scope, other.scope) {
            (Some(a), Some(b)) => self.tree.at_or_above(a, b) || self.tree.is_above(b, a),
            _ => false,
        }
    }
}

impl Literal {
    fn read(row: &[u16], tree: &Tree, names: &Names) -> Option<Literal> {
        match row[0] {
            0 => Some(Literal::Active(and_state(row[1], tree).filter(|_| row[2] == 0)?)),
            1 => Some(Literal::NotActive(and_state(row[1], tree).filter(|_| row[2] == 0)?)),
            _ => Some(Literal::Variable(Comparison::read(row, names)?)),
        }
    }

    pub fn holds(&self, active: &[bool], variables: &[i16]) -> bool {
        match self {
            Literal::Active(state) => active[*state],
            Literal::NotActive(state) => !active[*state],
            Literal::Variable(comparison) => comparison.holds(variables),
        }
    }
}

fn and_state(word: u16, tree: &Tree) -> Option<usize> {
    below(word, tree.states.len()).filter(|&state| tree.is_and(state))
}

type StateSpans = (Vec<Range<usize>>, Vec<Range<usize>>);

fn read_state_spans(rows: &[&[u16]], items: usize) -> Result<StateSpans, Refusal> {
    let both = |k: usize| Some((span(rows[k][3], rows[k][4], items)?, span(rows[k][5], rows[k][6], items)?));
    Ok(read_all(5, rows.len(), both)?.into_iter().unzip())
}

fn read_transition_spans(rows: &[&[u16]], sections: [usize; 3]) -> Result<Vec<Spans>, Refusal> {
    read_all(5, rows.len(), |t| {
        let row = rows[t];
        Some(Spans {
            literals: span(row[2], row[3], sections[0]).filter(|span| span.len() <= LITERALS_A_TRANSITION)?,
            items: span(row[4], row[5], sections[1])?,
            targets: span(row[6], row[7], sections[2])?,
        })
    })
}

/// Source and trigger of a transition.
fn read_start(row: &[u16], tree: &Tree, names: &Names) -> Option<(usize, usize)> {
    Some((and_state(row[0], tree)?, below(row[1], names.triggers())?))
}

/// Targets that may stand together.
fn read_targets(words: &[u16], tree: &Tree) -> Option<Vec<usize>> {
    let targets: Vec<usize> = words.iter().map(|&word| and_state(word, tree)).collect::<Option<_>>()?;
    let mut pairs = (0..targets.len()).flat_map(|i| (0..i).map(move |j| (i, j)));
    let together = pairs.all(|(i, j)| tree.can_be_targets_together(targets[i], targets[j]));
    together.then_some(targets)
}
