//! A chart's tree of states: or-states and and-states in turn.

use super::words::{read_all, NONE};
use crate::Refusal;

const OR: u16 = 0;
const HISTORY: u16 = 1;
const AND: u16 = 2;

#[derive(Debug)]
pub struct State {
    pub and: bool,
    pub history: bool,
    /// None for the root only.
    pub parent: Option<usize>,
    /// None for and-states.
    pub initial: Option<usize>,
    pub children: Vec<usize>,
}

#[derive(Debug)]
pub struct Tree {
    pub states: Vec<State>,
}

impl Tree {
    /// Reads the states' rows, and refuses the first with a wrong kind or place in the tree.
    pub fn read(rows: &[&[u16]]) -> Result<Tree, Refusal> {
        let mut states = read_all(4, rows.len(), |k| read_state(rows, k))?;
        for (k, row) in rows.iter().enumerate().skip(1) {
            states[row[1] as usize].children.push(k);
        }
        Ok(Tree { states })
    }

    pub fn is_and(&self, state: usize) -> bool {
        self.states[state].and
    }

    /// The or-states in rising number.
    pub fn or_states(&self) -> Vec<usize> {
        (0..self.states.len()).filter(|&k| !self.is_and(k)).collect()
    }

    /// The and-states in rising number.
    pub fn and_states(&self) -> Vec<usize> {
        (0..self.states.len()).filter(|&k| self.is_and(k)).collect()
    }

    /// The states above, nearest first.
    pub fn ancestors(&self, state: usize) -> impl Iterator<Item = usize> + '_ {
        std::iter::successors(self.states[state].parent, |&above| self.states[above].parent)
    }

    pub fn is_above(&self, upper: usize, lower: usize) -> bool {
        self.ancestors(lower).any(|above| above == upper)
    }

    pub fn at_or_above(&self, upper: usize, lower: usize) -> bool {
        upper == lower || self.is_above(upper, lower)
    }

    /// Two targets of one transition: distinct, neither above the other, nearest common ancestor an and-state.
    pub fn can_be_targets_together(&self, one: usize, other: usize) -> bool {
        let apart = !self.at_or_above(one, other) && !self.is_above(other, one);
        let common = self.ancestors(one).find(|&above| self.is_above(above, other));
        apart && common.is_some_and(|above| self.is_and(above))
    }

    /// The nearest or-state above the source and every target; none without targets.
    pub fn scope(&self, source: usize, targets: &[usize]) -> Option<usize> {
        let above_targets = |above| targets.iter().all(|&target| self.is_above(above, target));
        let scope = self.ancestors(source).find(|&above| !self.is_and(above) && above_targets(above));
        scope.filter(|_| !targets.is_empty())
    }

    /// The child of an or-state towards one of the targets.
    pub fn child_towards(&self, or_state: usize, targets: &[usize]) -> Option<usize> {
        let towards = |child: usize| targets.iter().any(|&target| self.at_or_above(child, target));
        self.states[or_state].children.iter().copied().find(|&child| towards(child))
    }

    /// Root, the current child of an active or-state, all children of an active and-state.
    pub fn active_set(&self, current: &[usize]) -> Vec<bool> {
        let mut active = vec![true; self.states.len()];
        for (k, state) in self.states.iter().enumerate() {
            if let Some(parent) = state.parent {
                active[k] = active[parent] && (self.is_and(parent) || current[parent] == k);
            }
        }
        active
    }
}

/// One state, if its kind and place in the tree are right. Larger rows are not judged yet: only their parent is read.
fn read_state(rows: &[&[u16]], k: usize) -> Option<State> {
    let (kind, parent, initial) = (rows[k][0], rows[k][1], rows[k][2]);
    let parent_is_right = match k {
        0 => kind == OR && parent == NONE,
        _ => (parent as usize) < k && (kind == AND) != (rows[parent as usize][0] == AND),
    };
    let rest_is_right = match kind {
        OR | HISTORY => has_parent(rows, initial, k) && rows[k][4] == 0 && rows[k][6] == 0,
        AND => initial == NONE,
        _ => false,
    };
    (parent_is_right && rest_is_right).then(|| State {
        and: kind == AND,
        history: kind == HISTORY,
        parent: (k > 0).then_some(parent as usize),
        initial: (kind != AND).then_some(initial as usize),
        children: Vec::new(),
    })
}

fn has_parent(rows: &[&[u16]], child: u16, parent: usize) -> bool {
    rows.get(child as usize).is_some_and(|row| row[1] as usize == parent)
}
