//! A chart and a flat table of it: the header's bounds, the numbering, and what must agree after each event.

use super::calls::Outcome;
use crate::ffi::report;

const AND: u16 = 2;
const HISTORY: u16 = 1;

/// What the flat table of a chart is judged by.
pub struct Flattened {
    /// Kind, parent and initial child of each state.
    states: Vec<[u16; 3]>,
    /// Each state's number among the and-states, or among the or-states.
    rank: Vec<u16>,
    and_states: usize,
    transitions: usize,
    /// The sum of the transitions' literal counts.
    literals: usize,
    items: usize,
    /// Events, signals, outputs, variables.
    names: [u16; 4],
}

impl Flattened {
    /// Reads what is needed from a chart that passes its check.
    pub fn of(chart: &[u16]) -> Flattened {
        let (n, transitions) = (chart[2] as usize, chart[3] as usize);
        let states: Vec<[u16; 3]> = chart[16..].chunks(7).take(n).map(|row| [row[0], row[1], row[2]]).collect();
        let is_and = |k: usize| states[k][0] == AND;
        let rank = (0..n).map(|k| (0..k).filter(|&j| is_and(j) == is_and(k)).count() as u16).collect();
        let rows = chart[16 + 7 * n..].chunks(8).take(transitions);
        Flattened {
            rank,
            and_states: (0..n).filter(|&k| is_and(k)).count(),
            transitions,
            literals: rows.map(|row| row[3] as usize).sum(),
            items: chart[10] as usize,
            names: [chart[4], chart[5], chart[6], chart[7]],
            states,
        }
    }

    fn or_states(&self) -> Vec<usize> {
        (0..self.states.len()).filter(|&k| self.states[k][0] != AND).collect()
    }

    fn bounds(&self) -> [usize; 3] {
        let (a, t, s) = (self.and_states, self.transitions, self.literals);
        let earlier = (0..t).sum::<usize>();
        [a + t + t * a, 2 * a + t + s + earlier + 2 * t * a, t * (2 * a + 1)]
    }

    /// The room needed at the bounds.
    pub fn room(&self) -> usize {
        let [guards, literals, rules] = self.bounds();
        18 + self.states.len() + 2 * guards + 3 * literals + 3 * self.items + 6 * rules
    }

    /// The header keeps the chart's counts and the bounds; machines and states are numbered as document 01 says.
    pub fn judge_table(&self, flat: &[u16]) -> Result<(), String> {
        let or_states = self.or_states();
        let counts = [or_states.len(), self.and_states].map(|count| count as u16);
        let [guards, literals, rules] = self.bounds();
        let small = |at: usize, bound: usize| flat[at] as usize <= bound;
        let and_states = (0..self.states.len()).filter(|&k| self.states[k][0] == AND);
        let initials = or_states.iter().map(|&k| self.rank[self.states[k][2] as usize]);
        let machines = and_states.map(|k| self.rank[self.states[k][1] as usize]);
        let numbering: Vec<u16> = initials.chain(machines).collect();
        let faults = [
            (flat[2..4] != counts, "machines or states"),
            (flat[4..8] != self.names, "events, signals, outputs or variables"),
            (!small(8, guards), "guards"),
            (!small(9, literals), "literals"),
            (!small(10, self.items), "items"),
            (!small(11, rules), "rules"),
            (flat[18..18 + self.states.len()] != numbering, "numbering"),
        ];
        match faults.iter().find(|(wrong, _)| *wrong) {
            Some((_, what)) => Err(format!("the flat table's {what}")),
            None => Ok(()),
        }
    }

    /// After an event: same answer, outputs, microsteps and variables, current children alike where they must be,
    /// and at most as many rules fired as states left and entered and transitions taken.
    pub fn judge_run(&self, chart: &Outcome, flat: &Outcome) -> Result<(), String> {
        let counted = |outcome: &Outcome| [report::MICROSTEPS, report::OUTPUTS].map(|at| outcome.report[at]);
        let allowed: u32 = [report::TAKEN, report::LEFT, report::ENTERED].iter().map(|&at| chart.report[at]).sum();
        let variables = self.or_states().len();
        let faults = [
            (chart.answer != flat.answer, "answer"),
            (counted(chart) != counted(flat), "microsteps or number of outputs"),
            (chart.room != flat.room, "outputs"),
            (chart.state[variables..] != flat.state[variables..], "variables"),
            (!self.children_agree(&chart.state, &flat.state), "current children"),
            (flat.report[report::FIRED] > allowed, "rules fired"),
        ];
        match faults.iter().find(|(wrong, _)| *wrong) {
            Some((_, what)) => Err(format!("chart and flat table differ: {what}: {chart:?}, {flat:?}")),
            None => Ok(()),
        }
    }

    /// The machine of an or-state that is active or has history holds the flat state of its child.
    fn children_agree(&self, chart: &[u16], flat: &[u16]) -> bool {
        let mut active = vec![true; self.states.len()];
        for (k, &[_, parent, _]) in self.states.iter().enumerate().skip(1) {
            let parent = parent as usize;
            let holds = self.states[parent][0] == AND || chart[self.rank[parent] as usize] as usize == k;
            active[k] = active[parent] && holds;
        }
        let must_agree = |k: &usize| active[*k] || self.states[*k][0] == HISTORY;
        let agree = |k: usize| {
            let machine = self.rank[k] as usize;
            self.rank[chart[machine] as usize] == flat[machine]
        };
        self.or_states().into_iter().filter(must_agree).all(agree)
    }
}
