//! A table's words: a header of form, total, counts and offsets, then sections of rows without gaps.

use crate::Refusal;
use std::ops::Range;

/// "65535 means none, only where stated."
pub const NONE: u16 = 65535;

/// The figures by which charts and flat tables differ in form.
pub struct Layout {
    pub form: u16,
    /// The lowest and highest value of each count, from header word 2 on.
    pub ranges: &'static [(u16, u16)],
    /// Each section in order: which count says its rows, and the words of a row.
    pub sections: &'static [(usize, usize)],
    /// The answers 1 to 3 of a chart are 11 to 13 of a flat table.
    pub answers: u32,
}

/// Chart words: states n, transitions T, events, signals, outputs, variables, targets, literals, items.
pub const CHART: Layout = Layout {
    form: 1,
    ranges: &[(2, 48), (0, 48), (1, 32), (0, 32), (0, 64), (0, 16), (0, 192), (0, 192), (0, 512)],
    sections: &[(0, 7), (1, 8), (6, 1), (7, 3), (8, 3)],
    answers: 0,
};

/// Flat words: machines, states, events, signals, outputs, variables, guards, literals, items, rules.
pub const FLAT: Layout = Layout {
    form: 2,
    ranges: &[(1, 24), (1, 47), (1, 32), (0, 32), (0, 64), (0, 16), (0, 2351), (0, 6166), (0, 512), (0, 4560)],
    sections: &[(0, 1), (1, 1), (6, 2), (7, 3), (8, 3), (9, 6)],
    answers: 10,
};

/// How many events, signals, outputs and variables a table speaks of.
#[derive(Clone, Copy, Debug)]
pub struct Names {
    pub events: usize,
    pub signals: usize,
    pub outputs: usize,
    pub variables: usize,
}

/// A table whose header is good, cut into its sections.
pub struct Table<'a> {
    pub names: Names,
    sections: Vec<&'a [u16]>,
    layout: &'static Layout,
}

impl Layout {
    /// Words of the header: form, total, the counts, the offsets.
    pub fn header(&self) -> usize {
        2 + self.ranges.len() + self.sections.len()
    }

    /// Where each section begins by the counts, and at the end where the last one ends.
    pub fn offsets(&self, counts: &[u16]) -> Vec<usize> {
        let mut offsets = vec![self.header()];
        for &(which, row) in self.sections {
            offsets.push(offsets[offsets.len() - 1] + counts[which] as usize * row);
        }
        offsets
    }

    /// Judges form, counts and layout, and cuts the table into its sections.
    pub fn cut<'a>(&'static self, words: &'a [u16]) -> Result<Table<'a>, Refusal> {
        let refusal = |answer| Err(Refusal::of(self.answers + answer));
        if words.len() < self.header() || words[0] != self.form || words[1] as usize != words.len() {
            return refusal(1);
        }
        let (counts, offsets) = words[2..self.header()].split_at(self.ranges.len());
        if counts.iter().zip(self.ranges).any(|(count, (low, high))| count < low || count > high) {
            return refusal(2);
        }
        let right = self.offsets(counts);
        let total = words[1];
        if offsets.iter().chain([&total]).zip(&right).any(|(&word, &offset)| word as usize != offset) {
            return refusal(3);
        }
        let sections = right.windows(2).map(|ends| &words[ends[0]..ends[1]]).collect();
        Ok(Table { names: Names::read(counts), sections, layout: self })
    }

    /// A table of these counts and sections, header first.
    pub fn table(&self, counts: &[u16], sections: &[Vec<u16>]) -> Vec<u16> {
        let offsets = self.offsets(counts);
        let total = offsets[self.sections.len()];
        let mut words = vec![self.form, total as u16];
        words.extend(counts);
        words.extend(offsets[..self.sections.len()].iter().map(|&offset| offset as u16));
        words.extend(sections.iter().flatten());
        words
    }
}

impl Names {
    /// Events, signals, outputs and variables stand third to sixth among the counts of both tables.
    fn read(counts: &[u16]) -> Names {
        let count = |which: usize| counts[which] as usize;
        Names { events: count(2), signals: count(3), outputs: count(4), variables: count(5) }
    }

    /// Triggers 0..e-1 are events, signal k is trigger e+k.
    pub fn triggers(&self) -> usize {
        self.events + self.signals
    }
}

impl<'a> Table<'a> {
    /// The rows of a section.
    pub fn rows(&self, section: usize) -> Vec<&'a [u16]> {
        self.sections[section].chunks(self.layout.sections[section].1).collect()
    }

    /// The words of a section whose rows are single words.
    pub fn column(&self, section: usize) -> &'a [u16] {
        self.sections[section]
    }
}

/// Reads things in rising number, and refuses at the first that cannot be read.
pub fn read_all<T>(answer: u32, count: usize, read: impl Fn(usize) -> Option<T>) -> Result<Vec<T>, Refusal> {
    (0..count).map(|place| read(place).ok_or(Refusal { answer, place: place as u32 })).collect()
}

/// A number below a count.
pub fn below(word: u16, count: usize) -> Option<usize> {
    ((word as usize) < count).then_some(word as usize)
}

/// A span inside its section: first plus count, as a plain sum, is at most the section's count.
pub fn span(first: u16, count: u16, section: usize) -> Option<Range<usize>> {
    let end = first as usize + count as usize;
    (end <= section).then_some(first as usize..end)
}

/// The lent pairs: an odd last word is no pair.
pub fn write_outputs(outputs: &mut [u16], pairs: &[[u16; 2]]) {
    for (lent, pair) in outputs.chunks_exact_mut(2).zip(pairs) {
        lent.copy_from_slice(pair);
    }
}
