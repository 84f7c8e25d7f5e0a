//! Tables with damage, and words that never were a table.

use super::random::Random;
use crate::second::words::{Layout, CHART};

/// Where a row has the first and count of a span, and which section it spans.
#[derive(Clone, Copy)]
struct Span {
    section: usize,
    word: usize,
    spanned: usize,
}

/// Exit and entry items of a state; literals, items and targets of a transition.
const CHART_SPANS: &[Span] = &[
    Span { section: 0, word: 3, spanned: 4 },
    Span { section: 0, word: 5, spanned: 4 },
    Span { section: 1, word: 2, spanned: 3 },
    Span { section: 1, word: 4, spanned: 4 },
    Span { section: 1, word: 6, spanned: 2 },
];

/// Literals of a guard; items of a rule.
const FLAT_SPANS: &[Span] = &[Span { section: 2, word: 0, spanned: 3 }, Span { section: 5, word: 3, spanned: 4 }];

/// The table with one kind of damage.
pub fn damaged(random: &mut Random, layout: &Layout, table: &[u16]) -> Vec<u16> {
    let mut words = table.to_vec();
    match random.below(20) {
        0 => cut(random, &mut words),
        1 => lengthen(random, &mut words),
        2 => set_count(random, layout, &mut words),
        3 => return resized(random, layout, table),
        4 => set_offset(random, layout, &mut words),
        5 => (0..random.from_to(2, 5)).for_each(|_| change_in_section(random, layout, &mut words)),
        6 => change_header(random, layout, &mut words),
        7 | 8 => set_span(random, layout, &mut words),
        _ => change_in_section(random, layout, &mut words),
    }
    words
}

/// Words that are no table, some with a form and a total that seem right.
pub fn noise(random: &mut Random, layout: &Layout) -> Vec<u16> {
    let count = random.below(64);
    let small = random.chance(50);
    let mut words: Vec<u16> = (0..count).map(|_| if small { random.below(4) as u16 } else { random.word() }).collect();
    if count >= 2 && random.chance(70) {
        words[0] = layout.form;
        words[1] = count as u16;
    }
    words
}

/// Takes words from the end, the total word with them or not.
fn cut(random: &mut Random, words: &mut Vec<u16>) {
    let count = if random.chance(60) { random.from_to(1, 3) } else { random.below(words.len()) };
    words.truncate(words.len() - count);
    tell_total(random, words);
}

fn lengthen(random: &mut Random, words: &mut Vec<u16>) {
    for _ in 0..random.from_to(1, 7) {
        words.push(random.below(3) as u16);
    }
    tell_total(random, words);
}

fn tell_total(random: &mut Random, words: &mut [u16]) {
    if words.len() >= 2 && random.chance(60) {
        words[1] = words.len() as u16;
    }
}

/// A count at its limits or beyond, the layout as it was.
fn set_count(random: &mut Random, layout: &Layout, words: &mut [u16]) {
    let which = random.below(layout.ranges.len());
    let (low, high) = layout.ranges[which];
    words[2 + which] = random.pick(&[low, low.wrapping_sub(1), high, high + 1, u16::MAX]);
}

/// A count at its limits or beyond, or one row more or less, and a layout that fits it.
fn resized(random: &mut Random, layout: &Layout, table: &[u16]) -> Vec<u16> {
    let mut counts = table[2..2 + layout.ranges.len()].to_vec();
    let ends = layout.offsets(&counts);
    let mut sections: Vec<Vec<u16>> = ends.windows(2).map(|end| table[end[0]..end[1]].to_vec()).collect();
    let at = random.below(layout.sections.len());
    let (which, row) = layout.sections[at];
    let (low, high) = layout.ranges[which];
    let count = counts[which];
    counts[which] = random.pick(&[low, low.saturating_sub(1), high, high + 1, count + 1, count.saturating_sub(1)]);
    sections[at].resize_with(counts[which] as usize * row, || random.below(3) as u16);
    layout.table(&counts, &sections)
}

fn set_offset(random: &mut Random, layout: &Layout, words: &mut [u16]) {
    let first = 2 + layout.ranges.len();
    let at = first + random.below(layout.sections.len());
    words[at] = other_word(random, words, at);
}

fn change_header(random: &mut Random, layout: &Layout, words: &mut [u16]) {
    let at = random.below(layout.header());
    words[at] = other_word(random, words, at);
}

/// A span that ends where its section ends or one further, or has about as many literals as a transition may have.
fn set_span(random: &mut Random, layout: &Layout, words: &mut [u16]) {
    let counts = &words[2..2 + layout.ranges.len()];
    let offsets = layout.offsets(counts);
    let rows = |section: usize| counts[layout.sections[section].0] as usize;
    let Span { section, word, spanned } = random.pick(if layout.form == CHART.form { CHART_SPANS } else { FLAT_SPANS });
    if rows(section) == 0 {
        return;
    }
    let at = offsets[section] + random.below(rows(section)) * layout.sections[section].1 + word;
    let first = random.below(2 + rows(spanned));
    let left = rows(spanned).saturating_sub(first);
    words[at] = first as u16;
    words[at + 1] = random.pick(&[0, left, left + 1, 8, 9]) as u16;
}

/// Changes one word; each section that is not empty is as likely as another, and its beginning a little likelier.
fn change_in_section(random: &mut Random, layout: &Layout, words: &mut [u16]) {
    let ends = layout.offsets(&words[2..2 + layout.ranges.len()]);
    let full: Vec<[usize; 2]> = ends.windows(2).map(|end| [end[0], end[1]]).filter(|end| end[0] < end[1]).collect();
    let [first, end] = random.pick(&full);
    let reach = if random.chance(15) { 8 } else { end - first };
    let at = random.from_to(first, (first + reach).min(end) - 1);
    words[at] = other_word(random, words, at);
}

/// A word in place of the one that stands there: near it, near a count of the header, at an end, or anything.
fn other_word(random: &mut Random, words: &[u16], at: usize) -> u16 {
    let count = words[random.from_to(2, 11)];
    match random.below(8) {
        0 => words[at].wrapping_add(1),
        1 => words[at].wrapping_sub(1),
        2 => count,
        3 => count.wrapping_sub(1),
        4 => random.pick(&[0, 1, 2, u16::MAX, u16::MAX - 1, 32768]),
        5 => random.word(),
        _ => random.below(49) as u16,
    }
}
