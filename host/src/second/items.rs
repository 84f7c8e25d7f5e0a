//! Items, and the literals that compare a variable: alike in charts and flat tables.

use super::words::{below, Names};

/// What an item does.
#[derive(Clone, Copy, Debug)]
pub enum Item {
    Emit { output: usize },
    Raise { signal: usize },
    AddWrapping { variable: usize, constant: i16 },
    AddSaturating { variable: usize, constant: i16 },
    Set { variable: usize, constant: i16 },
    EmitValue { output: usize, variable: usize },
}

impl Item {
    /// An item's three words, if kind and fields are right.
    pub fn read(row: &[u16], names: &Names) -> Option<Item> {
        let (a, b) = (row[1], row[2]);
        let constant = b as i16;
        let variable = below(a, names.variables);
        match row[0] {
            0 if b == 0 => Some(Item::Emit { output: below(a, names.outputs)? }),
            1 if b == 0 => Some(Item::Raise { signal: below(a, names.signals)? }),
            2 => Some(Item::AddWrapping { variable: variable?, constant }),
            3 => Some(Item::AddSaturating { variable: variable?, constant }),
            4 => Some(Item::Set { variable: variable?, constant }),
            5 => Some(Item::EmitValue { output: below(a, names.outputs)?, variable: below(b, names.variables)? }),
            _ => None,
        }
    }
}

/// Literals 2 and 3: a variable is at least, or below, a signed constant.
#[derive(Clone, Copy, Debug)]
pub struct Comparison {
    variable: usize,
    constant: i16,
    at_least: bool,
}

impl Comparison {
    /// A literal's three words, if it is of kind 2 or 3 and names a variable.
    pub fn read(row: &[u16], names: &Names) -> Option<Comparison> {
        let at_least = match row[0] {
            2 => true,
            3 => false,
            _ => return None,
        };
        Some(Comparison { variable: below(row[1], names.variables)?, constant: row[2] as i16, at_least })
    }

    pub fn holds(&self, variables: &[i16]) -> bool {
        (variables[self.variable] >= self.constant) == self.at_least
    }

    /// The literal's three words again.
    pub fn words(&self) -> [u16; 3] {
        [if self.at_least { 2 } else { 3 }, self.variable as u16, self.constant as u16]
    }
}
