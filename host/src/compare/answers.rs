//! Which answers each call has given, and how often.

use super::calls::Call;
use std::collections::BTreeMap;
use std::fmt;

#[derive(Default)]
pub struct Answers(BTreeMap<(Call, u32), u64>);

impl Answers {
    pub fn count(&mut self, call: Call, answer: u32) {
        *self.0.entry((call, answer)).or_default() += 1;
    }

    fn met(&self, call: Call, answer: u32) -> u64 {
        self.0.get(&(call, answer)).copied().unwrap_or(0)
    }

    fn inputs(&self, call: Call) -> u64 {
        self.0.iter().filter(|((other, _), _)| *other == call).map(|(_, met)| met).sum()
    }

    /// The answers that a call can give and never gave.
    pub fn never_met(&self) -> Vec<String> {
        let possible = Call::ALL.iter().flat_map(|&call| call.answers().into_iter().map(move |answer| (call, answer)));
        let never = possible.filter(|&(call, answer)| self.met(call, answer) == 0);
        never.map(|(call, answer)| format!("{} never answered {answer}", call.name())).collect()
    }
}

impl fmt::Display for Answers {
    /// A line for each call: its inputs, then each answer with how often it was met.
    fn fmt(&self, out: &mut fmt::Formatter) -> fmt::Result {
        for call in Call::ALL {
            write!(out, "{:11} {:7} inputs:", call.name(), self.inputs(call))?;
            for answer in call.answers() {
                write!(out, " {answer}:{}", self.met(call, answer))?;
            }
            writeln!(out)?;
        }
        Ok(())
    }
}
