//! The library and the second implementation on the same inputs: answers, places, counts and all lent words must agree.
//!
//! `calls` says what a call is given and leaves, `engines` makes it, `agreement` makes it on both; `answers` counts
//! what they answer; `flattening` compares a chart with its flat tables; `rounds` has the inputs of one round.

mod agreement;
mod answers;
mod calls;
mod engines;
mod flattening;
mod rounds;

pub use answers::Answers;

use crate::generate::Random;

/// Compares so many rounds of inputs. Gives the answers met, or the first difference in words.
pub fn compare(seed: u64, rounds: u64) -> Result<Answers, String> {
    let mut answers = Answers::default();
    for round in 0..rounds {
        let mut random = Random::of_round(seed, round);
        rounds::round(&mut random, &mut answers)
            .map_err(|difference| format!("seed {seed}, round {round}: {difference}"))?;
    }
    Ok(answers)
}
