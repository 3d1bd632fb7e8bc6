//! A seeded comparison of the archive with the reference on mutated texts. On each text both give
//! the same reply and leave the same in all lent memory; the engine's lines are accepted.
//!
//! AFL++ and libFuzzer look for new paths by instrumentation, which the archive has not: it is
//! compiled by the Rattle compiler. So the texts start from valid ones of each kind, and the
//! mutations know the grammar. A case depends on the seed and its number alone.

mod corpus;
mod counts;
mod fields;
mod mutations;
mod tally;
mod target;

use std::fmt;
use std::panic::{self, AssertUnwindSafe};

use crate::common::random::Random;
use corpus::Corpus;
use mutations::mutate;
use target::Target;

pub use tally::Tally;

/// A text on which the two sides differ.
pub struct Disagreement {
    seed: u64,
    case: u64,
    target: Target,
    text: Vec<u8>,
    fault: String,
}

impl fmt::Display for Disagreement {
    fn fmt(&self, out: &mut fmt::Formatter<'_>) -> fmt::Result {
        let Self {
            seed, case, text, ..
        } = self;
        writeln!(out, "{}: {}", self.target.name(), self.fault)?;
        writeln!(out, "seed {seed:#X}, case {case}, {} bytes", text.len())?;
        writeln!(out, "text \"{}\"", text.escape_ascii())?;
        write!(out, "in hexadecimal ")?;
        text.iter().try_for_each(|byte| write!(out, "{byte:02X}"))
    }
}

/// Compares on so many texts from a case on, and counts them; the first disagreement ends it.
pub fn run(seed: u64, first: u64, texts: u64) -> Result<Tally, Disagreement> {
    let mut tally = Tally::default();
    let mut corpus = Corpus::of_case(seed, first);
    for case in first..first + texts {
        if case.is_multiple_of(Corpus::CASES) {
            corpus = Corpus::of_case(seed, case);
        }
        let (target, number) = compare(seed, case, &corpus)?;
        tally.count(target, number);
    }
    Ok(tally)
}

/// Compares on the text of a case. Gives the call and the refusal number that both give, or 0.
fn compare(seed: u64, case: u64, corpus: &Corpus) -> Result<(Target, u64), Disagreement> {
    let mut random = Random::of_case(seed, case);
    let target = Target::any(&mut random);
    let mut text = corpus.pick(&mut random, target).to_vec();
    let other = corpus.pick(&mut random, target);
    mutate(&mut random, &mut text, other);
    let judged = AssertUnwindSafe(|| target.judge(&mut random, &text));
    // A panic of the reference is a fault of the case too.
    let judged = panic::catch_unwind(judged).unwrap_or_else(|_| Err("a side panicked".into()));
    judged
        .map(|number| (target, number))
        .map_err(|fault| Disagreement {
            seed,
            case,
            target,
            text,
            fault,
        })
}
