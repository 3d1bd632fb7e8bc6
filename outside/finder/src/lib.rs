//! A search for the proof that two gate lists agree, or for a pattern on which they differ.
//!
//! The engine proves pairs whose folded forms are the same; a layout that a tool resynthesised has
//! others. Nothing here has to be trusted: the proved checker judges every line of a proof, and the
//! evaluator every pattern. The same lists and options give the same answer on every machine:
//! effort is counted in conflicts and turns, and time only ends the search as a whole.
//!
//! - `gate`, `miter`, `proof`: variables, gates, and clauses with their derivations;
//! - `simulation`: what each net is on the patterns tried; `candidates`: nets alike on all of them;
//! - `sweep`: nets proved equal from the inputs to the outputs, each by `equality` in `windows`;
//! - `search`, `order`, `learning`: conflict-driven search; `derivation`: what it learns as resolves
//!   within the width;
//! - `xors`: XOR trees in another order; `adders`, `plans`, `words`: how lists add up, `rotation`,
//!   `sums`: sums in another order; `halves`: by what both are split;
//! - `trim`: the lines of what the last clause rests on; `turns`: sweeps until a proof is short
//!   enough; `random`: numbers for patterns and decisions.

#![forbid(unsafe_code)]

mod adders;
mod candidates;
mod derivation;
mod equality;
mod gate;
mod halves;
mod learning;
mod miter;
mod order;
mod plans;
mod proof;
mod random;
mod rotation;
mod search;
mod simulation;
mod sums;
mod sweep;
mod trim;
mod turns;
mod windows;
mod words;
mod xors;

use cec_reference::{read_lists, Limits, Refusal};

/// What the search aims for, and what ends it.
#[derive(Clone, Copy, Debug)]
pub struct Options {
    /// Clauses that a store should have to hold at most, the miter's included.
    pub clauses: usize,
    /// Bytes that the evidence should have at most, both lists included.
    pub bytes: usize,
    /// What ends the search as a whole; none for no end by time.
    pub seconds: Option<f64>,
}

/// The limits of the checking program of document 01.
impl Default for Options {
    fn default() -> Self {
        Self {
            clauses: Limits::USUAL.clauses,
            bytes: Limits::USUAL.bytes,
            seconds: None,
        }
    }
}

/// What was found.
#[derive(Clone, Debug, PartialEq, Eq)]
pub enum Answer {
    /// A proof that both lists agree on every pattern.
    Proof {
        /// Its lines, each with its LF.
        lines: String,
        /// How many they are.
        count: usize,
        /// The clauses that a store has to hold, the miter's included.
        clauses: usize,
    },
    /// A pattern on which the lists differ, and the words of the left and of the right list on it.
    Differs {
        /// Bit k−1 is input k.
        pattern: u64,
        /// Bit k−1 is output k.
        words: [u64; 2],
    },
    /// Neither.
    Nothing {
        /// Why, and after how much effort: the end of a sentence.
        why: String,
    },
}

/// Is told how far a sweep is: nets settled, of nets.
pub type Watch<'w> = &'w mut dyn FnMut(usize, usize);

/// Reads two lists, which are refused as `cec_prove` refuses them, and searches.
pub fn answer(text: &[u8], options: &Options, watch: Watch<'_>) -> Result<Answer, Refusal> {
    let (left, right) = read_lists(text)?;
    Ok(turns::find([&left, &right], text.len(), options, watch))
}
