//! How much memory the calls need, by the counts of two lists.

use super::expected;
use super::random::Random;

/// The bytes of a resolve's line.
pub const LINE_BYTES: usize = 15;

/// The numbers of a clause in the store, and the most clauses that one holds.
pub const EIGHT: usize = 8;
pub const MOST_CLAUSES: usize = 65_535;

/// The sizes of a text of two lists.
#[derive(Clone, Copy, Debug)]
pub struct Sizes {
    pub inputs: usize,
    /// Of both lists.
    pub gates: usize,
    pub outputs: usize,
}

/// How much memory an engine is lent: proof bytes and working numbers.
#[derive(Clone, Copy, Debug, PartialEq, Eq)]
pub struct Lengths {
    pub proof: usize,
    pub work: usize,
}

impl Sizes {
    /// None if the text is refused.
    pub fn of(text: &[u8]) -> Option<Self> {
        let [refusal, _, numbers @ ..] = expected::lists_reading(text);
        let [inputs, left, right, outputs] = numbers.map(|number| number as usize);
        (refusal == 0).then_some(Self {
            inputs,
            gates: left + right,
            outputs,
        })
    }

    /// "at most 16 × (gates of both lists) + 12 × outputs lines".
    pub fn line_bound(self) -> usize {
        16 * self.gates + 12 * self.outputs
    }

    /// The memory that suffices an engine.
    pub fn needed(self) -> Lengths {
        Lengths {
            proof: LINE_BYTES * self.line_bound(),
            work: 16 * (1 + self.inputs + self.gates),
        }
    }

    /// No miter of these sizes has more clauses: a gate and a z have four, a w three.
    pub fn most_clauses(self) -> usize {
        2 + 4 * self.gates + 7 * self.outputs
    }
}

/// A length around what is needed, which is above 0; mostly enough.
pub fn around(random: &mut Random, needed: usize) -> usize {
    let less = random.below(needed);
    let more = needed + 1 + random.below(100);
    if random.one_in(10) {
        random.pick(&[0, less, needed - 1])
    } else {
        random.pick(&[needed, needed, needed, needed + 1, more])
    }
}
