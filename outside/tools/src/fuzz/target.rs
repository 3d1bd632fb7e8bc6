//! The calls under comparison, and what each is lent.

use super::counts::Counts;
use crate::common::random::Random;
use crate::common::sizes::{around, Lengths, EIGHT, MOST_CLAUSES};
use crate::judge;

/// One of the archive's calls.
#[derive(Clone, Copy, Debug, PartialEq, Eq)]
pub enum Target {
    Check,
    Prove,
    Evaluate,
    ReadFrame,
}

impl Target {
    pub const ALL: [Self; 4] = [Self::Check, Self::Prove, Self::Evaluate, Self::ReadFrame];

    /// The checker has the most rules, and a lone line the fewest.
    pub fn any(random: &mut Random) -> Self {
        match random.below(16) {
            0..7 => Self::Check,
            7..11 => Self::Prove,
            11..14 => Self::Evaluate,
            _ => Self::ReadFrame,
        }
    }

    pub fn name(self) -> &'static str {
        match self {
            Self::Check => "check",
            Self::Prove => "prove",
            Self::Evaluate => "evaluate",
            Self::ReadFrame => "read_frame",
        }
    }

    /// The refusals that it can give.
    pub fn refusals(self) -> &'static [u64] {
        match self {
            Self::Check => &[2, 3, 4, 5, 6, 7, 8, 9, 10, 11, 12, 13, 14, 15],
            Self::Prove => &[2, 3, 4, 5, 6, 7, 16, 17, 18],
            Self::Evaluate => &[2, 3, 4, 5, 7, 17],
            Self::ReadFrame => &[2, 3],
        }
    }

    /// Lets both sides answer in memory of some length around what the text needs. Gives the
    /// refusal number, or 0; or what differs.
    pub fn judge(self, random: &mut Random, text: &[u8]) -> Result<u64, String> {
        let counts = Counts::of(text);
        let number = match self {
            Self::Check => {
                let length = store_numbers(random, &counts);
                judge::check(random, text, length)?[0]
            }
            Self::Prove => {
                let Lengths { proof, work } = counts.sizes().needed();
                let [proof, work] = [proof, work].map(|needed| around(random, needed.max(1)));
                judge::prove(random, text, Lengths { proof, work })?[0]
            }
            Self::Evaluate => {
                let length = around(random, counts.nets());
                let word = random.word();
                let pattern = random.pick(&[word, word, 0, u64::MAX]);
                judge::evaluate(random, text, pattern, length)?[0]
            }
            Self::ReadFrame => judge::read_frame(random, text)?[0],
        };
        if number != 0 && !self.refusals().contains(&number) {
            return Err(format!("both refuse by {number}"));
        }
        Ok(number)
    }
}

/// Enough for the text in most cases; else around what the miter needs, or all clauses, or the most.
fn store_numbers(random: &mut Random, counts: &Counts) -> usize {
    let [miter, enough] = [counts.miter(), counts.clauses()].map(|clauses| EIGHT * clauses);
    let more = enough + random.below(100);
    if random.one_in(400) {
        return EIGHT * MOST_CLAUSES + random.below(2 * EIGHT);
    }
    if !random.one_in(6) {
        return random.pick(&[enough, enough + 1, enough + EIGHT, more, more]);
    }
    let between = miter + random.below(enough - miter + 1);
    let less = random.below(miter);
    random.pick(&[
        0,
        less,
        miter - 1,
        miter,
        miter + EIGHT - 1,
        between,
        enough - EIGHT,
        enough - 1,
    ])
}
