//! Turns: a sweep with one seed after the other, until a proof is within the limits that the
//! options aim for.
//!
//! The first proof is mostly within them, and then the last one. Proofs of other turns are a few
//! hundredths shorter or longer, so one that is beyond the limits by little is worth more turns, and
//! one that is far beyond them is not.

use std::time::{Duration, Instant};

use cec_reference::{evaluate_nets, output_word, Limits, Literal, Netlist};

use crate::sweep::{Sweep, Swept};
use crate::trim::{trim, Lines};
use crate::{Answer, Options, Watch};

/// Sweeps at most, and conflicts after which no other begins.
const MOST_TURNS: u64 = 8;
const MOST_CONFLICTS: u64 = 100_000;

/// How far beyond the limits a proof may be, in tenths, for another turn to be worth it.
const NEAR: usize = 11;

/// What no proof may have more of: clauses and variables have numbers of 16 bits.
const MOST_CLAUSES: usize = Limits::LARGE.clauses;
const MOST_VARIABLES: usize = Literal::LAST_VARIABLE as usize + 1;

/// What the turns so far gave.
#[derive(Default)]
struct Effort {
    turns: u64,
    conflicts: u64,
    shortest: Option<Lines>,
    /// Why the last turn had no proof.
    why: String,
}

/// Searches in two lists, whose text has so many bytes.
pub fn find(lists: [&Netlist; 2], bytes: usize, options: &Options, watch: Watch<'_>) -> Answer {
    let length = options
        .seconds
        .and_then(|seconds| Duration::try_from_secs_f64(seconds).ok());
    let deadline = length.and_then(|length| Instant::now().checked_add(length));
    let mut effort = Effort::default();
    while effort.turns < MOST_TURNS && effort.conflicts < MOST_CONFLICTS {
        let mut sweep = Sweep::new(lists, effort.turns, deadline, &mut *watch);
        let swept = sweep.run();
        effort.turns += 1;
        effort.conflicts += sweep.conflicts;
        match swept {
            Swept::Differs(pattern) => {
                let words = lists.map(|list| word(list, pattern));
                return Answer::Differs { pattern, words };
            }
            Swept::Refuted(last) => effort.add(trim(&sweep.proof, last)),
            Swept::Open(output) => {
                let outputs = lists[0].outputs().len();
                effort.why = format!("output {output} of {outputs} is open");
            }
            Swept::OutOfTime => {
                effort.why = "the time ended".into();
                break;
            }
            Swept::TooLarge => {
                let clauses = sweep.proof.clause_count();
                effort.why = format!("the search was given up at {clauses} clauses");
                break;
            }
        }
        let is_last = |lines: &Lines| is_enough(lines, bytes, options);
        if effort.shortest.as_ref().is_some_and(is_last) {
            break;
        }
    }
    effort.answer()
}

impl Effort {
    /// Keeps a proof if it is the shortest that may be one.
    fn add(&mut self, lines: Lines) {
        let Lines {
            clauses, variables, ..
        } = lines;
        if clauses > MOST_CLAUSES || variables > MOST_VARIABLES {
            self.why = format!(
                "a proof was found that has {clauses} clauses and {variables} variables, where at \
                 most {MOST_CLAUSES} and {MOST_VARIABLES} have numbers"
            );
        } else if self
            .shortest
            .as_ref()
            .is_none_or(|shortest| clauses < shortest.clauses)
        {
            self.shortest = Some(lines);
        }
    }

    fn answer(self) -> Answer {
        let Self {
            turns,
            conflicts,
            why,
            ..
        } = self;
        match self.shortest {
            Some(Lines {
                text,
                count,
                clauses,
                ..
            }) => Answer::Proof {
                lines: text,
                count,
                clauses,
            },
            None => Answer::Nothing {
                why: format!("{why}, after {conflicts} conflicts in {turns} of {MOST_TURNS} turns"),
            },
        }
    }
}

/// Whether a proof is within the limits, or so far beyond them that another turn is not worth it.
fn is_enough(lines: &Lines, bytes: usize, options: &Options) -> bool {
    let sizes = [
        (lines.clauses, options.clauses),
        (bytes + lines.text.len(), options.bytes),
    ];
    let within = sizes.iter().all(|&(size, limit)| size <= limit);
    let near = sizes.iter().all(|&(size, limit)| 10 * size <= NEAR * limit);
    within || !near
}

/// A list's word on a pattern.
fn word(list: &Netlist, pattern: u64) -> u64 {
    let mut values = vec![0; list.nets()];
    evaluate_nets(list, pattern, &mut values);
    output_word(list, &values)
}
