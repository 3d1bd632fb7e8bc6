//! Questions to the finder. Nothing in it is trusted: the archive's checker judges each proof, and
//! its evaluator each pattern. An error says what is wrong with an answer.

// Each test uses a part of it.
#![allow(dead_code)]

use std::panic::{self, AssertUnwindSafe};

use cec_finder::{Answer, Options};
use cec_reference::Refusal;

use crate::common::hex;
use crate::common::lists::LARGEST;
use crate::common::random::seed;
use crate::common::sizes::{EIGHT, MOST_CLAUSES};

/// The limits of the checking program.
const BYTES: usize = 65_536;
const CLAUSES: usize = 4_096;

/// What ends a search that would otherwise hang, in seconds.
const SECONDS: f64 = 20.0;

/// An answer that is true.
#[derive(Clone, Debug, PartialEq, Eq)]
pub enum Asked {
    /// Accepted by the archive's call; whether the checking program has room for it too.
    Proved { within: bool },
    /// The lists differ on a pattern.
    Differs,
    /// No answer, and why.
    Nothing(String),
    /// The lists are refused: number and line.
    Refused([u64; 2]),
}

/// The names under which answers are counted.
pub const PROVED: &str = "proved";
pub const PROVED_BEYOND: &str = "proved, beyond the checking program's limits";
pub const DIFFERS: &str = "differs";

impl Asked {
    pub fn name(&self) -> String {
        match self {
            Self::Proved { within: true } => PROVED.into(),
            Self::Proved { within: false } => PROVED_BEYOND.into(),
            Self::Differs => DIFFERS.into(),
            Self::Nothing(why) => format!("nothing: {why}"),
            Self::Refused([number, _]) => format!("refused: {number}"),
        }
    }

    pub fn is_proved(&self) -> bool {
        matches!(self, Self::Proved { .. })
    }
}

/// What the finder says, with no more time than a test has.
pub fn answer(text: &[u8]) -> Result<Answer, Refusal> {
    let options = Options {
        seconds: Some(SECONDS),
        ..Options::default()
    };
    cec_finder::answer(text, &options, &mut |_, _| ())
}

/// Asks the finder, and has its answer judged.
pub fn ask(text: &[u8]) -> Result<Asked, String> {
    let answered = panic::catch_unwind(AssertUnwindSafe(|| answer(text)));
    judged(text, answered.map_err(|_| "the finder panicked")?)
}

/// The answer, if it is true.
pub fn judged(text: &[u8], answer: Result<Answer, Refusal>) -> Result<Asked, String> {
    match answer {
        Err(Refusal { number, line }) => Ok(Asked::Refused([number.into(), line])),
        Ok(Answer::Nothing { why }) => Ok(Asked::Nothing(why)),
        Ok(Answer::Differs { pattern, words }) => differs(text, pattern, words),
        Ok(Answer::Proof {
            lines,
            count,
            clauses,
        }) => {
            let evidence = [text, lines.as_bytes()].concat();
            accepted(&evidence, [count, clauses])
        }
    }
}

/// The archive's call accepts the evidence, and counts so many lines and clauses.
fn accepted(evidence: &[u8], counts: [usize; 2]) -> Result<Asked, String> {
    let reply = cec_archive::check(evidence, &mut vec![0; EIGHT * MOST_CLAUSES]);
    let [count, clauses] = counts;
    if reply != [0, 0, count as u64, clauses as u64] {
        return Err(format!(
            "a proof of {count} lines, with {clauses} clauses, is told {reply:?}"
        ));
    }
    let within = evidence.len() <= BYTES && clauses <= CLAUSES;
    Ok(Asked::Proved { within })
}

/// The archive's evaluator gives these words on the pattern, and they are not the same.
fn differs(text: &[u8], pattern: u64, words: [u64; 2]) -> Result<Asked, String> {
    let lists = halves(text).ok_or("a pattern for lists that are refused")?;
    let mut work = vec![0; LARGEST.nets()];
    let replies = lists.map(|list| cec_archive::evaluate(list, pattern, &mut work));
    if replies != words.map(|word| [0, 0, word]) || words[0] == words[1] {
        return Err(format!(
            "pattern {pattern:016X} is said to give {words:X?}, and is told {replies:X?}"
        ));
    }
    Ok(Asked::Differs)
}

/// The left and the right list of a text that has both.
pub fn halves(text: &[u8]) -> Option<[&[u8]; 2]> {
    let [0, _, _, gates, _, outputs] = cec_archive::read_lists(text) else {
        return None;
    };
    let lines = (1 + gates + outputs) as usize;
    let mut ends = text.iter().zip(1..).filter(|(byte, _)| **byte == b'\n');
    let (_, end) = ends.nth(lines - 1)?;
    let (left, right) = text.split_at(end);
    Some([left, right])
}

/// Asks, and fails unless what it says is true.
#[track_caller]
pub fn truly(case: u64, about: &str, text: &[u8]) -> Asked {
    match ask(text) {
        Ok(asked) => asked,
        Err(fault) => fails(case, about, text, &fault),
    }
}

/// Fails with all that makes the case again.
#[track_caller]
pub fn fails(case: u64, about: &str, text: &[u8], fault: &str) -> ! {
    let (seed, bytes, text) = (seed(), text.len(), hex(text));
    panic!("{fault}: seed {seed:#X}, case {case} ({about}), {bytes} bytes {text}")
}

/// The proof is accepted, of lists that agree. Gives whether the checking program has room for it.
#[track_caller]
pub fn is_proved(case: u64, about: &str, text: &[u8]) -> bool {
    match truly(case, about, text) {
        Asked::Proved { within } => within,
        other => fails(
            case,
            about,
            text,
            &format!("no proof, but {}", other.name()),
        ),
    }
}
