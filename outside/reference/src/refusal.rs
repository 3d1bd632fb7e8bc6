//! Refusals. Renders document 01, 'Refusals by the place of the check': "A refusal gives number
//! and line, and all other results 0."

use std::error::Error;
use std::fmt;

/// A fault's number in the paper's table, and its line. "Lines count from 1 over the whole text";
/// line 0 belongs to a refusal tied to no line.
#[derive(Clone, Copy, Debug, PartialEq, Eq)]
pub struct Refusal {
    /// The paper's number.
    pub number: u8,
    /// The line, or 0.
    pub line: u64,
}

impl Refusal {
    /// Place 'whole stream, program only': "over 65,536 bytes; line 0", or over a larger program's
    /// limit.
    pub(crate) fn stream() -> Self {
        Self { number: 1, line: 0 }
    }

    /// Place 'line's bytes': "a byte other than a digit above or LF, or the text ends within a
    /// line".
    pub(crate) fn line_bytes(line: u64) -> Self {
        Self { number: 2, line }
    }

    /// Place 'frame': "kind not due here, or length wrong for it; an empty line; lines after a list
    /// that should be the end".
    pub(crate) fn frame(line: u64) -> Self {
        Self { number: 3, line }
    }

    /// Place 'end': "text ended where a list's frame is due; line is one past the last".
    pub(crate) fn end(line: u64) -> Self {
        Self { number: 4, line }
    }

    /// Place 'header': "a count outside its range".
    pub(crate) fn header(line: u64) -> Self {
        Self { number: 5, line }
    }

    /// Place 'right header': "inputs or outputs unlike the left".
    pub(crate) fn right_header(line: u64) -> Self {
        Self { number: 6, line }
    }

    /// Place 'gate, output': "a literal over a net not allowed there".
    pub(crate) fn literal(line: u64) -> Self {
        Self { number: 7, line }
    }

    /// Place 'before the proof': "store too short for the miter's clauses; line 0".
    pub(crate) fn store() -> Self {
        Self { number: 8, line: 0 }
    }

    /// Place 'resolve': "a clause number 0 or past the last".
    pub(crate) fn clause_number(line: u64) -> Self {
        Self { number: 9, line }
    }

    /// Place 'resolve': "v not in the first, or ¬v not in the second".
    pub(crate) fn pivot(line: u64) -> Self {
        Self { number: 10, line }
    }

    /// Place 'resolve': "result over 8 literals".
    pub(crate) fn resolvent(line: u64) -> Self {
        Self { number: 11, line }
    }

    /// Place 'extend': "operand's variable not in use".
    pub(crate) fn operand(line: u64) -> Self {
        Self { number: 12, line }
    }

    /// Place 'extend': "t would be 16,384".
    pub(crate) fn variables(line: u64) -> Self {
        Self { number: 13, line }
    }

    /// Place 'any step': "store lacks space for all its clauses".
    pub(crate) fn space(line: u64) -> Self {
        Self { number: 14, line }
    }

    /// Place 'after the proof': "no line, or the last step isn't an empty resolve; line 0".
    pub(crate) fn unproved() -> Self {
        Self {
            number: 15,
            line: 0,
        }
    }

    /// Place 'frame writer': "buffer shorter than the line, or a line number above FFFFFF; line
    /// 0".
    pub(crate) fn writer() -> Self {
        Self {
            number: 16,
            line: 0,
        }
    }

    /// Place 'engine, lists read': "proof bytes below 15 × the line bound; line 0".
    pub(crate) fn proof_bytes() -> Self {
        Self {
            number: 16,
            line: 0,
        }
    }

    /// Place 'engine or evaluator, lists read': "working memory short; line 0".
    pub(crate) fn working_memory() -> Self {
        Self {
            number: 17,
            line: 0,
        }
    }

    /// Place 'engine': "forms differ; the first such output, from 1, stands as the line".
    pub(crate) fn forms(output: u64) -> Self {
        Self {
            number: 18,
            line: output,
        }
    }
}

impl fmt::Display for Refusal {
    fn fmt(&self, out: &mut fmt::Formatter<'_>) -> fmt::Result {
        write!(out, "refusal {} at line {}", self.number, self.line)
    }
}

impl Error for Refusal {}
