//! Frames. Renders the table of document 01, 'Lines on the wire', and what it says of a lone line,
//! read and written.

use crate::line::{digit, Line, Lines, DIGITS, LF};
use crate::refusal::Refusal;

/// What a gate or an extension computes of its two operands.
#[derive(Clone, Copy, Debug, PartialEq, Eq, Hash)]
pub enum Operation {
    /// Kinds 02 and 12.
    And,
    /// Kinds 03 and 13.
    Xor,
}

/// A line's content, one case for each row of the table.
#[derive(Clone, Copy, Debug, PartialEq, Eq)]
pub enum Frame {
    /// Kind 01: the counts of a list.
    Header {
        /// Number of inputs.
        inputs: u8,
        /// Number of gates.
        gates: u16,
        /// Number of outputs.
        outputs: u8,
    },
    /// Kinds 02 and 03.
    Gate {
        /// AND or XOR.
        operation: Operation,
        /// The two literals.
        operands: [u16; 2],
    },
    /// Kind 04.
    Output {
        /// The literal that the output shows.
        literal: u16,
    },
    /// Kind 11.
    Resolve {
        /// Number of the clause that holds the variable.
        first: u16,
        /// Number of the clause that holds its complement.
        second: u16,
        /// The variable to resolve on.
        variable: u16,
    },
    /// Kinds 12 and 13.
    Extend {
        /// AND or XOR.
        operation: Operation,
        /// The two literals.
        operands: [u16; 2],
    },
    /// Kind 21.
    Report {
        /// The refusal number, 0 if accepted.
        refusal: u8,
        /// The refusal's line. It may be past the three bytes that it has on the wire: the writer
        /// refuses it then.
        line: u64,
        /// Number of proof lines.
        steps: u16,
        /// Number of clauses.
        clauses: u16,
    },
}

/// A report's line has three bytes: the writer refuses "a line number above FFFFFF".
const MOST_LINE: u64 = 0xFF_FFFF;

/// How many bytes each field behind the kind has; none for a kind outside the table.
pub fn field_bytes(kind: u8) -> Option<&'static [usize]> {
    match kind {
        0x01 => Some(&[1, 2, 1]),
        0x02 | 0x03 | 0x12 | 0x13 => Some(&[2, 2]),
        0x04 => Some(&[2]),
        0x11 => Some(&[2, 2, 2]),
        0x21 => Some(&[1, 3, 2, 2]),
        _ => None,
    }
}

impl Frame {
    /// The frame of a kind with fields in the table's order; those that the kind lacks are not
    /// looked at. None, which is refusal 3, if the kind is outside the table or a field other than
    /// a report's line does not fit its bytes.
    pub fn from_fields(kind: u8, fields: [u64; 4]) -> Option<Self> {
        let byte = |place: usize| u8::try_from(fields[place]).ok();
        let pair = |place: usize| u16::try_from(fields[place]).ok();
        match kind {
            0x01 => Some(Self::Header {
                inputs: byte(0)?,
                gates: pair(1)?,
                outputs: byte(2)?,
            }),
            0x02 | 0x03 => Some(Self::Gate {
                operation: operation(kind),
                operands: [pair(0)?, pair(1)?],
            }),
            0x04 => Some(Self::Output { literal: pair(0)? }),
            0x11 => Some(Self::Resolve {
                first: pair(0)?,
                second: pair(1)?,
                variable: pair(2)?,
            }),
            0x12 | 0x13 => Some(Self::Extend {
                operation: operation(kind),
                operands: [pair(0)?, pair(1)?],
            }),
            0x21 => Some(Self::Report {
                refusal: byte(0)?,
                line: fields[1],
                steps: pair(2)?,
                clauses: pair(3)?,
            }),
            _ => None,
        }
    }

    /// The kind byte.
    pub fn kind(self) -> u8 {
        match self {
            Self::Header { .. } => 0x01,
            Self::Gate { operation, .. } => 0x02 + xor_is_one(operation),
            Self::Output { .. } => 0x04,
            Self::Resolve { .. } => 0x11,
            Self::Extend { operation, .. } => 0x12 + xor_is_one(operation),
            Self::Report { .. } => 0x21,
        }
    }

    /// The fields in the table's order, zeros behind.
    pub fn fields(self) -> [u64; 4] {
        match self {
            Self::Header {
                inputs,
                gates,
                outputs,
            } => [inputs.into(), gates.into(), outputs.into(), 0],
            Self::Gate { operands, .. } | Self::Extend { operands, .. } => {
                [operands[0].into(), operands[1].into(), 0, 0]
            }
            Self::Output { literal } => [literal.into(), 0, 0, 0],
            Self::Resolve {
                first,
                second,
                variable,
            } => [first.into(), second.into(), variable.into(), 0],
            Self::Report {
                refusal,
                line,
                steps,
                clauses,
            } => [refusal.into(), line, steps.into(), clauses.into()],
        }
    }

    /// The frame of a line, of any kind of the table; else 3. Which kinds are due, the caller
    /// knows.
    pub(crate) fn of_line(line: &Line) -> Result<Self, Refusal> {
        Self::from_digits(line.digits).ok_or(Refusal::frame(line.number))
    }

    /// The frame that these digits are. None if the "kind [is] not due here, or length wrong for
    /// it", where every kind of the table is due; no digits are no kind.
    fn from_digits(digits: &[u8]) -> Option<Self> {
        let (kind, mut unread) = digits.split_at_checked(2)?;
        let kind = u8::try_from(number(kind)?).ok()?;
        let mut fields = [0; 4];
        for (field, bytes) in fields.iter_mut().zip(field_bytes(kind)?) {
            let (digits, behind) = unread.split_at_checked(2 * bytes)?;
            *field = number(digits)?;
            unread = behind;
        }
        if !unread.is_empty() {
            return None;
        }
        Self::from_fields(kind, fields)
    }

    /// Whether each field fits its bytes, which only a report's line can fail to do.
    fn fits(self) -> bool {
        match self {
            Self::Report { line, .. } => line <= MOST_LINE,
            _ => true,
        }
    }
}

/// The operation of a gate's or an extension's kind.
fn operation(kind: u8) -> Operation {
    match kind {
        0x02 | 0x12 => Operation::And,
        _ => Operation::Xor,
    }
}

/// The kind of XOR follows the kind of AND.
fn xor_is_one(operation: Operation) -> u8 {
    match operation {
        Operation::And => 0,
        Operation::Xor => 1,
    }
}

/// The number that the digits write, "most significant digit first". None if a byte is no digit,
/// which a line has not.
fn number(digits: &[u8]) -> Option<u64> {
    digits.iter().try_fold(0, |number, &byte| {
        Some(number << 4 | u64::from(digit(byte)?))
    })
}

/// Reads a text of one line. "A lone line is read with 2 and 3 only; no bytes at all is 2 at line
/// 1; a kind outside this table, or a second line (at line 2), is 3."
///
/// A second line is read like any other: a bad byte in it, or no LF, is 2 at line 2.
pub fn read_frame(text: &[u8]) -> Result<Frame, Refusal> {
    let mut lines = Lines::of(text);
    let line = lines.next().ok_or(Refusal::line_bytes(1))??;
    let frame = Frame::of_line(&line)?;
    lines.expect_end()?;
    Ok(frame)
}

/// Writes a frame and gives the line's length. "Written, it stands with its LF at the buffer's
/// start, zeros behind." After the writer's refusal 16 all of the buffer is zero.
#[inline]
pub fn write_frame(frame: &Frame, out: &mut [u8]) -> Result<usize, Refusal> {
    out.fill(0);
    let widths = field_bytes(frame.kind()).expect("a frame's kind is in the table");
    let length = 2 * (1 + widths.iter().sum::<usize>()) + 1;
    let line = out.get_mut(..length).filter(|_| frame.fits());
    let (kind, mut unwritten) = line.ok_or(Refusal::writer())?.split_at_mut(2);
    write_number(frame.kind().into(), kind);
    for (&field, bytes) in frame.fields().iter().zip(widths) {
        let (digits, behind) = unwritten.split_at_mut(2 * bytes);
        write_number(field, digits);
        unwritten = behind;
    }
    unwritten.fill(LF);
    Ok(length)
}

/// Writes a number over all of these bytes, "most significant digit first".
#[inline]
fn write_number(number: u64, digits: &mut [u8]) {
    for (place, digit) in digits.iter_mut().rev().enumerate() {
        *digit = DIGITS[(number >> (4 * place) & 0xF) as usize];
    }
}

#[cfg(test)]
mod tests;
