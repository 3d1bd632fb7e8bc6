//! A text cut into lines. Renders document 01, 'Lines on the wire': "One frame a line: digits 0-9
//! and A-F, then the byte 10 (LF), the last line included."
//!
//! The bytes of a line are tested over the whole line before anything is made of it, so refusal 2
//! comes before kind and length are looked at.

use crate::refusal::Refusal;

pub(crate) const LF: u8 = 10;

/// The digits by their values.
pub(crate) const DIGITS: &[u8; 16] = b"0123456789ABCDEF";

/// One line of a text, without its LF.
#[derive(Debug, PartialEq, Eq)]
pub(crate) struct Line<'text> {
    /// Its place in the text, from 1.
    pub(crate) number: u64,
    /// Its bytes, each of which is a digit.
    pub(crate) digits: &'text [u8],
}

/// The lines of a text from the top. "Reading goes from the top and the first fault ends it":
/// behind a refusal comes nothing.
pub(crate) struct Lines<'text> {
    unread: &'text [u8],
    taken: u64,
}

impl<'text> Lines<'text> {
    pub(crate) fn of(text: &'text [u8]) -> Self {
        Self {
            unread: text,
            taken: 0,
        }
    }

    /// The number that the next line has, or would have if the text went on.
    pub(crate) fn next_number(&self) -> u64 {
        self.taken + 1
    }

    /// Refuses a line where the text has to end. Such a line is read like any other: a bad byte in
    /// it, or no LF, is 2; otherwise it is 3, also if it is empty.
    pub(crate) fn expect_end(mut self) -> Result<(), Refusal> {
        match self.next() {
            None => Ok(()),
            Some(line) => Err(Refusal::frame(line?.number)),
        }
    }
}

impl<'text> Iterator for Lines<'text> {
    type Item = Result<Line<'text>, Refusal>;

    fn next(&mut self) -> Option<Self::Item> {
        if self.unread.is_empty() {
            return None;
        }
        self.taken += 1;
        let number = self.taken;
        let Some((digits, unread)) = take_digits(self.unread) else {
            self.unread = &[];
            return Some(Err(Refusal::line_bytes(number)));
        };
        self.unread = unread;
        Some(Ok(Line { number, digits }))
    }
}

/// The digits up to the first LF, and what stands behind it. None if there is no LF, or if another
/// byte than a digit stands before it.
fn take_digits(text: &[u8]) -> Option<(&[u8], &[u8])> {
    let end = text.iter().position(|&byte| digit(byte).is_none())?;
    let (digits, behind) = text.split_at(end);
    Some((digits, behind.strip_prefix(&[LF])?))
}

/// The value of a digit: 0-9 and A-F, and no small letter.
pub(crate) fn digit(byte: u8) -> Option<u8> {
    VALUES[usize::from(byte)]
}

/// The value of each byte that is a digit.
const VALUES: [Option<u8>; 256] = {
    let mut values = [None; 256];
    let mut value = 0;
    while value < DIGITS.len() {
        values[DIGITS[value] as usize] = Some(value as u8);
        value += 1;
    }
    values
};

#[cfg(test)]
mod tests {
    use super::*;

    #[test]
    fn exactly_sixteen_bytes_are_digits() {
        let digits: Vec<u8> = (0..=255).filter(|&byte| digit(byte).is_some()).collect();
        assert_eq!(digits, b"0123456789ABCDEF");
        let values: Vec<u8> = digits.iter().filter_map(|&byte| digit(byte)).collect();
        assert_eq!(values, (0..16).collect::<Vec<u8>>());
    }

    #[test]
    fn lines_are_counted_and_the_first_fault_ends_them() {
        let mut lines = Lines::of(b"0A\n\nF\nx\n00\n");
        let expected: [(u64, &[u8]); 3] = [(1, b"0A"), (2, b""), (3, b"F")];
        for (number, digits) in expected {
            assert_eq!(lines.next(), Some(Ok(Line { number, digits })));
        }
        assert_eq!(lines.next(), Some(Err(Refusal::line_bytes(4))));
        assert_eq!(lines.next(), None);
    }

    #[test]
    fn no_bytes_are_no_line() {
        assert_eq!(Lines::of(b"").next(), None);
    }

    #[test]
    fn a_line_behind_the_end_is_read_before_it_is_refused() {
        let behind_first = |text| {
            let mut lines = Lines::of(text);
            assert!(matches!(lines.next(), Some(Ok(_))));
            assert_eq!(lines.next_number(), 2);
            lines.expect_end()
        };
        assert_eq!(behind_first(b"0A\n"), Ok(()));
        assert_eq!(behind_first(b"0A\n\n"), Err(Refusal::frame(2)));
        assert_eq!(behind_first(b"0A\n0A\nx\n"), Err(Refusal::frame(2)));
        assert_eq!(behind_first(b"0A\n0A"), Err(Refusal::line_bytes(2)));
        assert_eq!(behind_first(b"0A\nx\n"), Err(Refusal::line_bytes(2)));
    }
}
