//! Changes of one field of a line, to its neighbours and to the limits that hold at that place.

use cec_reference::field_bytes;

use super::counts::{number, Counts};
use super::mutations::any_line;
use crate::common::random::Random;

/// A field of a line: the line's kind, the field's place among its fields, and its digits' place in
/// the text.
struct Field {
    kind: u8,
    place: usize,
    start: usize,
    digits: usize,
}

impl Field {
    /// A field of the line that starts here. None if its kind is not of the table.
    fn any(random: &mut Random, text: &[u8], line: usize) -> Option<Self> {
        let kind = number(text.get(line..line + 2)?)?;
        let kind = u8::try_from(kind).ok()?;
        let widths = field_bytes(kind)?;
        let place = random.below(widths.len());
        let before: usize = widths[..place].iter().sum();
        Some(Self {
            kind,
            place,
            start: line + 2 + 2 * before,
            digits: 2 * widths[place],
        })
    }

    /// The numbers on both sides of the limits that hold for it behind such lines.
    fn limits(&self, before: &Counts) -> [usize; 4] {
        let [nets, variables] = [before.nets(), before.variables()].map(|count| 2 * count);
        let clauses = before.clauses();
        match (self.kind, self.place) {
            (0x01, 1) => [0, 1_024, 1_025, 0xFFFF],
            (0x01, _) => [0, 64, 65, 255],
            (0x02..=0x04, _) => [nets - 1, nets, nets + 1, 0x7FFF],
            (0x11, 2) => [variables / 2 - 1, variables / 2, 16_383, 16_384],
            (0x11, _) => [0, clauses, clauses + 1, 0xFFFF],
            (0x12 | 0x13, _) => [variables - 1, variables, variables + 1, 0x8000],
            _ => [0, 1, 0xFF, 0xFFFF],
        }
    }
}

/// Changes a field of a random line. A line without such a field stays.
pub fn change(random: &mut Random, text: &mut [u8]) {
    let line = any_line(random, text).start;
    let Some(field) = Field::any(random, text, line) else {
        return;
    };
    let limits = field.limits(&Counts::of(&text[..line]));
    let Some(digits) = text.get_mut(field.start..field.start + field.digits) else {
        return;
    };
    let Some(old) = number(digits) else {
        return;
    };
    let new = changed(random, old, limits);
    let written = format!("{new:0width$X}", width = field.digits);
    // The last digits of a number that does not fit.
    let fitting = &written.as_bytes()[written.len() - field.digits..];
    digits.copy_from_slice(fitting);
}

/// The complement, a neighbour, a limit, a high bit more, or any.
fn changed(random: &mut Random, old: usize, limits: [usize; 4]) -> usize {
    let limit = random.pick(&limits);
    let low = random.below(32);
    let any = random.below(0x10000);
    random.pick(&[
        old ^ 1,
        old ^ 1,
        old + 1,
        old.saturating_sub(1),
        old + 2,
        old.saturating_sub(2),
        limit,
        limit,
        limit,
        low,
        low,
        old | 0x4000,
        old | 0x8000,
        any,
    ])
}
