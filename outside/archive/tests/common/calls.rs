//! Random kinds and fields for the frame writer, and whole lines made from them.

use super::random::Random;
use cec_reference::field_bytes;

/// The longest line, a report's, with its LF.
pub const LONGEST_LINE: usize = 19;

/// The report's line is the one field whose excess is the writer's refusal and not a wrong frame.
const REPORT: u8 = 0x21;
const REPORT_LINE: usize = 1;

/// The kinds of the table, rising.
pub fn kinds() -> Vec<u8> {
    (0..=255)
        .filter(|&kind| field_bytes(kind).is_some())
        .collect()
}

/// A kind and fields: mostly a frame that can be written, else a kind outside the table, a field
/// beyond its bytes, or a report's line around its limit. Fields that the kind lacks are random.
pub fn any(random: &mut Random) -> (u8, [u64; 4]) {
    let kind = if random.one_in(16) {
        random.byte()
    } else {
        random.pick(&kinds())
    };
    let mut fields = fitting(random, kind);
    if random.one_in(6) {
        let place = random.below(4);
        fields[place] = beyond(random, fields[place]);
    }
    if kind == REPORT && random.one_in(3) {
        fields[REPORT_LINE] = random.pick(&[0xFF_FFFE, 0xFF_FFFF, 0x100_0000, u64::MAX]);
    }
    (kind, fields)
}

/// Fields of a kind that fit their bytes, often at the ends of their range; random ones behind.
pub fn fitting(random: &mut Random, kind: u8) -> [u64; 4] {
    let mut fields = [0; 4].map(|_: u64| random.word());
    let widths = field_bytes(kind).unwrap_or_default();
    for (field, bytes) in fields.iter_mut().zip(widths) {
        let largest = (1 << (8 * bytes)) - 1;
        *field = random.pick(&[
            0,
            1,
            largest - 1,
            largest,
            *field & largest,
            *field & largest,
        ]);
    }
    fields
}

/// A number with the same low digits and a higher bit, so that a wrap at any width would hide it;
/// or the largest number.
fn beyond(random: &mut Random, number: u64) -> u64 {
    let bit = random.pick(&[8, 15, 16, 17, 24, 32, 48, 63]);
    random.pick(&[number | 1 << bit, 1 << bit, u64::MAX])
}

/// A whole line of this kind with its LF, written out here and not by either side.
pub fn line(random: &mut Random, kind: u8) -> Vec<u8> {
    let bytes: usize = field_bytes(kind).unwrap_or_default().iter().sum();
    let mut line = format!("{kind:02X}");
    for _ in 0..bytes {
        line += &format!("{:02X}", random.byte());
    }
    line.push('\n');
    line.into_bytes()
}
