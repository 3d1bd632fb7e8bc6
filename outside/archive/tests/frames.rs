//! The archive's frame reader and frame writer against the reference: the whole reply, and every
//! byte of the buffer written to. Each failure prints the seed, the case and its bytes.

mod common;
mod judge;

use cec_archive::{read_frame, write_frame};
use common::random::{seed, Random};
use common::tally::Tally;
use common::{calls, expected, hex, texts};

const READ_CASES: u64 = 300_000;
const LONG_CASES: u64 = 64;
const WRITE_CASES: u64 = 100_000;
const ROUND_TRIPS: u64 = 100_000;

/// Every buffer length from 0 to this is tried for every frame written.
const EVERY_LENGTH_TO: usize = 24;

/// Bytes on both sides of a lent buffer, which nobody may write.
const GUARD: usize = 16;

/// Reads the text with both, compares the whole reply, and counts the outcome.
fn compare_reading(tally: &mut Tally, case: u64, about: &str, text: &[u8]) {
    let reply = judge::read_frame(&mut Random::of_case(seed(), case), text);
    let reply = reply.unwrap_or_else(|fault| {
        let (seed, bytes, text) = (seed(), text.len(), hex(text));
        panic!("{fault}: seed {seed:#X}, case {case} ({about}), {bytes} bytes {text}")
    });
    tally.count(read_outcome(reply));
}

fn read_outcome(reply: [u64; 7]) -> String {
    match reply {
        [0, 0, kind, ..] => format!("kind {kind:02X}"),
        [number, line, ..] => format!("{number} at {line}"),
    }
}

/// The outcomes of a call that can succeed with each kind and can be refused so.
fn outcomes(refusals: &[&str]) -> Vec<String> {
    let kinds = calls::kinds().into_iter();
    kinds
        .map(|kind| format!("kind {kind:02X}"))
        .chain(refusals.iter().map(|&refusal| refusal.into()))
        .collect()
}

/// Every outcome of a reading: each kind, and 2 and 3 at line 1 and 2.
fn read_outcomes() -> Vec<String> {
    outcomes(&["2 at 1", "3 at 1", "2 at 2", "3 at 2"])
}

/// Those outcomes of a reading that begin so.
fn read_outcomes_of(beginnings: &[&str]) -> Vec<String> {
    let wanted = |outcome: &String| beginnings.iter().any(|&b| outcome.starts_with(b));
    read_outcomes().into_iter().filter(wanted).collect()
}

/// Writes with both into garbage, compares reply and buffer, and looks at the guards. Gives the
/// archive's reply and its buffer.
fn compare_writing(case: u64, kind: u8, fields: [u64; 4], length: usize) -> ([u64; 3], Vec<u8>) {
    let mut random = Random::of_case(seed(), case ^ ((length as u64) << 32));
    // No byte of the garbage is 0, so that each one left behind is seen.
    let garbage: Vec<u8> = (0..length + 2 * GUARD).map(|_| random.byte() | 1).collect();
    let mut lent = garbage.clone();
    let mut wanted = garbage.clone();
    let reply = write_frame(kind, fields, &mut lent[GUARD..GUARD + length]);
    let reference = expected::writing(kind, fields, &mut wanted[GUARD..GUARD + length]);
    let about = || {
        format!(
            "seed {:#X}, case {case}, kind {kind:02X}, fields {fields:X?}, {length} bytes {}",
            seed(),
            hex(&lent[GUARD..GUARD + length])
        )
    };
    assert_eq!(reply, reference, "replies differ: {}", about());
    assert_eq!(lent, wanted, "buffers differ: {}", about());
    (reply, lent[GUARD..GUARD + length].to_vec())
}

/// Writing with every short length and one longer, each outcome counted.
fn compare_all_lengths(tally: &mut Tally, case: u64, kind: u8, fields: [u64; 4]) {
    let longer = EVERY_LENGTH_TO + 1 + Random::of_case(seed(), case).below(300);
    for length in (0..=EVERY_LENGTH_TO).chain([longer]) {
        let (reply, _) = compare_writing(case, kind, fields, length);
        tally.count(write_outcome(kind, reply, length));
    }
}

fn write_outcome(kind: u8, reply: [u64; 3], length: usize) -> String {
    match reply[0] {
        0 => format!("kind {kind:02X}"),
        16 if length >= calls::LONGEST_LINE => "16 by line number".into(),
        16 => "16 by short buffer".into(),
        number => number.to_string(),
    }
}

/// Every outcome of a writing: each kind, 3, and 16 for either reason.
fn write_outcomes() -> Vec<String> {
    outcomes(&["3", "16 by line number", "16 by short buffer"])
}

/// Replies written by hand from the paper, so that an error shared by both sides is seen too.
#[test]
fn replies_by_hand() {
    let cases: [(&[u8], [u64; 7]); 16] = [
        (b"0101000101\n", [0, 0, 0x01, 1, 1, 1, 0]),
        (b"01FFFFFF00\n", [0, 0, 0x01, 255, 65_535, 0, 0]),
        (b"0200020003\n", [0, 0, 0x02, 2, 3, 0, 0]),
        (b"0300100020\n", [0, 0, 0x03, 16, 32, 0, 0]),
        (b"040004\n", [0, 0, 0x04, 4, 0, 0, 0]),
        (b"11000A000B0001\n", [0, 0, 0x11, 10, 11, 1, 0]),
        (b"12ABCDEF09\n", [0, 0, 0x12, 0xABCD, 0xEF09, 0, 0]),
        (b"1300000001\n", [0, 0, 0x13, 0, 1, 0, 0]),
        (b"210A00000600070008\n", [0, 0, 0x21, 10, 6, 7, 8]),
        (b"", [2, 1, 0, 0, 0, 0, 0]),
        (b"040004", [2, 1, 0, 0, 0, 0, 0]),
        (b"04000a\n", [2, 1, 0, 0, 0, 0, 0]),
        (b"\n", [3, 1, 0, 0, 0, 0, 0]),
        (b"14\n", [3, 1, 0, 0, 0, 0, 0]),
        (b"040004\n040004\n", [3, 2, 0, 0, 0, 0, 0]),
        (b"040004\n040004", [2, 2, 0, 0, 0, 0, 0]),
    ];
    for (text, reply) in cases {
        assert_eq!(read_frame(text), reply, "{:?}", text.escape_ascii());
    }
    eprintln!("replies by hand: {} cases", cases.len());
}

/// The report frames of samples P1 and P2.
#[test]
fn sample_reports_are_written() {
    let samples = [
        ([0, 0, 4, 13], b"21000000000004000D\n"),
        ([15, 0, 0, 0], b"210F00000000000000\n"),
    ];
    for (fields, line) in samples {
        let mut out = [0xA5; 20];
        assert_eq!(write_frame(0x21, fields, &mut out), [0, 0, 19]);
        assert_eq!(&out[..19], line);
        assert_eq!(out[19], 0);
    }
    eprintln!("sample reports: {} cases", samples.len());
}

#[test]
fn damaged_lines_are_read_alike() {
    let mut tally = Tally::default();
    for case in 0..READ_CASES {
        let (about, text) = texts::damaged(&mut Random::of_case(seed(), case));
        compare_reading(&mut tally, case, &about, &text);
    }
    tally.finish("damaged lines", 100_000, &read_outcomes());
}

#[test]
fn long_lines_are_read_alike() {
    let mut tally = Tally::default();
    for case in 0..LONG_CASES {
        let text = texts::long(&mut Random::of_case(seed(), case));
        compare_reading(&mut tally, case, "long", &text);
    }
    for (case, end) in (LONG_CASES..).zip(["", "G", "\n", "G\n", "\n\n"]) {
        let text = "0".repeat(70_000) + end;
        compare_reading(&mut tally, case, "70,000 digits", text.as_bytes());
    }
    tally.finish("long lines", 36, &read_outcomes_of(&["2", "3"]));
}

/// Lines too long by numbers that a length of 8 or 16 bits would lose.
#[test]
fn overlong_lines_are_read_alike() {
    let mut tally = Tally::default();
    for kind in calls::kinds() {
        for excess in [1, 2, 255, 256, 512, 65_535, 65_536] {
            let mut random = Random::of_case(seed(), excess);
            let text = texts::overlong(&mut random, kind, excess as usize);
            compare_reading(&mut tally, excess, "overlong", &text);
        }
    }
    tally.finish("overlong lines", 56, &read_outcomes_of(&["3 at 1"]));
}

/// One line of each kind, with every byte in turn at each place of it.
#[test]
fn every_byte_at_every_place_is_read_alike() {
    let mut tally = Tally::default();
    let mut case = 0;
    for kind in calls::kinds() {
        let line = calls::line(&mut Random::of_case(seed(), kind.into()), kind);
        for place in 0..line.len() {
            for byte in 0..=255 {
                let mut text = line.clone();
                text[place] = byte;
                compare_reading(&mut tally, case, "one byte set", &text);
                case += 1;
            }
        }
    }
    let outcomes = read_outcomes_of(&["kind", "2 at 1", "3 at 1"]);
    tally.finish("every byte at every place", 20_000, &outcomes);
}

/// Every kind byte with 0 to 24 digits behind it, with and without LF.
#[test]
fn every_kind_at_every_length_is_read_alike() {
    let mut tally = Tally::default();
    let mut case = 0;
    for kind in 0..=255 {
        for digits in 0..=24 {
            for end in ["\n", ""] {
                let text = format!("{kind:02X}{}{end}", "1".repeat(digits));
                compare_reading(&mut tally, case, "kind and length", text.as_bytes());
                case += 1;
            }
        }
    }
    let outcomes = read_outcomes_of(&["kind", "2 at 1", "3 at 1"]);
    tally.finish("every kind at every length", 12_800, &outcomes);
}

/// Every text of 0, 1 or 2 bytes, alone and behind a whole line.
#[test]
fn every_short_text_is_read_alike() {
    let mut tally = Tally::default();
    let singles = (0..=255).map(|byte| vec![byte]);
    let pairs = (0..=u16::MAX).map(|pair| pair.to_be_bytes().to_vec());
    let all = std::iter::once(Vec::new()).chain(singles).chain(pairs);
    for (case, short) in (0..).zip(all) {
        compare_reading(&mut tally, case, "short", &short);
        let behind = [b"040004\n".as_slice(), &short].concat();
        compare_reading(&mut tally, case, "short second line", &behind);
    }
    let outcomes = read_outcomes_of(&["kind 04", "2", "3"]);
    tally.finish("every short text", 2 * 65_793, &outcomes);
}

#[test]
fn frames_are_written_alike_at_every_length() {
    let mut tally = Tally::default();
    for case in 0..WRITE_CASES {
        let (kind, fields) = calls::any(&mut Random::of_case(seed(), case));
        compare_all_lengths(&mut tally, case, kind, fields);
    }
    let at_least = WRITE_CASES * (EVERY_LENGTH_TO as u64 + 2);
    tally.finish("frames written", at_least, &write_outcomes());
}

/// Every kind byte with fields that fit, with every field at the largest number, and with each
/// field of its own just beyond its bytes.
#[test]
fn every_kind_is_written_alike() {
    let mut tally = Tally::default();
    for kind in 0..=255 {
        let case = u64::from(kind);
        let fitting = calls::fitting(&mut Random::of_case(seed(), case), kind);
        compare_all_lengths(&mut tally, case, kind, fitting);
        compare_all_lengths(&mut tally, case, kind, [u64::MAX; 4]);
        let widths = cec_reference::field_bytes(kind).unwrap_or_default();
        for (place, bytes) in widths.iter().enumerate() {
            let mut fields = fitting;
            fields[place] = 1 << (8 * bytes);
            compare_all_lengths(&mut tally, case, kind, fields);
        }
    }
    tally.finish("every kind written", 512 * 26, &write_outcomes());
}

/// A report's line around FFFFFF, alone and with another field beyond its bytes.
#[test]
fn report_lines_are_limited_alike() {
    let mut tally = Tally::default();
    let lines = [0, 0xFF_FFFE, 0xFF_FFFF, 0x100_0000, 0x100_0001, u64::MAX];
    for (case, line) in (0..).zip(lines) {
        for (refusal, steps, clauses) in [(7, 8, 9), (256, 8, 9), (7, 65_536, 9), (7, 8, 65_536)] {
            compare_all_lengths(&mut tally, case, 0x21, [refusal, line, steps, clauses]);
        }
    }
    let outcomes = ["kind 21", "3", "16 by line number", "16 by short buffer"];
    tally.finish("report lines", 600, &outcomes.map(String::from));
}

/// What the archive writes it reads back as the same kind and fields.
#[test]
fn what_is_written_is_read_back() {
    let mut tally = Tally::default();
    for case in 0..ROUND_TRIPS {
        let mut random = Random::of_case(seed(), case);
        let kind = random.pick(&calls::kinds());
        let fields = calls::fitting(&mut random, kind);
        let (reply, out) = compare_writing(case, kind, fields, 32);
        let read = read_frame(&out[..reply[2] as usize]);
        let mut wanted = [0; 7];
        wanted[2] = kind.into();
        let count = cec_reference::field_bytes(kind).unwrap_or_default().len();
        wanted[3..3 + count].copy_from_slice(&fields[..count]);
        assert_eq!(
            read,
            wanted,
            "read back: seed {:#X}, case {case}, bytes {}",
            seed(),
            hex(&out)
        );
        tally.count(read_outcome(read));
    }
    tally.finish(
        "written and read back",
        100_000,
        &read_outcomes_of(&["kind"]),
    );
}

/// What the archive reads it writes back byte for byte.
#[test]
fn what_is_read_is_written_back() {
    let mut tally = Tally::default();
    for case in 0..ROUND_TRIPS {
        let mut random = Random::of_case(seed(), case);
        let kind = random.pick(&calls::kinds());
        let line = calls::line(&mut random, kind);
        let read = read_frame(&line);
        let [number, at, kind_read, fields @ ..] = read;
        let about = || format!("seed {:#X}, case {case}, bytes {}", seed(), hex(&line));
        assert_eq!((number, at, kind_read), (0, 0, kind.into()), "{}", about());
        let (reply, out) = compare_writing(case, kind, fields, line.len());
        assert_eq!(reply, [0, 0, line.len() as u64], "{}", about());
        assert_eq!(out, line, "written back: {}", about());
        tally.count(read_outcome(read));
    }
    tally.finish(
        "read and written back",
        100_000,
        &read_outcomes_of(&["kind"]),
    );
}
