//! The built evaluating program against the reference: every byte that it prints. Each failure prints
//! the seed, the case and its bytes.

mod common;

use std::path::{Path, PathBuf};

use cec_reference::{evaluate, Refusal};
use common::expected::refused;
use common::lists::{List, LARGEST};
use common::programs::{self, only_complains, printed, Call, Ended};
use common::random::{seed, Random};
use common::tally::{outcomes, Tally};
use common::texts::digits;
use common::{hex, list_texts, samples, texts};

const PROGRAM: &str = "cec_eval";

/// How many random texts there are of each sort.
const LIST_CASES: u64 = 2_500;
const LARGE_CASES: u64 = 200;
const LONG_CASES: u64 = 200;

/// The bytes of a stream, and the working bytes that suffice for every list.
const STREAM_BYTES: usize = 65_536;
const ENOUGH: usize = 1 + LARGEST.inputs + LARGEST.gates;

/// The line that is due, and its refusal number.
fn wanted(text: &[u8], pattern: u64) -> (u64, String) {
    let evaluated = if text.len() > STREAM_BYTES {
        Err(Refusal { number: 1, line: 0 })
    } else {
        evaluate(text, pattern, &mut [0; ENOUGH])
    };
    match evaluated {
        Ok(word) => (0, format!("{word:016X}\n")),
        Err(Refusal { number, line }) => (number.into(), refused(number.into(), line)),
    }
}

/// Runs the program on a text and a pattern.
fn run(text: &[u8], pattern: u64) -> Ended {
    let digits = format!("{pattern:016X}");
    programs::run(with(&[&digits]), text)
}

fn with<'words>(arguments: &'words [&'words str]) -> Call<'words> {
    let program = PROGRAM;
    Call { program, arguments }
}

/// Runs the program and compares. Gives the refusal number, or 0 for a word.
fn compare(case: u64, about: &str, text: &[u8], pattern: u64) -> u64 {
    compare_run(case, about, text, pattern, run(text, pattern))
}

fn compare_run(case: u64, about: &str, text: &[u8], pattern: u64, ended: Ended) -> u64 {
    let (number, line) = wanted(text, pattern);
    let printed = printed(ended);
    let (seed, bytes) = (seed(), text.len());
    let text = hex(text);
    assert_eq!(
        printed, line,
        "seed {seed:#X}, case {case} ({about}), pattern {pattern:016X}, {bytes} bytes {text}"
    );
    number
}

#[track_caller]
fn prints(text: &str, pattern: u64, line: &str) {
    let printed = printed(run(text.as_bytes(), pattern));
    assert_eq!(printed, format!("{line}\n"), "{text:?}");
}

/// Lines written by hand from the paper, so that an error shared by both sides is seen too.
#[test]
fn lines_by_hand() {
    let gate = "0102000202\n0200020004\n0300020004\n040006\n040008\n";
    prints(gate, 0b11, "0000000000000001");
    prints(gate, 0b10, "0000000000000002");
    prints(gate, !0b11, "0000000000000000");
    let all_true = format!("0100000040\n{}", "040001\n".repeat(64));
    prints(&all_true, 0, "FFFFFFFFFFFFFFFF");
    let wires: String = (1..=64)
        .map(|input| format!("04{:04X}\n", 2 * input))
        .collect();
    let wires = format!("0140000040\n{wires}");
    prints(&wires, 0x0123_4567_89AB_CDEF, "0123456789ABCDEF");
    prints("", 0, "210400000100000000");
    prints("0101000001\n04000a\n", 0, "210200000200000000");
    prints("0101000001\n040002\n\n", 0, "210300000300000000");
    prints("0141000001\n040002\n", 0, "210500000100000000");
    prints("0101000001\n040004\n", 0, "210700000200000000");
    prints(&"\n".repeat(STREAM_BYTES), 0, "210300000100000000");
    prints(&"\n".repeat(STREAM_BYTES + 1), 0, "210100000000000000");
}

/// Random texts of lists, whole and damaged, on random patterns.
#[test]
fn random_texts_are_evaluated_alike() {
    let mut tally = Tally::default();
    for case in 0..LIST_CASES {
        let mut random = Random::of_case(seed(), case);
        let (about, text) = list_texts::any(&mut random, 1);
        let number = compare(case, &about, &text, random.word());
        tally.count(number.to_string());
    }
    for case in 0..LARGE_CASES {
        let mut random = Random::of_case(seed(), case);
        let text = List::random(&mut random, LARGEST).text();
        let number = compare(case, "large", &text, random.word());
        tally.count(number.to_string());
    }
    for case in 0..LONG_CASES {
        let mut random = Random::of_case(seed(), case);
        let text = texts::long(&mut random);
        let number = compare(case, "long", &text, random.word());
        tally.count(number.to_string());
    }
    let numbers = outcomes(&[0, 1, 2, 3, 4, 5, 7]);
    tally.often("texts to evaluate", 20, &numbers);
    tally.finish("texts to evaluate", 2_500, &numbers);
}

/// A stream is read to its last byte, and one of more than 65,536 bytes is 1 whatever it says.
#[test]
fn long_streams_are_reported_alike() {
    for excess in [-1, 0, 1, 2, 65_536, 1_000_000] {
        let length = STREAM_BYTES.checked_add_signed(excess).expect("it is long");
        for end in ["\n", "0", "G\n"] {
            let number = compare(0, "long", &digits(length, end), 0);
            assert_eq!(number == 1, length > STREAM_BYTES, "{length} bytes");
        }
    }
}

/// Anything but one argument of 16 digits, whatever stands on standard input.
#[test]
fn wrong_arguments_have_no_answer() {
    let adder = samples::text(samples::ADDER);
    let wrong: [&[&str]; 12] = [
        &[],
        &[""],
        &["0"],
        &["000000000000000"],
        &["00000000000000000"],
        &["000000000000000a"],
        &["000000000000000G"],
        &["00000000 0000000"],
        &["-000000000000001"],
        &["0x00000000000001"],
        &["0000000000000000", "0000000000000000"],
        &["0000000000000000", ""],
    ];
    for arguments in wrong {
        only_complains(PROGRAM, programs::run(with(arguments), &adder));
    }
    only_complains(PROGRAM, programs::run(with(&[&"0".repeat(5_000)]), &adder));
}

/// Standard input that comes in pieces, and one that is a file.
#[test]
fn pieces_and_files_are_read_whole() {
    let mut tally = Tally::default();
    let pattern = samples::GUARD_PATTERN;
    let digits_of_it = format!("{pattern:016X}");
    let arguments = [digits_of_it.as_str()];
    let streams = [
        (samples::text(samples::GUARD_OLD), 17),
        (digits(STREAM_BYTES, "\n"), 4_097),
        (digits(STREAM_BYTES + 1, "\n"), 10_923),
    ];
    for (case, (stream, length)) in (0..).zip(streams) {
        let pieces = programs::run_in_pieces(with(&arguments), &stream, length);
        let number = compare_run(case, "in pieces", &stream, pattern, pieces);
        let from_file = programs::run_on_file(with(&arguments), &file(case), &stream);
        let from_file = compare_run(case, "a file", &stream, pattern, from_file);
        assert_eq!(from_file, number);
        tally.count(number.to_string());
    }
    tally.finish("pieces and files to evaluate", 3, &outcomes(&[0, 1, 3]));
}

/// A file in the tests' own folder.
fn file(case: u64) -> PathBuf {
    Path::new(env!("CARGO_TARGET_TMPDIR")).join(format!("{PROGRAM}-stream-{case}"))
}

#[test]
fn unreadable_standard_input_has_no_word() {
    let adder = samples::text(samples::ADDER);
    let call = with(&["0000000000000000"]);
    programs::is_unread(call, programs::folder());
    programs::is_unread(call, programs::only_written(&file(99), &adder));
    programs::is_unread(call, programs::broken_off(&adder));
}

/// On a full disk there is a message, for a word and for a refusal.
#[test]
fn unwritten_standard_output_is_told() {
    let call = with(&["0000000000000000"]);
    programs::is_unwritten(call, &samples::text(samples::ADDER));
    programs::is_unwritten(call, b"");
}
