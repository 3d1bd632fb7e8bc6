//! The built listing program against the reference's reader of one list: every byte that it prints,
//! which is the list's header or a report. Each failure prints the seed, the case and its bytes.

mod common;

use common::expected::{list_reading, refused};
use common::lists::{List, LARGEST};
use common::programs::{self, Call};
use common::random::{seed, Random};
use common::tally::{outcomes, Tally};
use common::texts::digits;
use common::trials::{self, Trial};
use common::{list_texts, samples, texts};

/// How many random texts there are of each sort.
const LIST_CASES: u64 = 2_500;
const LARGE_CASES: u64 = 200;
const LONG_CASES: u64 = 200;

/// The bytes of a stream.
const STREAM_BYTES: usize = 65_536;

const TRIAL: Trial = Trial {
    call: Call {
        program: "cec_list",
        arguments: &[],
    },
    due,
    status: trials::nothing,
    bytes: STREAM_BYTES,
    files: concat!(env!("CARGO_TARGET_TMPDIR"), "/cec_list-stream"),
};

/// The header of the list that a stream is, or the report of the refusal.
fn due(stream: &[u8]) -> String {
    let reading = if stream.len() > STREAM_BYTES {
        [1, 0, 0, 0, 0]
    } else {
        list_reading(stream)
    };
    match reading {
        [0, _, inputs, gates, outputs] => format!("01{inputs:02X}{gates:04X}{outputs:02X}\n"),
        [number, line, ..] => refused(number, line),
    }
}

/// Lines written by hand from the paper, so that an error shared by both sides is seen too.
#[test]
fn lines_by_hand() {
    TRIAL.prints("0101000101\n0200020002\n040004\n", "0101000101");
    TRIAL.prints("0100000001\n040001\n", "0100000001");
    let largest = format!(
        "0140040040\n{}{}",
        "0300800081\n".repeat(1_024),
        "040881\n".repeat(64)
    );
    TRIAL.prints(&largest, "0140040040");
    TRIAL.prints("", "210400000100000000");
    TRIAL.prints("0101000001\n", "210400000200000000");
    TRIAL.prints("0101000001", "210200000100000000");
    TRIAL.prints("0101000001\n04000a\n", "210200000200000000");
    TRIAL.prints("0101000001\r\n040002\r\n", "210200000100000000");
    TRIAL.prints("0101000001\n0200020002\n", "210300000200000000");
    TRIAL.prints("0101000001\n040002\n\n", "210300000300000000");
    TRIAL.prints("0101000001\n040002\nG", "210200000300000000");
    TRIAL.prints("0141000001\n040002\n", "210500000100000000");
    TRIAL.prints("0101040101\n040002\n", "210500000100000000");
    TRIAL.prints("0101000000\n", "210500000100000000");
    TRIAL.prints("0101000041\n040002\n", "210500000100000000");
    TRIAL.prints("0101000001\n040004\n", "210700000200000000");
    TRIAL.prints("0101000101\n0200020004\n040002\n", "210700000200000000");
    TRIAL.prints(&"\n".repeat(STREAM_BYTES), "210300000100000000");
    TRIAL.prints(&"\n".repeat(STREAM_BYTES + 1), "210100000000000000");
}

/// Each sample, what samples/README.md counts in it, and two of them, of which the second is no end.
#[test]
fn samples_have_their_headers() {
    let text = |sample| String::from_utf8(samples::text(sample)).expect("a list is text");
    for (sample, shape) in samples::ALL {
        let (inputs, gates, outputs) = (shape.inputs, shape.gates, shape.outputs);
        TRIAL.prints(
            &text(sample),
            &format!("01{inputs:02X}{gates:04X}{outputs:02X}"),
        );
    }
    for (case, (name, list)) in (0..).zip(samples::every()) {
        assert_eq!(TRIAL.compare(case, &name, &list), 0);
        assert_eq!(TRIAL.compare(case, &name, &list.repeat(2)), 3);
    }
}

/// Random texts of one list, whole and damaged; lists with the most lines; and long texts.
#[test]
fn random_texts_are_read_alike() {
    let mut tally = Tally::default();
    for case in 0..LIST_CASES {
        let (about, text) = list_texts::any(&mut Random::of_case(seed(), case), 1);
        tally.count(TRIAL.compare(case, &about, &text).to_string());
    }
    for case in 0..LARGE_CASES {
        let text = List::random(&mut Random::of_case(seed(), case), LARGEST).text();
        tally.count(TRIAL.compare(case, "large", &text).to_string());
    }
    for case in 0..LONG_CASES {
        let text = texts::long(&mut Random::of_case(seed(), case));
        tally.count(TRIAL.compare(case, "long", &text).to_string());
    }
    let numbers = outcomes(&[0, 1, 2, 3, 4, 5, 7]);
    tally.often("texts to list", 20, &numbers);
    tally.finish("texts to list", 2_900, &numbers);
}

/// A list with a gate of each kind and two outputs: each start of it, and each of its bytes replaced.
#[test]
fn broken_lists_are_read_alike() {
    let mut tally = Tally::default();
    let text = b"0102000202\n0200020004\n0300060003\n040008\n040007\n";
    for place in 0..text.len() {
        let number = TRIAL.compare(place as u64, "cut", &text[..place]);
        tally.count(number.to_string());
        for byte in *b"\0\n\r0Ff:\xFF" {
            let mut text = *text;
            text[place] = byte;
            let number = TRIAL.compare(place as u64, "one byte set", &text);
            tally.count(number.to_string());
        }
    }
    tally.finish("broken lists", 400, &outcomes(&[0, 2, 3, 4, 5, 7]));
}

#[test]
fn long_streams_are_reported_alike() {
    let excesses = [-2, -1, 0, 1, 2, 65_536, 1_000_000];
    let tally = TRIAL.long_streams(&excesses, "0101000001\n040002\n", "040002\n");
    tally.finish("long streams to list", 56, &outcomes(&[1, 2, 3]));
}

/// Standard input that comes in pieces, and one that is a file.
#[test]
fn pieces_and_files_are_read_whole() {
    let streams = [
        (samples::text(samples::GUARD_OLD), 17),
        (digits(STREAM_BYTES, "\n"), 4_097),
        (digits(STREAM_BYTES + 1, "\n"), 10_923),
    ];
    TRIAL.pieces_and_files(&streams, &[0, 1, 3]);
}

/// The whole list comes, but not the stream's end.
#[test]
fn unreadable_standard_input_has_no_header() {
    TRIAL.is_unread(&samples::text(samples::ADDER));
}

/// On a full disk there is a message, for a header and for a refusal.
#[test]
fn unwritten_standard_output_is_told() {
    programs::is_unwritten(TRIAL.call, &samples::text(samples::ADDER));
    programs::is_unwritten(TRIAL.call, b"");
}
