//! The built proving program against the archive's call: every byte that it prints. The built
//! checking program judges the evidence. Each failure prints the seed, the case and its bytes.

mod common;

use std::fs;
use std::path::{Path, PathBuf};

use cec_archive::{check, prove};
use cec_reference::report;
use cec_reference::sample::{LISTS, PROOF};
use common::expected::refused;
use common::list_texts::{self, over_two_inputs};
use common::lists::LARGEST;
use common::programs::{self, printed, Ended};
use common::proof_texts::bench;
use common::random::{seed, Random};
use common::rewrites::{self, Pair};
use common::sizes::{LINE_BYTES, MOST_CLAUSES};
use common::tally::{outcomes, Tally};
use common::texts::digits;
use common::{hex, samples};

const PROGRAM: &str = "cec_prove";
const CHECKER: &str = "cec_check";

/// How many random texts there are of each sort.
const PAIRS: u64 = 500;
const LIST_CASES: u64 = 500;
const LARGE_CASES: u64 = 12;

/// The program's limits: the bytes of its stream, and the memory for the largest lists.
const STREAM_BYTES: usize = 65_536;
const PROOF_BYTES: usize = LINE_BYTES * (16 * 2 * LARGEST.gates + 12 * LARGEST.outputs);
const WORK_NUMBERS: usize = 16 * (1 + LARGEST.inputs + 2 * LARGEST.gates);

/// The clauses of the checking program's store.
const CLAUSES: usize = 4_096;

/// The bytes by which a shell limits files.
const BLOCK: usize = 512;

/// Evidence, and what the checking program says of it. It has less room than evidence may need.
const ACCEPTED: &str = "evidence: accepted";
const TOO_LONG: &str = "evidence: 1";
const LARGE_MITER: &str = "evidence: 8";
const MANY_CLAUSES: &str = "evidence: 14";

/// The archive's reply, and what the program has to print: the stream and the lines that the archive
/// wrote, or a report.
fn wanted(stream: &[u8]) -> ([u64; 3], Vec<u8>) {
    let (mut proof, mut work) = (vec![0; PROOF_BYTES], vec![0; WORK_NUMBERS]);
    let reply = if stream.len() > STREAM_BYTES {
        [1, 0, 0]
    } else {
        prove(stream, &mut proof, &mut work)
    };
    let [refusal, line, lines] = reply;
    let printed = if refusal == 0 {
        [stream, &proof[..LINE_BYTES * lines as usize]].concat()
    } else {
        refused(refusal, line).into_bytes()
    };
    (reply, printed)
}

/// One run on a stream, with all that a failure prints.
struct Run<'text> {
    case: u64,
    about: &'text str,
    stream: &'text [u8],
}

impl Run<'_> {
    fn fails(&self, what: &str) -> ! {
        let (seed, bytes, stream) = (seed(), self.stream.len(), hex(self.stream));
        let (case, about) = (self.case, self.about);
        panic!("{what}: seed {seed:#X}, case {case} ({about}), {bytes} bytes {stream}")
    }

    /// Runs the program and compares. Gives the archive's reply and the outcome to count.
    fn compare(&self) -> ([u64; 3], String) {
        self.compare_run(programs::run(PROGRAM, self.stream))
    }

    fn compare_run(&self, ended: Ended) -> ([u64; 3], String) {
        let printed = printed(ended).into_bytes();
        let (reply, wanted) = wanted(self.stream);
        if printed != wanted {
            let (bytes, wanted_bytes) = (printed.len(), wanted.len());
            let [printed, wanted] = [printed, wanted].map(|text| hex(&text));
            self.fails(&format!(
                "printed {bytes} bytes {printed} and not {wanted_bytes} bytes {wanted}"
            ));
        }
        let outcome = match reply {
            [0, _, lines] => self.judge(&printed, lines),
            [refusal, ..] => refusal.to_string(),
        };
        (reply, outcome)
    }

    /// The archive's call accepts the evidence in the longest store, and the checking program does
    /// unless it has not the room. Gives the outcome.
    fn judge(&self, evidence: &[u8], lines: u64) -> String {
        let reply = check(evidence, &mut vec![0; 8 * MOST_CLAUSES]);
        let [0, 0, steps, clauses] = reply else {
            self.fails(&format!("the archive's checker replies {reply:?}"));
        };
        let judged = printed(programs::run(CHECKER, evidence));
        let accepted = format!("2100000000{lines:04X}{clauses:04X}\n");
        let has_room = evidence.len() <= STREAM_BYTES && clauses <= CLAUSES as u64;
        let is_as_wanted = judged.as_bytes() == report(evidence);
        if steps != lines || (judged == accepted) != has_room || !is_as_wanted {
            self.fails(&format!("{lines} lines are reported by {judged:?}"));
        }
        let number = u64::from_str_radix(&judged[2..4], 16).expect("a report has digits");
        match number {
            0 => ACCEPTED.into(),
            _ => format!("evidence: {number}"),
        }
    }
}

/// Runs the program on a stream by hand.
fn compare(about: &str, stream: &[u8]) -> ([u64; 3], String) {
    let case = 0;
    let run = Run {
        case,
        about,
        stream,
    };
    run.compare()
}

/// The program prints evidence that the checking program accepts.
#[track_caller]
fn is_proved(lists: &str) {
    let (_, outcome) = compare("by hand", lists.as_bytes());
    assert_eq!(outcome, ACCEPTED, "{lists:?}");
}

/// The program prints this line.
#[track_caller]
fn prints(stream: &str, line: &str) {
    compare("by hand", stream.as_bytes());
    let printed = printed(programs::run(PROGRAM, stream.as_bytes()));
    assert_eq!(printed, format!("{line}\n"), "{stream:?}");
}

/// The lists of P1, and the proof behind them is none of theirs.
#[test]
fn sample_p1() {
    is_proved(LISTS);
    prints(&bench(&PROOF), "210300000600000000");
}

#[test]
fn samples_p11_and_p12() {
    let and = ["0200020004", "040006"];
    is_proved(&over_two_inputs(&and, &["0200040002", "040006"]));
    let xor = ["0300020004", "040006"];
    let complemented = ["0300020004", "040007"];
    let not_a = ["0300030004", "040006"];
    is_proved(&over_two_inputs(&not_a, &complemented));
    prints(&over_two_inputs(&not_a, &xor), "211200000100000000");
    let ands = ["0200020005", "0200030004", "0200070009", "04000B"];
    prints(&over_two_inputs(&ands, &xor), "211200000100000000");
    prints(&over_two_inputs(&xor, &ands), "211200000100000000");
    is_proved(&over_two_inputs(&ands, &ands));
}

/// The line of a refusal is that of the text, and for 18 it is the output.
#[test]
fn faults_by_hand() {
    prints("", "210400000100000000");
    prints("0101000001\n040002\n", "210400000300000000");
    prints("0101000001\n040002\n010100000", "210200000300000000");
    prints("0101000001\n040002\n0102000001\n", "210600000300000000");
    let wires = |last: &str| format!("0101000040\n{}{last}\n", "040002\n".repeat(63));
    let lists = wires("040002") + &wires("040003");
    prints(&lists, "211200004000000000");
    prints(&(lists + "\n"), "210300008300000000");
}

/// Each pair of sample lists. Both layouts of the guard have the same forms.
#[test]
fn sample_lists_are_proved_alike() {
    let mut tally = Tally::default();
    for (about, text, alike) in samples::pairs() {
        let (_, outcome) = compare(&about, &text);
        assert_eq!(outcome, if alike { ACCEPTED } else { "6" }, "{about}");
        tally.count(outcome);
    }
    let wanted = [ACCEPTED, "6"].map(String::from);
    tally.finish("pairs of sample lists", 9, &wanted);
}

/// Random pairs of small lists; where the reply was known in advance, it is that.
#[test]
fn pairs_are_proved_alike() {
    let mut tally = Tally::default();
    for case in 0..PAIRS {
        let (pair, _) = rewrites::small(case);
        tally.count(compare_pair(case, &pair));
    }
    let wanted = [ACCEPTED, "18"].map(String::from);
    tally.finish("pairs for the program", PAIRS, &wanted);
    tally.often("pairs for the program", PAIRS / 10, &wanted);
}

/// Compares on a pair, and gives the outcome.
fn compare_pair(case: u64, pair: &Pair) -> String {
    let (about, stream) = (pair.about, &pair.text());
    let run = Run {
        case,
        about,
        stream,
    };
    let (reply, outcome) = run.compare();
    if pair.expected.is_some_and(|known| known != reply[..2]) {
        run.fails(&format!("{reply:?} and not {:?}", pair.expected));
    }
    outcome
}

/// Texts of lists of any size, most of which are damaged.
#[test]
fn texts_are_refused_alike() {
    let mut tally = Tally::default();
    for case in 0..LIST_CASES {
        let (about, stream) = list_texts::any(&mut Random::of_case(seed(), case), 2);
        let run = Run {
            case,
            about: &about,
            stream: &stream,
        };
        tally.count(run.compare().1);
    }
    let often = [outcomes(&[2, 3, 4, 5, 6, 7, 18]), vec![ACCEPTED.into()]].concat();
    let large = [TOO_LONG, LARGE_MITER, MANY_CLAUSES].map(String::from);
    let possible = [often.clone(), large.into()].concat();
    tally.finish_within("list texts for the program", LIST_CASES, &often, &possible);
}

/// Pairs of many gates with 64 outputs: rewritten, and with outputs complemented. The evidence of
/// most is more than the checking program has room for.
#[test]
fn large_pairs_are_proved_alike() {
    let mut tally = Tally::default();
    for case in 0..LARGE_CASES {
        let mut random = Random::of_case(seed(), case);
        let gates = [300, 600, 1_000, LARGEST.gates][case as usize % 4];
        let mut pair = rewrites::large(&mut random, gates);
        tally.count(compare_pair(case, &pair));
        pair.complement_outputs(&mut random);
        tally.count(compare_pair(case, &pair));
    }
    let often = [TOO_LONG, "18"].map(String::from);
    let others = [ACCEPTED, LARGE_MITER, MANY_CLAUSES].map(String::from);
    let possible = [&often[..], &others].concat();
    let cases = 2 * LARGE_CASES;
    tally.finish_within("large pairs for the program", cases, &often, &possible);
}

/// The longest evidence is printed whole.
#[test]
fn long_proofs_are_printed_whole() {
    for kind in ["02", "03"] {
        let lists = list_texts::linked(kind);
        let (reply, outcome) = compare(kind, lists.as_bytes());
        assert_eq!((reply[0], outcome.as_str()), (0, TOO_LONG));
        assert!(reply[2] > 10_000, "only {} lines", reply[2]);
    }
}

/// A stream is read to its last byte, and one of more than 65,536 bytes is 1 whatever it says.
#[test]
fn long_streams_are_reported_alike() {
    let mut tally = Tally::default();
    let [and, xor] = ["02", "03"].map(list_texts::linked);
    for excess in [-1, 0, 1, 2, 65_536, 65_537, 5_000_000] {
        let length = STREAM_BYTES.checked_add_signed(excess).expect("it is long");
        let lists = and.repeat(1 + length / and.len());
        let line = [xor.as_bytes(), &digits(length - xor.len(), "\n")].concat();
        let streams = [
            ("a line of digits", digits(length, "\n")),
            ("no LF", digits(length, "0")),
            ("a bad byte at the end", digits(length, "G\n")),
            ("lists again and again", lists.as_bytes()[..length].to_vec()),
            ("lists and a line of digits", line),
            ("no digits", vec![0xFF; length]),
            ("empty lines", vec![b'\n'; length]),
        ];
        for (about, stream) in streams {
            assert_eq!(stream.len(), length);
            let (reply, outcome) = compare(about, &stream);
            let is_long = length > STREAM_BYTES;
            assert_eq!(reply[0] == 1, is_long, "{about}, {length} bytes");
            tally.count(outcome);
        }
    }
    tally.finish("long streams to prove", 49, &outcomes(&[1, 2, 3]));
}

/// Two lists that agree, cut at every byte.
#[test]
fn every_cut_is_reported_alike() {
    let mut tally = Tally::default();
    let lists = over_two_inputs(&["0300030004", "040006"], &["0300020004", "040007"]);
    for length in 0..=lists.len() {
        let (_, outcome) = compare("cut", &lists.as_bytes()[..length]);
        tally.count(outcome);
    }
    let wanted = [outcomes(&[2, 4]), vec![ACCEPTED.into()]].concat();
    tally.finish("cuts", lists.len() as u64 + 1, &wanted);
}

/// Standard input that comes in pieces, and one that is a file.
#[test]
fn pieces_and_files_are_read_whole() {
    let mut tally = Tally::default();
    let guards = [samples::GUARD_OLD, samples::GUARD_NEW].map(samples::text);
    let streams = [
        (LISTS.as_bytes().to_vec(), 1),
        (guards.concat(), 17),
        (list_texts::linked("03").into_bytes(), 4_095),
        (digits(STREAM_BYTES, "\n"), 4_097),
        (digits(STREAM_BYTES + 1, "\n"), 10_923),
    ];
    for (case, (stream, length)) in (0..).zip(streams) {
        let about = "in pieces, and a file";
        let run = Run {
            case,
            about,
            stream: &stream,
        };
        let pieces = programs::run_in_pieces(PROGRAM, &stream, length);
        let (_, outcome) = run.compare_run(pieces);
        let from_file = programs::run_on_file(PROGRAM, &file(case), &stream);
        assert_eq!(run.compare_run(from_file).1, outcome);
        tally.count(outcome);
    }
    let wanted = [ACCEPTED, TOO_LONG, "1", "3"].map(String::from);
    tally.finish("pieces and files to prove", 5, &wanted);
}

/// A file in the tests' own folder.
fn file(case: u64) -> PathBuf {
    Path::new(env!("CARGO_TARGET_TMPDIR")).join(format!("{PROGRAM}-stream-{case}"))
}

#[test]
fn unreadable_standard_input_has_no_evidence() {
    programs::is_unread(PROGRAM, programs::folder());
    let only_written = programs::only_written(&file(99), LISTS.as_bytes());
    programs::is_unread(PROGRAM, only_written);
}

/// Two whole lists come, and then a reset and no end.
#[test]
fn a_stream_that_breaks_off_has_no_evidence() {
    programs::is_unread(PROGRAM, programs::broken_off(LISTS.as_bytes()));
}

/// On a full disk there is a message, for a proof and for a refusal.
#[test]
fn unwritten_standard_output_is_told() {
    let long = list_texts::linked("03");
    for stream in [LISTS, &long, ""] {
        programs::is_unwritten(PROGRAM, stream.as_bytes());
    }
}

/// Output that ends within the lists, within the proof, or one block before the proof's end is the
/// evidence as far as there was room, and a message.
#[test]
fn output_that_is_cut_off_is_told() {
    let stream = list_texts::linked("03").into_bytes();
    let (_, evidence) = wanted(&stream);
    let whole = evidence.len() / BLOCK;
    for blocks in [1, stream.len() / BLOCK, whole / 2, whole] {
        let output = file(100);
        let ended = programs::run_cut_off(PROGRAM, &stream, &output, blocks);
        programs::only_complains_of_output(PROGRAM, ended);
        let written = fs::read(output).expect("it was written");
        assert_eq!(hex(&written), hex(&evidence[..BLOCK * blocks]));
    }
    let ended = programs::run_cut_off(PROGRAM, &stream, &file(100), whole + 1);
    assert_eq!(printed(ended), "");
    assert_eq!(fs::read(file(100)).expect("it was written"), evidence);
}
