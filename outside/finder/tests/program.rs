//! The program `finder`: evidence with status 0, one line with status 1, and with status 2 a
//! message alone. What it refuses, it refuses by the line that the proved program `cec_prove`
//! prints.

// Programs are run, and texts made, as for the archive.
#[path = "../../archive/tests/common/mod.rs"]
mod common;

use std::fs::File;
use std::process::{Command, Stdio};

use cec_reference::sample::LISTS;
use cec_reference::{evaluate, read_lists, report};
use common::expected::refused;
use common::list_texts;
use common::programs::{self, printed, Call, Ended};
use common::random::{seed, Random};
use common::samples;
use common::sums::{self, Sum};
use common::tally::{outcomes, Tally};
use common::trials::{self, Trial};

const PROGRAM: &str = env!("CARGO_BIN_EXE_finder");

/// The most bytes of a stream.
const BYTES: usize = 65_536;

const TRIAL: Trial = Trial {
    call: call(&[]),
    due: |stream| printed(programs::run("cec_prove", stream)),
    status: trials::verdict,
    bytes: BYTES,
    files: concat!(env!("CARGO_TARGET_TMPDIR"), "/finder-stream"),
};

/// How many damaged texts there are.
const DAMAGED: u64 = 300;

const fn call<'words>(arguments: &'words [&'words str]) -> Call<'words> {
    let program = PROGRAM;
    Call { program, arguments }
}

/// What a run says, in which form it has to stand.
#[derive(Debug, PartialEq, Eq)]
enum Said {
    Evidence,
    Differs { pattern: u64, words: [u64; 2] },
    NoProof,
    Refused(String),
}

/// The status and the whole output fit each other, and there is no message.
#[track_caller]
fn said(stream: &[u8], ended: &Ended) -> Said {
    let [output, errors] =
        [&ended.printed, &ended.errors].map(|text| String::from_utf8_lossy(text));
    assert_eq!(errors, "", "{:?}", ended.status);
    if output.as_bytes().starts_with(stream) && !stream.is_empty() {
        assert_eq!(ended.status, Some(0));
        return Said::Evidence;
    }
    assert_eq!(ended.status, Some(1), "{output}");
    let line = output.strip_suffix('\n').expect("a line ends in LF");
    assert_eq!(line.lines().count(), 1, "{output}");
    match line.split_once(": ") {
        Some(("differs", pattern)) => differs(pattern).expect("pattern P gives A and B"),
        Some(("no proof found", why)) if !why.is_empty() => Said::NoProof,
        _ => Said::Refused(output.into_owned()),
    }
}

/// `pattern P gives A and B`, each of 16 digits.
fn differs(line: &str) -> Option<Said> {
    let words: Vec<&str> = line.split(' ').collect();
    let &["pattern", pattern, "gives", left, "and", right] = words.as_slice() else {
        return None;
    };
    let number = |digits: &str| {
        let number = u64::from_str_radix(digits, 16).ok()?;
        (format!("{number:016X}") == digits).then_some(number)
    };
    Some(Said::Differs {
        pattern: number(pattern)?,
        words: [number(left)?, number(right)?],
    })
}

/// The run printed the stream with a proof behind it, which the reference accepts.
#[track_caller]
fn is_evidence(stream: &[u8], ended: &Ended) {
    assert_eq!(said(stream, ended), Said::Evidence);
    let report = report(&ended.printed);
    assert!(
        report.starts_with(b"2100"),
        "{}",
        String::from_utf8_lossy(&report)
    );
}

fn pair(samples: [&str; 2]) -> Vec<u8> {
    samples.map(samples::text).concat()
}

#[test]
fn evidence_is_printed_behind_the_lists() {
    let guards = pair([samples::GUARD_OLD, samples::GUARD_RESYNTHESISED]);
    for stream in [LISTS.as_bytes(), &guards] {
        let ended = programs::run(call(&[]), stream);
        is_evidence(stream, &ended);
        assert_eq!(programs::run(call(&[]), stream), ended);
    }
}

/// A pattern on which the evaluator gives these words.
#[test]
fn a_pattern_is_printed_with_both_words() {
    let lists = [samples::GUARD_OLD, samples::GUARD_ONE_PATTERN];
    let stream = pair(lists);
    let answer = said(&stream, &programs::run(call(&[]), &stream));
    let Said::Differs { pattern, words } = answer else {
        panic!("{answer:?}");
    };
    let told = lists.map(|list| evaluate(&samples::text(list), pattern, &mut [0; 2_000]));
    assert_eq!(told, words.map(Ok));
    assert_ne!(words[0], words[1]);
}

/// What is asked for changes the effort, and not the form of the answer.
#[test]
fn options_are_taken_in_any_order() {
    let stream = pair([samples::GUARD_OLD, samples::GUARD_RESYNTHESISED]);
    let plain = programs::run(call(&[]), &stream);
    is_evidence(&stream, &plain);
    for arguments in [
        &["--seconds", "20"][..],
        &["--clauses", "4096", "--bytes", "65536"],
        &["--bytes", "65536", "--seconds", "20", "--clauses", "4096"],
    ] {
        let ended = programs::run(call(arguments), &stream);
        assert_eq!(ended, plain, "{arguments:?}");
    }
    for arguments in [&["--clauses", "1"][..], &["--bytes", "1"]] {
        let ended = programs::run(call(arguments), &stream);
        let answer = said(&stream, &ended);
        assert!(
            [Said::Evidence, Said::NoProof].contains(&answer),
            "{arguments:?}: {answer:?}"
        );
    }
}

/// Progress goes to standard error, and what is printed stays the same.
#[test]
fn progress_is_no_part_of_the_output() {
    let stream = pair([samples::GUARD_OLD, samples::GUARD_RESYNTHESISED]);
    let [plain, watched] =
        [&[][..], &["--progress"]].map(|words| programs::run(call(words), &stream));
    assert_eq!(watched.status, plain.status);
    assert!(watched.printed == plain.printed);
    assert!(plain.errors.is_empty());
}

/// A search that has hardly any time ends, with a proof or with the reason.
#[test]
fn no_time_is_answered_too() {
    let orders = sums::pairs(Sum::Ones(32));
    for pair in &orders[..1] {
        let stream = pair.text();
        let answer = said(&stream, &programs::run(call(&["--seconds", "1"]), &stream));
        assert!(
            [Said::Evidence, Said::NoProof].contains(&answer),
            "{answer:?}"
        );
    }
}

/// The same line as the proving program's, for each refusal of the reading.
#[test]
fn refusals_are_those_of_the_proving_program() {
    let mut tally = Tally::default();
    for case in 0..DAMAGED {
        let (about, stream) = list_texts::any(&mut Random::of_case(seed(), case), 2);
        let Err(refusal) = read_lists(&stream) else {
            continue;
        };
        let (number, line) = (refusal.number.into(), refusal.line);
        assert_eq!((TRIAL.due)(&stream), refused(number, line), "{about}");
        tally.count(TRIAL.compare(case, &about, &stream).to_string());
    }
    tally.finish("refused lists", DAMAGED / 3, &outcomes(&[2, 3, 4, 5, 6, 7]));
    TRIAL.prints("", "210400000100000000");
    TRIAL.prints("0101000001\n040002\n", "210400000300000000");
    TRIAL.prints("0101000001\n040002\n0102000001\n", "210600000300000000");
}

/// A stream is read to its last byte, and one of more than 65,536 bytes is 1 whatever it says.
#[test]
fn long_streams_are_refused_alike() {
    let excesses = [-1, 0, 1, 2, 65_536, 5_000_000];
    let tally = TRIAL.long_streams(&excesses, LISTS, "0200020002\n");
    tally.finish("long streams", 48, &outcomes(&[1, 2, 3]));
    let endless = File::open("/dev/zero").expect("the system has it");
    let ended = programs::run_on(call(&[]), endless.into());
    let line = said(b"", &ended);
    assert_eq!(line, Said::Refused(refused(1, 0)));
}

/// Input that comes byte by byte, and one that is a file.
#[test]
fn pieces_and_files_are_read_whole() {
    let whole = programs::run(call(&[]), LISTS.as_bytes());
    is_evidence(LISTS.as_bytes(), &whole);
    let pieces = programs::run_in_pieces(call(&[]), LISTS.as_bytes(), 1);
    let file = programs::run_on_file(call(&[]), &TRIAL.file(0), LISTS.as_bytes());
    assert_eq!([&pieces, &file], [&whole; 2]);
}

/// Status 2, nothing printed, and a message of the program's own.
#[track_caller]
fn only_complains(ended: &Ended, about: &str) {
    let [output, errors] =
        [&ended.printed, &ended.errors].map(|text| String::from_utf8_lossy(text));
    assert_eq!((ended.status, &*output), (Some(2), ""), "{about}: {errors}");
    let is_message = errors.starts_with("finder: ") || errors.starts_with("usage: finder");
    assert!(is_message && errors.ends_with('\n'), "{about}: {errors}");
}

#[test]
fn bad_usage_is_told() {
    for arguments in [
        &["--turns", "1"][..],
        &["lists.txt"],
        &["--seconds"],
        &["--seconds", "soon"],
        &["--seconds", "-1"],
        &["--seconds", "nan"],
        &["--clauses"],
        &["--clauses", "4,096"],
        &["--clauses", "-1"],
        &["--bytes", "1e3"],
        &["--bytes", ""],
        &["--progress", "now"],
        &[""],
    ] {
        let ended = programs::run(call(arguments), LISTS.as_bytes());
        only_complains(&ended, &format!("{arguments:?}"));
    }
}

/// A folder, and a stream on which the whole pair comes, but not the end.
#[test]
fn unreadable_standard_input_has_no_answer() {
    for input in [programs::folder(), programs::broken_off(LISTS.as_bytes())] {
        let ended = programs::run_on(call(&[]), input);
        only_complains(&ended, "unreadable standard input");
    }
}

/// Rust's own standard streams keep to themselves that they were not opened to be read or written.
#[test]
fn streams_without_the_right_are_told() {
    let input = programs::only_written(&TRIAL.file(99), LISTS.as_bytes());
    let ended = programs::run_on(call(&[]), input);
    only_complains(&ended, "standard input that is only open to write");
    let ended = programs::run_to(call(&[]), LISTS.as_bytes(), programs::only_read());
    only_complains(&ended, "standard output that is only open to be read");
}

/// Standard input that is closed has no lists: it is told so, or refused as a text without bytes,
/// since Rust opens what is closed.
#[test]
fn closed_standard_input_has_no_evidence() {
    let mut shell = Command::new("sh");
    let shell = shell.args(["-c", "exec \"$0\" <&-", PROGRAM]);
    let ended = shell.stdin(Stdio::null()).output().expect("it is run");
    let said = (ended.status.code(), String::from_utf8_lossy(&ended.stdout));
    let told = [(Some(1), refused(4, 1)), (Some(2), String::new())];
    assert!(
        told.contains(&(said.0, said.1.clone().into_owned())),
        "{said:?}"
    );
}

/// Evidence, a pattern and a refusal for which standard output has no room or no reader.
#[test]
fn unwritten_standard_output_is_told() {
    let unlike = pair([samples::GUARD_OLD, samples::GUARD_ONE_PATTERN]);
    for stream in [LISTS.as_bytes(), &unlike, b""] {
        for output in [programs::full, programs::unread_output] {
            let ended = programs::run_to(call(&[]), stream, output());
            only_complains(&ended, "standard output that is not written");
        }
    }
}
