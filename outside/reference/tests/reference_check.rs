//! The program `reference_check` beside the proved program `cec_check`: on the same streams it prints
//! the same bytes, and its exit status is as the printed line says. And what it does where it cannot
//! give a verdict, with and without `--large`.

// Programs are run, and texts made, as for the archive.
#[path = "../../archive/tests/common/mod.rs"]
mod common;

use std::fs::{self, File};
use std::io::Seek;

use cec_reference::sample::PROOF;
use common::checking;
use common::programs::{self, printed, Call, Ended};
use common::proof_texts::bench;
use common::texts::digits;
use common::trials::{self, Trial};

const PROGRAM: &str = env!("CARGO_BIN_EXE_reference_check");

/// The clauses of the store.
const CLAUSES: usize = 4_096;

const TRIAL: Trial = Trial {
    call: call(&[]),
    due: |stream| printed(programs::run("cec_check", stream)),
    status: trials::verdict,
    bytes: 65_536,
    files: concat!(env!("CARGO_TARGET_TMPDIR"), "/reference_check-stream"),
};

/// Both ways to check, and the bytes of the longest stream.
const CHECKS: [(Call, usize); 2] = [(call(&[]), 65_536), (call(&["--large"]), 4_194_304)];

const fn call<'words>(arguments: &'words [&'words str]) -> Call<'words> {
    let program = PROGRAM;
    Call { program, arguments }
}

#[test]
fn samples_p1_to_p5() {
    checking::samples_p1_to_p5(&TRIAL);
}

#[test]
fn sample_p6_with_the_programs_store() {
    checking::usual_store(&TRIAL);
}

#[test]
fn long_streams_are_reported_alike() {
    checking::long_streams(&TRIAL, &[-2, -1, 0, 1, 2, 65_536, 5_000_000]);
}

#[test]
fn broken_streams_are_reported_alike() {
    checking::broken_streams(&TRIAL);
}

#[test]
fn evidence_of_the_samples_is_reported_alike() {
    checking::sample_evidence(&TRIAL);
}

#[test]
fn random_texts_are_reported_alike() {
    checking::random_texts(&TRIAL, CLAUSES, 3);
}

#[test]
fn pieces_and_files_are_read_whole() {
    checking::pieces_and_files(&TRIAL, CLAUSES);
}

/// Of a file that is too long, one byte more than the limit is read; and a stream without end has
/// its answer.
#[test]
fn no_more_is_read_than_tells_that_it_is_too_long() {
    for (case, (call, bytes)) in (0..).zip(CHECKS) {
        let file = TRIAL.file(100 + case);
        fs::write(&file, digits(bytes + 10_000, "\n")).expect("the file is written");
        let mut file = File::open(file).expect("the file is there");
        // The program's standard input is the same open file, and has the same place in it.
        let input = file.try_clone().expect("it is opened once more");
        is_too_long(programs::run_on(call, input.into()));
        let place = file.stream_position().expect("a file has a place");
        assert_eq!(place, bytes as u64 + 1);
        let endless = File::open("/dev/zero").expect("the system has it");
        is_too_long(programs::run_on(call, endless.into()));
    }
}

#[track_caller]
fn is_too_long(ended: Ended) {
    let printed = String::from_utf8_lossy(&ended.printed);
    assert_eq!((ended.status, &*printed), (Some(1), "210100000000000000\n"));
}

/// Status 2, no line, and a message that begins so.
#[track_caller]
fn fails(ended: Ended, message: &str) {
    let [printed, errors] =
        [&ended.printed, &ended.errors].map(|said| String::from_utf8_lossy(said));
    assert_eq!((ended.status, &*printed), (Some(2), ""), "{errors}");
    let start = format!("reference_check: {message}");
    assert!(
        errors.starts_with(&start) && errors.ends_with('\n'),
        "{errors}"
    );
    assert_eq!(errors.lines().count(), 1, "{errors}");
}

/// The whole bench sample comes, but not the stream's end.
#[test]
fn unreadable_standard_input_has_no_verdict() {
    for (call, _) in CHECKS {
        for input in programs::unreadable(&TRIAL.file(99), bench(&PROOF).as_bytes()) {
            let ended = programs::run_on(call, input);
            fails(ended, "standard input was not read to its end");
        }
    }
}

/// A verdict of each sort, and the usage, for which standard output has no room, no reader or no
/// right.
#[test]
fn unwritten_standard_output_has_no_verdict() {
    let sorts = [programs::full, programs::unread_output, programs::only_read];
    for arguments in [&[][..], &["--large"], &["--help"]] {
        for text in [bench(&PROOF).as_bytes(), b""] {
            for output in sorts {
                let ended = programs::run_to(call(arguments), text, output());
                fails(ended, "standard output was not written to its end");
            }
        }
    }
}

#[test]
fn other_arguments_have_no_verdict() {
    let wrong: [&[&str]; 8] = [
        &[""],
        &["-"],
        &["-h"],
        &["large"],
        &["--larger"],
        &["--large", "--large"],
        &["--large", "--help"],
        &["--large", "evidence.txt"],
    ];
    for arguments in wrong {
        let ended = programs::run(call(arguments), bench(&PROOF).as_bytes());
        fails(ended, "no argument is understood but");
    }
}

#[test]
fn help_is_printed() {
    let usage = printed(programs::run_on(call(&["--help"]), programs::folder()));
    assert!(usage.starts_with("usage: reference_check "), "{usage}");
}
