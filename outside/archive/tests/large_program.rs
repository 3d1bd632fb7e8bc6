//! The built checking program with more room against the reference's report: every byte that it
//! prints. It is tried on what program.rs tries the usual one on (common/checking.rs), and on texts
//! that are too much for that one (common/large_texts.rs).

mod common;

use cec_reference::sample::PROOF;
use cec_reference::{report_within, Limits};
use common::programs::{self, printed, Call};
use common::proof_texts::bench;
use common::trials::{self, Trial};
use common::{checking, large_texts};

/// The clauses of the program's store.
const CLAUSES: usize = 65_535;

const TRIAL: Trial = Trial {
    call: Call {
        program: "cec_check_large",
        arguments: &[],
    },
    due: |stream| {
        let report = report_within(stream, Limits::LARGE);
        String::from_utf8(report).expect("a report is text")
    },
    status: trials::nothing,
    bytes: 4_194_304,
    files: concat!(env!("CARGO_TARGET_TMPDIR"), "/cec_check_large-stream"),
};

/// The same program beside the usual one.
const BESIDE_USUAL: Trial = Trial {
    due: |stream| printed(programs::run("cec_check", stream)),
    ..TRIAL
};

#[test]
fn samples_p1_to_p5() {
    checking::samples_p1_to_p5(&TRIAL);
}

/// P6 for the program: no store holds more clauses.
#[test]
fn repeated_lines_are_reported_alike() {
    large_texts::repeated_lines(&TRIAL);
}

#[test]
fn large_miters_are_reported_alike() {
    large_texts::large_miters(&TRIAL);
}

#[test]
fn variables_end_alike() {
    large_texts::variables_end(&TRIAL);
}

#[test]
fn long_evidence_is_reported_alike() {
    large_texts::long_evidence(&TRIAL);
}

#[test]
fn long_streams_are_reported_alike() {
    checking::long_streams(&TRIAL, &[-2, -1, 0, 1, 2, 4_194_304]);
}

#[test]
fn broken_streams_are_reported_alike() {
    checking::broken_streams(&TRIAL);
}

#[test]
fn evidence_of_the_samples_is_reported_alike() {
    checking::sample_evidence(&TRIAL);
}

#[test]
fn random_texts_are_reported_alike() {
    checking::random_texts(&TRIAL, CLAUSES, 2);
}

#[test]
fn texts_within_the_usual_limits_have_the_usual_line() {
    checking::same_within_less_room(&BESIDE_USUAL);
}

#[test]
fn pieces_and_files_are_read_whole() {
    checking::pieces_and_files(&TRIAL, CLAUSES);
}

/// The whole bench sample comes, but not the stream's end.
#[test]
fn unreadable_standard_input_has_no_report() {
    TRIAL.is_unread(bench(&PROOF).as_bytes());
}

/// On a full disk there is a message, for a verdict of each sort.
#[test]
fn unwritten_standard_output_is_told() {
    programs::is_unwritten(TRIAL.call, bench(&PROOF).as_bytes());
    programs::is_unwritten(TRIAL.call, b"");
}
