//! The built checking program against the reference's report: every byte that it prints. What it is
//! tried on stands in common/checking.rs, for large_program.rs too.

mod common;

use cec_reference::report;
use cec_reference::sample::PROOF;
use common::checking;
use common::programs::{self, Call};
use common::proof_texts::bench;
use common::trials::{self, Trial};

/// The clauses of the program's store.
const CLAUSES: usize = 4_096;

const TRIAL: Trial = Trial {
    call: Call {
        program: "cec_check",
        arguments: &[],
    },
    due: |stream| String::from_utf8(report(stream)).expect("a report is text"),
    status: trials::nothing,
    bytes: 65_536,
    files: concat!(env!("CARGO_TARGET_TMPDIR"), "/cec_check-stream"),
};

#[test]
fn samples_p1_to_p5() {
    checking::samples_p1_to_p5(&TRIAL);
}

#[test]
fn sample_p6_with_the_programs_store() {
    checking::usual_store(&TRIAL);
}

#[test]
fn long_streams_are_reported_alike() {
    let excesses = [-2, -1, 0, 1, 2, 3, 64_000, 65_536, 65_537, 5_000_000];
    checking::long_streams(&TRIAL, &excesses);
}

#[test]
fn broken_streams_are_reported_alike() {
    checking::broken_streams(&TRIAL);
}

#[test]
fn evidence_of_the_samples_is_reported_alike() {
    checking::sample_evidence(&TRIAL);
}

#[test]
fn random_texts_are_reported_alike() {
    checking::random_texts(&TRIAL, CLAUSES, 1);
}

#[test]
fn pieces_and_files_are_read_whole() {
    checking::pieces_and_files(&TRIAL, CLAUSES);
}

/// The whole bench sample comes, but not the stream's end.
#[test]
fn unreadable_standard_input_has_no_report() {
    TRIAL.is_unread(bench(&PROOF).as_bytes());
}

/// On a full disk there is a message, for a verdict of each sort.
#[test]
fn unwritten_standard_output_is_told() {
    programs::is_unwritten(TRIAL.call, bench(&PROOF).as_bytes());
    programs::is_unwritten(TRIAL.call, b"");
}
