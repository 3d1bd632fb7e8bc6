//! The program `reference_check` with `--large` beside the proved program `cec_check_large`: on the
//! same streams it prints the same bytes, and its exit status is as the printed line says.

// Programs are run, and texts made, as for the archive.
#[path = "../../archive/tests/common/mod.rs"]
mod common;

use common::programs::{self, printed, Call};
use common::trials::{self, Trial};
use common::{checking, large_texts};

/// The clauses of the store.
const CLAUSES: usize = 65_535;

const TRIAL: Trial = Trial {
    call: Call {
        program: env!("CARGO_BIN_EXE_reference_check"),
        arguments: &["--large"],
    },
    due: |stream| printed(programs::run("cec_check_large", stream)),
    status: trials::verdict,
    bytes: 4_194_304,
    files: concat!(env!("CARGO_TARGET_TMPDIR"), "/reference_check-large-stream"),
};

/// The same program beside the usual one.
const BESIDE_USUAL: Trial = Trial {
    due: |stream| printed(programs::run("cec_check", stream)),
    ..TRIAL
};

#[test]
fn samples_p1_to_p5() {
    checking::samples_p1_to_p5(&TRIAL);
}

/// P6 for the program: no store holds more clauses.
#[test]
fn repeated_lines_are_reported_alike() {
    large_texts::repeated_lines(&TRIAL);
}

#[test]
fn large_miters_are_reported_alike() {
    large_texts::large_miters(&TRIAL);
}

#[test]
fn variables_end_alike() {
    large_texts::variables_end(&TRIAL);
}

#[test]
fn long_evidence_is_reported_alike() {
    large_texts::long_evidence(&TRIAL);
}

#[test]
fn long_streams_are_reported_alike() {
    checking::long_streams(&TRIAL, &[-1, 0, 1, 4_194_304]);
}

#[test]
fn broken_streams_are_reported_alike() {
    checking::broken_streams(&TRIAL);
}

#[test]
fn evidence_of_the_samples_is_reported_alike() {
    checking::sample_evidence(&TRIAL);
}

#[test]
fn random_texts_are_reported_alike() {
    checking::random_texts(&TRIAL, CLAUSES, 3);
}

#[test]
fn texts_within_the_usual_limits_have_the_usual_line() {
    checking::same_within_less_room(&BESIDE_USUAL);
}

#[test]
fn pieces_and_files_are_read_whole() {
    checking::pieces_and_files(&TRIAL, CLAUSES);
}
