//! A second checking program, for houses without the Rattle toolchain. It prints for its standard
//! input the line that `cec_check` prints, or with `--large` the line of `cec_check_large`. Unlike
//! theirs, its exit status says the verdict.
//!
//! Of a stream that is closed it knows nothing: Rust opens `/dev/null` in its place, so that such an
//! input is empty, and such an output takes the line.

#![forbid(unsafe_code)]

use std::env;
use std::ffi::OsString;
use std::fmt;
use std::fs::File;
use std::io::{self, Read, Write};
use std::os::fd::AsFd;
use std::process::ExitCode;

use cec_reference::{report_within, Limits};

const USAGE: &str = "\
usage: reference_check [--large] < EVIDENCE
Checks standard input, two gate lists and a proof that they agree, and prints one report frame.
It takes 65,536 bytes and 4,096 clauses, and with --large 4,194,304 bytes and 65,535 clauses.
Exit status: 0 accepted, 1 refused, 2 no verdict, or none that was printed.
";

/// How the report on accepted evidence begins, and no other: kind 21, refusal 00.
const ACCEPTED: &[u8] = b"2100";

/// The exit statuses but 0.
const REFUSED: u8 = 1;
const NO_VERDICT: u8 = 2;

/// Why there is no verdict, or none that was printed.
enum Fault {
    Arguments,
    Input(io::Error),
    Output(io::Error),
}

impl fmt::Display for Fault {
    fn fmt(&self, out: &mut fmt::Formatter<'_>) -> fmt::Result {
        match self {
            Self::Arguments => write!(out, "no argument is understood but one --large or --help"),
            Self::Input(error) => write!(out, "standard input was not read to its end: {error}"),
            Self::Output(error) => {
                write!(out, "standard output was not written to its end: {error}")
            }
        }
    }
}

/// A standard stream as a plain file. `Stdin` reads ahead of what is asked for, and it and `Stdout`
/// keep to themselves that a stream was not opened to be read or written.
fn plain(stream: impl AsFd) -> io::Result<File> {
    stream.as_fd().try_clone_to_owned().map(File::from)
}

/// Standard input to its end, or one byte more than the limit, which tells that it is too long.
fn read(limit: usize) -> io::Result<Vec<u8>> {
    let mut text = Vec::new();
    let mut input = plain(io::stdin())?.take(limit as u64 + 1);
    input.read_to_end(&mut text)?;
    Ok(text)
}

fn print(text: &[u8]) -> Result<(), Fault> {
    let written = plain(io::stdout()).and_then(|mut output| output.write_all(text));
    written.map_err(Fault::Output)
}

fn check(limits: Limits) -> Result<ExitCode, Fault> {
    let text = read(limits.bytes).map_err(Fault::Input)?;
    let report = report_within(&text, limits);
    print(&report)?;
    Ok(if report.starts_with(ACCEPTED) {
        ExitCode::SUCCESS
    } else {
        REFUSED.into()
    })
}

fn run(arguments: &[OsString]) -> Result<ExitCode, Fault> {
    match arguments {
        [] => check(Limits::USUAL),
        [option] if option == "--large" => check(Limits::LARGE),
        [option] if option == "--help" => print(USAGE.as_bytes()).map(|()| ExitCode::SUCCESS),
        _ => Err(Fault::Arguments),
    }
}

fn main() -> ExitCode {
    let arguments: Vec<OsString> = env::args_os().skip(1).collect();
    run(&arguments).unwrap_or_else(|fault| {
        // Where standard error takes nothing either, the status alone says it.
        let _ = writeln!(io::stderr(), "reference_check: {fault}");
        NO_VERDICT.into()
    })
}
