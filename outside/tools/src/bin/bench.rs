//! Measures the archive beside the reference, and prints tables in Markdown.

use std::env;
use std::process::ExitCode;

use cec_tools::bench;

const USAGE: &str = "usage: bench [check | evaluate | prove | read]
Measures the archive beside the Rust reference and prints tables, of one call or of all.";

fn main() -> ExitCode {
    let arguments: Vec<String> = env::args().skip(1).collect();
    let printed = match arguments.as_slice() {
        [] => bench::run(None),
        [name] => bench::run(Some(name)),
        _ => false,
    };
    if printed {
        return ExitCode::SUCCESS;
    }
    eprintln!("{USAGE}");
    ExitCode::FAILURE
}
