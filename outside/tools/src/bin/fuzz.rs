//! Compares the archive with the reference on many mutated texts, and prints how many there were of
//! each reply. On a disagreement the status is 1, and the text is printed.

use std::env;
use std::process::ExitCode;
use std::time::Instant;

use cec_tools::fuzz;

const USAGE: &str = "usage: fuzz TEXTS [SEED [FIRST]]
Compares the archive with the Rust reference on TEXTS texts made from SEED, from case FIRST on.
SEED is decimal, or hexadecimal behind 0x. One case again: fuzz 1 SEED CASE.";

/// The seed and the first case, if none are named.
const SEED: u64 = 1;
const FIRST: u64 = 0;

fn number(argument: &str) -> Option<u64> {
    match argument.strip_prefix("0x") {
        Some(digits) => u64::from_str_radix(digits, 16).ok(),
        None => argument.parse().ok(),
    }
}

/// The texts, the seed and the first case.
fn numbers() -> Option<[u64; 3]> {
    let numbers: Option<Vec<u64>> = env::args().skip(1).map(|text| number(&text)).collect();
    match *numbers? {
        [texts] => Some([texts, SEED, FIRST]),
        [texts, seed] => Some([texts, seed, FIRST]),
        [texts, seed, first] => Some([texts, seed, first]),
        _ => None,
    }
}

fn main() -> ExitCode {
    let Some([texts, seed, first]) = numbers() else {
        eprintln!("{USAGE}");
        return ExitCode::FAILURE;
    };
    let start = Instant::now();
    match fuzz::run(seed, first, texts) {
        Ok(tally) => {
            let seconds = start.elapsed().as_secs_f64();
            println!("{texts} texts, seed {seed:#X}, from case {first}: {seconds:.1} s\n");
            println!("{tally}");
            ExitCode::SUCCESS
        }
        Err(disagreement) => {
            eprintln!("{disagreement}");
            ExitCode::FAILURE
        }
    }
}
