//! How long the command `cec` takes, beside the programs that it runs. Alone in its file, so that no
//! other test runs at the same time.

mod cec;
mod common;

use std::path::Path;
use std::process::{Command, Stdio};
use std::time::{Duration, Instant};

use cec::{root, sample};
use common::samples::{GUARD_NEW, GUARD_OLD};

/// What a run may take on an idle machine.
const LIMIT: Duration = Duration::from_millis(8);

/// On a machine that is slow to start programs, so many times what the programs alone take.
const TIMES: u32 = 5;

const RUNS: usize = 61;

/// The least of a quarter of the runs: what else the machine did is in the others.
fn quarter(mut run: impl FnMut()) -> Duration {
    let mut times: Vec<_> = (0..RUNS)
        .map(|_| {
            let begun = Instant::now();
            run();
            begun.elapsed()
        })
        .collect();
    times.sort();
    times[RUNS / 4]
}

fn start(program: &Path, words: &[&str]) {
    let mut command = Command::new(program);
    let command = command.args(words).stdin(Stdio::null());
    let ended = command.stdout(Stdio::null()).status();
    ended.expect("the program runs");
}

#[test]
fn a_run_takes_little_more_than_its_programs() {
    let [old, new] = [GUARD_OLD, GUARD_NEW].map(sample);
    let root = root();
    let commands: [(&[&str], &[&str]); 3] = [
        (
            &["prove", &old, &new],
            &["cec_list", "cec_list", "cec_prove", "cec_check"],
        ),
        (&["check", &old], &["cec_check"]),
        (&["list", &old], &["cec_list"]),
    ];
    for (words, programs) in commands {
        let taken = quarter(|| start(&root.join("cec"), words));
        let alone = quarter(|| {
            for program in programs {
                start(&root.join("target/bin").join(program), &[]);
            }
        });
        println!("{words:?}: {taken:?}, its programs alone {alone:?}");
        let most = LIMIT.max(alone * TIMES);
        assert!(taken <= most, "{words:?}: {taken:?}, at most {most:?}");
    }
}
