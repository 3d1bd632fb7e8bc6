//! Runs the program `fuzz` on a few texts, and `bench` with wrong arguments: what they print, and
//! their exit status.

use std::process::Command;

/// Exit status, standard output and standard error.
fn run(program: &str, arguments: &[&str]) -> (Option<i32>, String, String) {
    let ended = Command::new(program).args(arguments).output();
    let ended = ended.expect("the program runs");
    let text = |bytes| String::from_utf8(bytes).expect("the output is text");
    (ended.status.code(), text(ended.stdout), text(ended.stderr))
}

/// The table behind the first line, which has the time.
fn tally(arguments: &[&str]) -> String {
    let (status, printed, errors) = run(env!("CARGO_BIN_EXE_fuzz"), arguments);
    assert_eq!((status, errors.as_str()), (Some(0), ""), "{arguments:?}");
    let (_, tally) = printed.split_once('\n').expect("there is a table");
    tally.into()
}

#[test]
fn a_seed_gives_the_same_texts_again() {
    let once = tally(&["2000", "0xA"]);
    assert_eq!(tally(&["2000", "10"]), once);
    assert_eq!(tally(&["2000", "10", "0"]), once);
    assert_ne!(tally(&["2000", "11"]), once);
    assert_ne!(tally(&["2000", "10", "2000"]), once);
}

#[test]
fn replies_that_were_not_seen_are_named() {
    let none = tally(&["0"]);
    assert!(none.contains("Not reached: check 0, check 2,"), "{none}");
    let case = tally(&["1", "1", "7"]);
    assert!(case.contains("| texts | "), "{case}");
}

#[test]
fn other_arguments_are_answered_by_usage() {
    let fuzz = env!("CARGO_BIN_EXE_fuzz");
    for arguments in [
        &[][..],
        &["x"],
        &["-1"],
        &["1", "0xG"],
        &["1", "2", "3", "4"],
    ] {
        let (status, printed, errors) = run(fuzz, arguments);
        assert_eq!((status, printed.as_str()), (Some(1), ""), "{arguments:?}");
        assert!(errors.starts_with("usage: fuzz "), "{errors}");
    }
    let bench = env!("CARGO_BIN_EXE_bench");
    for arguments in [&["x"][..], &["check", "prove"]] {
        let (status, printed, errors) = run(bench, arguments);
        assert_eq!((status, printed.as_str()), (Some(1), ""), "{arguments:?}");
        assert!(errors.starts_with("usage: bench "), "{errors}");
    }
}
