//! The command `cec` and the programs that it runs: built on first use and where a source is newer,
//! with what is being proved shown, found through links, and ended with it.

mod cec;
mod common;

use std::env;
use std::fs;
use std::os::unix::fs::symlink;
use std::path::Path;
use std::process::{Command, Stdio};
use std::thread;
use std::time::Duration;

use cec::{ends_with_its_command, Folder, ACCEPTED};
use cec::{fails, folder, root, run_of, said, sample, stand_ins};
use common::samples::ADDER;

const SENTENCE: &str = "accepted: both lists agree on every pattern (4 proof lines, 13 clauses)\n";

/// A stand-in for `rt` that builds a checker in the crate's folder; `before` comes first.
fn builder(before: &str) -> String {
    let program = "printf '#!/bin/sh\\necho 21000000000004000D\\n' >\"$file\"\nchmod +x \"$file\"";
    let file = "mkdir -p out\nfile=out/${PWD##*/}";
    format!("echo much of it >&2\n{before}\n{file}\n{program}")
}

/// Standard error of a check by this root's command, which is accepted.
fn errors_of(root: &Path) -> String {
    let (status, printed, errors) = run_of(root, root, &["check", &sample(ADDER)]);
    assert_eq!((status, printed.as_str()), (Some(0), SENTENCE), "{errors}");
    errors
}

const FIRST: &str = "cec: proved and built first, which takes minutes: cec_check\n";

#[test]
fn a_program_is_built_on_its_first_use() {
    assert!(SENTENCE.starts_with(ACCEPTED));
    let root = stand_ins("build", &[("rt", &builder(""))]);
    assert_eq!(errors_of(&root), FIRST);
    assert_eq!(errors_of(&root), "");
    let root = stand_ins("no-build", &[("rt", "echo why >&2\nexit 1")]);
    let said = run_of(&root, &root, &["check", &sample(ADDER)]);
    fails(said, "why\ncec: not built: cec_check\n");
}

/// Code of any crate and a definition of `model` count; the program is built again once.
#[test]
fn a_program_that_is_older_than_a_source_is_built_again() {
    let root = stand_ins("stale", &[("rt", &builder(""))]);
    for folder in ["crates/frame/src", "crates/model/specs"] {
        fs::create_dir_all(root.join(folder)).expect("they are made");
    }
    fs::write(root.join("crates.txt"), "model:\ncec_check: model\n").expect("it is written");
    assert_eq!(errors_of(&root), FIRST);
    let sources = [
        "crates.txt",
        "crates/frame/src/lib.rt",
        "crates/model/specs/Limits.antt",
    ];
    for source in sources {
        assert_eq!(errors_of(&root), "");
        // A file system need not tell two moments apart that are nearer than this.
        thread::sleep(Duration::from_millis(20));
        fs::write(root.join(source), "cec_check:\n").expect("it is written");
        let message = format!("cec: proved and built again, since {source} is newer: cec_check\n");
        assert_eq!(errors_of(&root), message);
    }
    assert_eq!(errors_of(&root), "");
    // A build that leaves the program as it was is not tried again either.
    thread::sleep(Duration::from_millis(20));
    fs::write(root.join("crates.txt"), "cec_check:\n").expect("it is written");
    fs::write(root.join("rt"), "#!/bin/sh\n").expect("it is written");
    assert!(errors_of(&root).contains("crates.txt"));
    assert_eq!(errors_of(&root), "");
}

/// A stand-in that takes its time over two crates, as `rt` does.
fn slow_builder() -> String {
    // Each crate takes long enough to be seen where the machine has other work.
    let first = "echo 'rt: chose --jobs 2 for model' >&2\nsleep 2";
    let second = "echo 'rt: chose --jobs 1 for cec_check' >&2\nsleep 2";
    builder(&format!("{first}\n{second}"))
}

fn slow_root(name: &str) -> Folder {
    let root = stand_ins(name, &[("rt", &slow_builder())]);
    let crates = "# all of them\nmodel:\nsets: model\ncec_check: model io\n";
    fs::write(root.join("crates.txt"), crates).expect("it is written");
    root
}

/// Which crate of how many that the program rests on; a line for each elsewhere than on a terminal.
#[test]
fn a_build_says_what_is_being_proved() {
    let root = slow_root("progress");
    let lines = "cec: proving crate 1 of 2: model\ncec: proving crate 2 of 2: cec_check\n";
    assert_eq!(errors_of(&root), format!("{FIRST}{lines}"));
    assert_eq!(errors_of(&root), "");
}

/// On a terminal one line that moves, and is gone in the end.
#[test]
fn a_build_on_a_terminal_has_one_line() {
    let root = slow_root("terminal");
    let words = format!("./cec check {}", sample(ADDER));
    let mut command = Command::new("script");
    let command = command
        .args(["-qec", &words, "/dev/null"])
        .current_dir(&root);
    let path = env::var("PATH").expect("there is a path");
    let command = command.env("PATH", format!("{}:{path}", root.display()));
    let (status, shown, _) = said(command.stdin(Stdio::null()));
    assert_eq!(status, Some(0), "{shown}");
    let moves = "\r\x1b[Kcec: proving crate 1 of 2: model\
        \r\x1b[Kcec: proving crate 2 of 2: cec_check\r\x1b[Kaccepted: ";
    assert!(shown.contains(moves), "{shown:?}");
}

#[test]
fn an_interrupted_build_leaves_no_builder() {
    let rt = "sleep 600 &\necho $! >begun\nmv begun ../../worker\nwait";
    ends_with_its_command(&["check", &sample(ADDER)], || {
        stand_ins("interrupted", &[("rt", rt)])
    });
}

/// Through a link, a link to a link, and a relative one, from any folder.
#[test]
fn a_link_to_the_command_finds_the_programs() {
    let folder = folder("links");
    let cec = root().canonicalize().expect("it is there").join("cec");
    symlink(&cec, folder.join("whole")).expect("it is made");
    symlink("whole", folder.join("again")).expect("it is made");
    fs::create_dir(folder.join("sub")).expect("it is made");
    symlink("../again", folder.join("sub/up")).expect("it is made");
    let [gate, wire] = ["paper-gate", "paper-wire"].map(sample);
    for (link, place) in [
        ("whole", "."),
        ("again", "/"),
        ("sub/up", "."),
        ("sub/up", "/"),
    ] {
        let mut command = Command::new(folder.join(link));
        let command = command.args(["prove", &gate, &wire]);
        let said = said(command.current_dir(folder.join(place)));
        assert_eq!(said, (Some(0), SENTENCE.into(), String::new()), "{link}");
    }
    // By its name alone, found in the path.
    let mut command = Command::new("sh");
    let words = format!("again prove {gate} {wire}");
    let command = command.args(["-c", &words]).current_dir("/");
    let path = env::var("PATH").expect("there is a path");
    let command = command.env("PATH", format!("{}:{path}", folder.display()));
    assert_eq!(said(command), (Some(0), SENTENCE.into(), String::new()));
}

/// Nothing old stands in the place of a program that was not built, or that prints something other
/// than what is stored beside it.
#[test]
fn a_build_that_fails_leaves_no_program() {
    let wrong = format!("{}\necho 1", builder(""));
    let differs = "build: cec_check printed something other than crates/cec_check/stdout has\n";
    let cases = [
        ("left-unbuilt", "exit 1", ""),
        ("left-wrong", &wrong, differs),
    ];
    for (name, rt, message) in cases {
        let root = stand_ins(name, &[("target/bin/cec_check", "echo old"), ("rt", rt)]);
        let path = env::var("PATH").expect("there is a path");
        let mut command = Command::new(root.join("tools/build"));
        let command = command.arg("cec_check").stdin(Stdio::null());
        let command = command.env("PATH", format!("{}:{path}", root.display()));
        let (status, _, errors) = said(command);
        assert_eq!(status, Some(1), "{errors}");
        assert!(errors.ends_with(message), "{errors}");
        assert!(!root.join("target/bin/cec_check").exists(), "{name}");
    }
}

/// All programs that a command runs are built at once.
#[test]
fn programs_are_built_together() {
    let build = "printf '%s ' \"$@\" >asked\nexit 1";
    let root = stand_ins("together", &[("tools/build", build)]);
    let adder = sample(ADDER);
    let said = run_of(&root, &root, &["prove", &adder, &adder]);
    let programs = "cec_list cec_prove cec_check";
    fails(
        said,
        &format!("takes minutes: {programs}\ncec: not built: {programs}\n"),
    );
    let asked = fs::read_to_string(root.join("asked")).expect("it is there");
    assert_eq!(asked, format!("{programs} "));
}
