//! The command `cec` and the finder: built by cargo on first use and where a source is newer, and
//! done without where that fails. One test has cargo at work, which leaves others little time.

mod cec;
mod common;

use std::env;
use std::fs;
use std::os::unix::fs::symlink;
use std::path::Path;
use std::process::Command;
use std::thread;
use std::time::Duration;

use cec::{becomes, command_of, ends_with_its_command, folder, put_stand_ins};
use cec::{root, run_of, said, sample, says, stand_ins, Folder};
use common::samples::{GUARD_OLD, GUARD_ONE_PATTERN};

/// The words for two lists on which the engine of `searching` has no proof.
const UNLIKE: [&str; 3] = ["prove", "one", "other"];

const OPEN: &str =
    "refused (18): output 1 of 1 is the first whose folded forms differ; the lists may \
    agree or not";

const NOTHING: &str =
    "not decided: neither a proof nor a pattern on which they differ was found (enough)";

const FINDER: &str = "outside/target/release/finder";

/// A root in which the engine leaves all to the finder, and this is `cargo`.
fn searching(name: &str, cargo: &str) -> Folder {
    let engine = "cat >/dev/null\necho 211200000100000000";
    let scripts = [
        ("target/bin/cec_list", becomes("cec_list")),
        ("target/bin/cec_check", becomes("cec_check")),
        ("target/bin/cec_eval", becomes("cec_eval")),
        ("target/bin/cec_prove", engine.into()),
        ("cargo", cargo.into()),
    ];
    let scripts = scripts
        .each_ref()
        .map(|(file, script)| (*file, script.as_str()));
    let root = stand_ins(name, &scripts);
    for folder in ["outside/finder/src/part", "outside/reference/src"] {
        fs::create_dir_all(root.join(folder)).expect("they are made");
    }
    for list in ["one", "other"] {
        fs::write(root.join(list), "0101000001\n040002\n").expect("it is written");
    }
    root
}

/// A stand-in for `cargo` that builds a finder that finds nothing, and writes down how it was called.
const CARGO: &str = "echo much of it\n\
    pwd >../place\necho \"$*\" >../words\nenv >../variables\n\
    mkdir -p target/release\n\
    printf '#!/bin/sh\\necho no proof found: enough\\nexit 1\\n' >target/release/finder\n\
    chmod +x target/release/finder";

const FINDER_FIRST: &str = "cec: the finder is built first, which takes about ten seconds\n";

/// Standard error of a search by this root's command, which finds nothing.
#[track_caller]
fn errors_of_search(root: &Path) -> String {
    let (status, printed, errors) = run_of(root, root, &UNLIKE);
    let nothing = format!("{NOTHING}\n");
    assert_eq!((status, printed), (Some(1), nothing), "{errors}");
    errors
}

#[test]
fn the_finder_is_built_on_its_first_use() {
    let root = searching("finder", CARGO);
    assert_eq!(errors_of_search(&root), FINDER_FIRST);
    assert_eq!(errors_of_search(&root), "");
    let written = |name: &str| fs::read_to_string(root.join(name)).expect("it is there");
    let words = "build --offline --release --package cec-finder --target-dir target\n";
    assert_eq!(written("words"), words);
    let place = root.canonicalize().expect("it is there").join("outside");
    assert_eq!(written("place").trim(), place.to_str().expect("it is text"));
}

/// Its own sources, those of the crate that it rests on, and what cargo reads; it is built again once.
#[test]
fn a_finder_that_is_older_than_a_source_is_built_again() {
    let root = searching("stale-finder", CARGO);
    assert_eq!(errors_of_search(&root), FINDER_FIRST);
    let sources = [
        "outside/Cargo.toml",
        "outside/Cargo.lock",
        "outside/finder/Cargo.toml",
        "outside/reference/Cargo.toml",
        "outside/finder/src/main.rs",
        "outside/finder/src/part/half.rs",
        "outside/reference/src/lib.rs",
    ];
    for source in sources {
        assert_eq!(errors_of_search(&root), "");
        // A file system need not tell two moments apart that are nearer than this.
        thread::sleep(Duration::from_millis(20));
        fs::write(root.join(source), "").expect("it is written");
        let message = format!(
            "cec: the finder is built again, since {source} is newer, which takes about ten seconds\n"
        );
        assert_eq!(errors_of_search(&root), message);
    }
    // What is in no finder does not count, and a build that leaves it as it was is not tried again.
    thread::sleep(Duration::from_millis(20));
    fs::write(root.join("outside/finder/README.md"), "").expect("it is written");
    assert_eq!(errors_of_search(&root), "");
    put_stand_ins(&root, &[("cargo", "exit 0")]);
    fs::write(root.join(sources[0]), "").expect("it is written");
    assert!(errors_of_search(&root).contains(sources[0]));
    assert_eq!(errors_of_search(&root), "");
}

/// The engine's own refusal stands, also where an older finder is there.
#[test]
fn without_cargo_the_engine_alone_is_asked() {
    let root = searching("no-cargo", CARGO);
    fs::remove_file(root.join("cargo")).expect("it is ours");
    let tools = folder("tools");
    let path = env::var("PATH").expect("there is a path");
    for tool in ["cat", "head", "mktemp", "rm", "setsid", "tail"] {
        let mut places = env::split_paths(&path).map(|place| place.join(tool));
        let place = places.find(|place| place.exists()).expect("it is there");
        symlink(place, tools.join(tool)).expect("it is made");
    }
    let without = || {
        let mut command = command_of(&root, &root, &UNLIKE);
        said(command.env("PATH", &*tools))
    };
    let message = "cec: cargo is not there to build the finder, so the engine alone is asked\n";
    let refused = (Some(1), format!("{OPEN}\n"), message.into());
    assert_eq!(without(), refused);
    put_stand_ins(&root, &[(FINDER, "echo no proof found: enough\nexit 1")]);
    says(without(), 1, NOTHING);
    thread::sleep(Duration::from_millis(20));
    fs::write(root.join("outside/finder/src/main.rs"), "").expect("it is written");
    assert_eq!(without(), refused);
}

/// What cargo says is shown, and then the engine's own refusal, also where an older finder is there.
#[test]
fn where_the_finder_is_not_built_the_engine_alone_is_asked() {
    let message = "cec: the finder is not built, so the engine alone is asked\n";
    let failing = "echo why\necho and where >&2\nexit 101";
    for (name, cargo, why) in [
        ("failing-cargo", failing, "why\nand where\n"),
        ("idle-cargo", "exit 0", ""),
    ] {
        let root = searching(name, cargo);
        let errors = format!("{FINDER_FIRST}{why}{message}");
        let said = run_of(&root, &root, &UNLIKE);
        assert_eq!(said, (Some(1), format!("{OPEN}\n"), errors));
    }
    let root = searching("failing-again", failing);
    put_stand_ins(&root, &[(FINDER, "echo no proof found: enough\nexit 1")]);
    thread::sleep(Duration::from_millis(20));
    fs::write(root.join("outside/Cargo.toml"), "").expect("it is written");
    for _ in 0..2 {
        let (status, printed, errors) = run_of(&root, &root, &UNLIKE);
        assert_eq!((status, printed), (Some(1), format!("{OPEN}\n")));
        assert!(
            errors.ends_with(&format!("why\nand where\n{message}")),
            "{errors}"
        );
    }
}

/// Variables that would have cargo build elsewhere, otherwise or not at all.
const MISLEADING: [(&str, &str); 9] = [
    ("CARGO_TARGET_DIR", "elsewhere"),
    ("CARGO_BUILD_TARGET_DIR", "elsewhere"),
    ("CARGO_BUILD_TARGET", "no-such-target"),
    ("CARGO_BUILD_RUSTC", "false"),
    ("CARGO_ENCODED_RUSTFLAGS", "--no-such-flag"),
    ("CARGO_PROFILE_RELEASE_OPT_LEVEL", "no-such-level"),
    ("RUSTFLAGS", "--no-such-flag"),
    ("RUSTC", "false"),
    ("RUSTC_WRAPPER", "false"),
];

/// cargo has none of them, and what says where it is stays. A path for `cd` leads nowhere else.
#[test]
fn the_environment_does_not_say_how_the_finder_is_built() {
    let root = searching("finder-environment", CARGO);
    let name = root.name();
    let decoy = root.join("decoy").join(name).join("outside");
    fs::create_dir_all(decoy).expect("they are made");
    let mut command = Command::new("sh");
    let words = format!("exec {name}/cec prove {name}/one {name}/other");
    let command = command.args(["-c", &words]).current_dir(root.join(".."));
    let path = env::var("PATH").expect("there is a path");
    command.env("PATH", format!("{}:{path}", root.display()));
    command.envs(MISLEADING).env("CARGO_HOME", "/its/home");
    command.env("CDPATH", root.join("decoy"));
    assert_eq!(
        said(command),
        (Some(1), format!("{NOTHING}\n"), FINDER_FIRST.into())
    );
    let variables = fs::read_to_string(root.join("variables")).expect("it is there");
    let names = variables.lines().filter_map(|line| line.split_once('='));
    let names = names.filter(|(name, _)| name.starts_with("CARGO_") || name.starts_with("RUSTC"));
    assert_eq!(names.collect::<Vec<_>>(), [("CARGO_HOME", "/its/home")]);
    assert!(!variables.contains("RUSTFLAGS"), "{variables}");
}

/// By cargo itself, from a copy of its sources.
#[test]
fn the_finder_lands_where_it_is_looked_for() {
    let root = searching("real-finder", "");
    fs::remove_file(root.join("cargo")).expect("it is ours");
    fs::remove_dir_all(root.join("outside")).expect("it is ours");
    fs::create_dir(root.join("outside")).expect("it is made");
    for entry in fs::read_dir(self::root().join("outside")).expect("it is there") {
        let entry = entry.expect("it is read");
        if entry.file_name() != "target" {
            let mut copy = Command::new("cp");
            let copy = copy.arg("-r").arg(entry.path());
            let ended = copy.arg(root.join("outside")).status();
            assert!(ended.expect("cp runs").success());
        }
    }
    let [old, odd] = [GUARD_OLD, GUARD_ONE_PATTERN].map(sample);
    let sentence =
        "they differ: pattern 02D4A1F09C3E6B57 gives 0000000000000DF2 and 0000000000000DF6\n";
    for errors in [FINDER_FIRST, ""] {
        let mut command = command_of(&root, &root, &["prove", &old, &odd]);
        let said = said(command.envs(MISLEADING));
        assert_eq!(said, (Some(1), sentence.into(), errors.into()));
    }
    assert!(!root.join("elsewhere").exists() && !root.join("outside/elsewhere").exists());
}

/// By a signal to the command alone, and by one to all of its group, as a terminal sends it.
#[test]
fn an_interrupted_build_leaves_no_cargo() {
    let cargo = "sleep 600 &\necho $! >../begun\nmv ../begun ../worker\nwait";
    ends_with_its_command(&UNLIKE, || searching("interrupted-cargo", cargo));
}
