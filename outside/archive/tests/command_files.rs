//! The command `cec` and files: those that it cannot read, and where `-o` leaves evidence.

mod cec;
mod common;

use std::fs::{self, File, Permissions};
use std::os::unix::fs::{symlink, PermissionsExt};
use std::path::Path;
use std::process::Command;

use cec::{becomes, fails, folder, root, run, run_of, said, sample, says, stand_ins};
use cec::{Said, ACCEPTED};
use cec_reference::sample::{LISTS, PROOF};
use common::proof_texts::bench;
use common::samples::{self, ADDER};

const WIRE: &str = "0101000001\n040002\n";

/// Puts the paper's pair into a folder, as `gate` and `wire`.
fn put_pair(folder: &Path) {
    let pair = [("gate", "paper-gate"), ("wire", "paper-wire")];
    for (name, sample) in pair {
        fs::write(folder.join(name), samples::text(sample)).expect("it is written");
    }
}

fn mode(file: &Path) -> u32 {
    let about = fs::metadata(file).expect("it is there");
    about.permissions().mode() & 0o777
}

fn set_mode(file: &Path, mode: u32) {
    fs::set_permissions(file, Permissions::from_mode(mode)).expect("it is ours");
}

#[test]
fn files_that_cannot_be_read_are_named() {
    let folder = folder("unread");
    let adder = sample(ADDER);
    let commands: [&[&str]; 5] = [
        &["prove", "list", &adder],
        &["prove", &adder, "list"],
        &["check", "list"],
        &["list", "list"],
        &["eval", "list", "0"],
    ];
    let all_say = |message: &str| {
        for words in commands {
            fails(run(&folder, words), &format!("cec: list: {message}\n"));
        }
    };
    all_say("there is no such file");
    fs::create_dir(folder.join("list")).expect("it is made");
    all_say("this is a directory");
    fs::remove_dir(folder.join("list")).expect("it is removed");
    fs::write(folder.join("list"), WIRE).expect("it is written");
    set_mode(&folder.join("list"), 0o000);
    // The superuser reads every file.
    if File::open(folder.join("list")).is_err() {
        all_say("this file cannot be read");
    }
}

/// Nothing is left where evidence cannot be written, and an earlier file stays after a refusal.
#[test]
fn evidence_is_kept_whole_or_not_at_all() {
    let folder = folder("unwritten");
    let [gate, wire, adder] = ["paper-gate", "paper-wire", ADDER].map(sample);
    let nowhere = run(&folder, &["prove", &gate, &wire, "-o", "nowhere/evidence"]);
    let message = "cec: nowhere/evidence: this file cannot be written\n";
    fails(nowhere, message);
    let a_folder = run(&folder, &["prove", &gate, &wire, "-o", "."]);
    fails(a_folder, "cec: .: this is no regular file\n");
    fs::write(folder.join("kept"), "earlier").expect("it is written");
    let (status, ..) = run(&folder, &["prove", &gate, &adder, "-o", "kept"]);
    let kept = || fs::read_to_string(folder.join("kept")).expect("it is there");
    assert_eq!((status, kept().as_str()), (Some(1), "earlier"));
    let (status, ..) = run(&folder, &["prove", &gate, &wire, "-o", "kept"]);
    assert_eq!((status, kept().len()), (Some(0), bench(&PROOF).len()));
    assert!(kept().starts_with(LISTS));
    assert_eq!(fs::read_dir(&folder).expect("it is there").count(), 1);
}

/// A disk that is full, by a limit on the bytes of a file: the new file is removed, and an old one is
/// said to be lost.
#[test]
fn evidence_that_does_not_fit_is_told() {
    let folder = folder("full");
    let adder = sample(ADDER);
    // Blocks of 512 bytes; the signal that the limit sends is ignored, so that writing fails.
    let limit = "trap '' XFSZ; ulimit -f 8; exec \"$0\" \"$@\"";
    let limited = || -> Said {
        let mut command = Command::new("sh");
        let command = command.args(["-c", limit]).arg(root().join("cec"));
        let words = ["prove", &adder, &adder, "-o", "evidence"];
        said(command.args(words).current_dir(&folder))
    };
    let message = "cec: evidence: this file was not written to its end\n";
    fails(limited(), message);
    assert!(!folder.join("evidence").exists());
    fs::write(folder.join("evidence"), "earlier").expect("it is written");
    fails(limited(), message);
}

/// The same file under any name: by another path, as a link of either sort, and as standard input.
#[test]
fn an_input_is_never_written() {
    let folder = folder("input");
    put_pair(&folder);
    symlink("gate", folder.join("link")).expect("it is made");
    fs::hard_link(folder.join("wire"), folder.join("hard")).expect("it is made");
    let around = format!("../{}/wire", folder.name());
    for output in ["gate", "wire", "./gate", &around, "link", "hard"] {
        let said = run(&folder, &["prove", "gate", "wire", "-o", output]);
        let message = format!("cec: {output}: this file is an input, and is not written\n");
        fails(said, &message);
    }
    let file = File::open(folder.join("gate")).expect("it is there");
    let mut command = Command::new(root().join("cec"));
    let command = command.args(["prove", "-", "wire", "-o", "gate"]);
    let said = said(command.current_dir(&folder).stdin(file));
    fails(
        said,
        "cec: gate: this file is an input, and is not written\n",
    );
    let pair = ["gate", "wire"].map(|name| fs::read_to_string(folder.join(name)).expect("it is"));
    assert_eq!(pair.concat(), LISTS);
}

/// A link stays a link, and a file keeps its mode; one that is read-only stays as it is, but for the
/// superuser.
#[test]
fn an_output_stays_what_it_was() {
    let folder = folder("output");
    put_pair(&folder);
    let accepted = format!("{ACCEPTED} (4 proof lines, 13 clauses)");
    let prove = |output: &str| run(&folder, &["prove", "gate", "wire", "-o", output]);
    let [target, link, fresh] = ["target", "link", "fresh"].map(|name| folder.join(name));
    fs::write(&target, "x".repeat(500)).expect("it is written");
    set_mode(&target, 0o600);
    symlink("target", &link).expect("it is made");
    says(prove("link"), 0, &accepted);
    assert!(fs::symlink_metadata(&link)
        .expect("it is there")
        .is_symlink());
    let (_, whole, _) = prove("-");
    assert_eq!(fs::read_to_string(&target).expect("it is there"), whole);
    assert_eq!(mode(&target), 0o600);
    fs::remove_file(&target).expect("it is ours");
    says(prove("link"), 0, &accepted);
    assert_eq!(fs::read_to_string(&target).expect("it is there"), whole);
    fs::write(&fresh, "earlier").expect("it is written");
    set_mode(&fresh, 0o444);
    let writable = File::options().append(true).open(&fresh).is_ok();
    let said = prove("fresh");
    let (text, left) = if writable {
        says(said, 0, &accepted);
        (whole.as_str(), 0o444)
    } else {
        fails(said, "cec: fresh: this file cannot be written\n");
        ("earlier", 0o444)
    };
    assert_eq!(fs::read_to_string(&fresh).expect("it is there"), text);
    assert_eq!(mode(&fresh), left);
}

/// `-o -` prints the evidence, and the sentence elsewhere.
#[test]
fn evidence_may_be_printed() {
    let folder = folder("printed");
    put_pair(&folder);
    let (status, printed, errors) = run(&folder, &["prove", "gate", "wire", "-o", "-"]);
    let sentence = format!("{ACCEPTED} (4 proof lines, 13 clauses)");
    assert_eq!((status, errors), (Some(0), format!("{sentence}\n")));
    assert!(printed.starts_with(LISTS), "{printed}");
    fs::write(folder.join("evidence"), printed).expect("it is written");
    says(run(&folder, &["check", "evidence"]), 0, &sentence);
}

/// Nothing is left in the folder for temporary files.
#[test]
fn temporary_files_are_removed() {
    let folder = folder("temporary");
    put_pair(&folder);
    fs::create_dir(folder.join("tmp")).expect("it is made");
    let piped = "cat gate | \"$0\" prove /dev/stdin wire";
    let mut command = Command::new("sh");
    let command = command.args(["-c", piped]).arg(root().join("cec"));
    let command = command
        .current_dir(&folder)
        .env("TMPDIR", folder.join("tmp"));
    says(
        said(command),
        0,
        &format!("{ACCEPTED} (4 proof lines, 13 clauses)"),
    );
    let left = fs::read_dir(folder.join("tmp")).expect("it is there");
    assert_eq!(left.count(), 0);
}

/// Programs that end early, as on a full disk: nothing printed, or evidence cut off.
#[test]
fn half_an_answer_is_no_verdict() {
    let [gate, wire] = ["paper-gate", "paper-wire"].map(sample);
    let silent = ["cec_check", "cec_prove", "cec_eval", "cec_list"];
    let silent = silent.map(|program| format!("target/bin/{program}"));
    let scripts: Vec<_> = silent
        .iter()
        .map(|file| (file.as_str(), "exit 0"))
        .collect();
    let root = stand_ins("silent", &scripts);
    let commands: [&[&str]; 4] = [
        &["prove", &gate, &wire],
        &["check", &gate],
        &["list", &gate],
        &["eval", &gate, "0"],
    ];
    for words in commands {
        fails(
            run_of(&root, &root, words),
            "gave no answer: its input or output failed\n",
        );
    }
    let [checker, lister, prover] = ["cec_check", "cec_list", "cec_prove"].map(becomes);
    let prover = prover.trim_start_matches("exec ");
    for bytes in [10, 47, 62, 100, 105] {
        let cut = format!("{prover} | head -c {bytes}");
        let scripts = [
            ("target/bin/cec_check", checker.as_str()),
            ("target/bin/cec_list", lister.as_str()),
            ("target/bin/cec_prove", cut.as_str()),
        ];
        let root = stand_ins("cut-off", &scripts);
        let words = ["prove", &gate, &wire, "-o", "evidence"];
        let said = run_of(&root, &root, &words);
        fails(said, "cec: the evidence ");
        assert!(!root.join("evidence").exists());
    }
}

/// The verdict is about the lists that were given, whatever lists a proving program prints.
#[test]
fn evidence_for_other_lists_is_no_evidence() {
    let [gate, wire, adder] = ["paper-gate", "paper-wire", ADDER].map(sample);
    let [checker, lister] = ["cec_check", "cec_list"].map(becomes);
    let folder = folder("other-lists");
    let (status, ..) = run(&folder, &["prove", &gate, &wire, "-o", "evidence"]);
    assert_eq!(status, Some(0));
    let other = format!("cat {}/evidence", folder.display());
    let scripts = [
        ("target/bin/cec_check", checker.as_str()),
        ("target/bin/cec_list", lister.as_str()),
        ("target/bin/cec_prove", other.as_str()),
    ];
    let root = stand_ins("other", &scripts);
    let (status, ..) = run_of(&root, &folder, &["prove", &gate, &wire]);
    assert_eq!(status, Some(0));
    for pair in [[&adder, &adder], [&wire, &gate], [&wire, &wire]] {
        let said = run_of(&root, &folder, &["prove", pair[0], pair[1]]);
        fails(said, "the evidence is not both lists and a whole proof");
    }
}
