//! The command `cec` where the engine has no proof (18): the sentences on what the finder found, and
//! what becomes of a finder that lies or breaks off. No word of it counts by itself.

mod cec;
mod common;

use std::env;
use std::fs;
use std::path::Path;
use std::process::{Command, Stdio};

use cec::{becomes, build_finder, command_of, ends_with_its_command, fails, folder, run, run_of};
use cec::{said, sample, says, stand_ins, Folder, ACCEPTED};
use cec_reference::sample::{LISTS, PROOF};
use common::proof_texts::{bench, proof_behind, P5};
use common::samples::{self, GUARD_OLD, GUARD_ONE_PATTERN, GUARD_RESYNTHESISED};

const FINDER: &str = "outside/target/release/finder";

/// What an engine says that has no proof, and the sentence for it alone.
const OPEN: &str = "211200000100000000";
const REFUSED: &str =
    "refused (18): output 1 of 1 is the first whose folded forms differ; the lists \
    may agree or not";

const DIFFERS: &str = "they differ: pattern 02D4A1F09C3E6B57 gives 0000000000000DF2 and \
    0000000000000DF6";

/// A root with the programs of this checkout, but for an engine that prints this report, and with
/// this finder. The paper's pair stands in it, as `gate` and `wire`.
fn reported(name: &str, report: &str, finder: &str) -> Folder {
    let programs = ["cec_list", "cec_check", "cec_check_large", "cec_eval"];
    let programs = programs.map(|program| (format!("target/bin/{program}"), becomes(program)));
    let mut scripts: Vec<(&str, &str)> = programs
        .iter()
        .map(|(file, script)| (file.as_str(), script.as_str()))
        .collect();
    let engine = format!("cat >/dev/null\necho {report}");
    scripts.push(("target/bin/cec_prove", &engine));
    scripts.push((FINDER, finder));
    let root = stand_ins(name, &scripts);
    put_pair(&root, LISTS);
    root
}

/// The same with an engine that has no proof of anything.
fn searched_by(name: &str, finder: &str) -> Folder {
    reported(name, OPEN, finder)
}

/// Two lists of a text as `gate` and `wire`: the right one begins at the second header.
fn put_pair(folder: &Path, lists: &str) {
    let (place, _) = lists.match_indices("\n01").next().expect("there are two");
    let (gate, wire) = lists.split_at(place + 1);
    fs::write(folder.join("gate"), gate).expect("it is written");
    fs::write(folder.join("wire"), wire).expect("it is written");
}

/// A finder that prints the lists as they came and this proof.
fn proves(proof: &str) -> String {
    format!("cat\nprintf '%s' '{proof}'")
}

/// A finder that reads the lists, and ends with this line and status.
fn ends(line: &str, status: u8) -> String {
    format!("cat >/dev/null\nprintf '%s' '{line}'\nexit {status}")
}

const PROVE: [&str; 3] = ["prove", "gate", "wire"];

/// The samples by the finder of this checkout. How long its proof is may change, so both numbers are
/// compared with the evidence.
#[test]
fn the_search_settles_the_samples() {
    build_finder();
    let folder = folder("settled");
    let [old, other, odd] = [GUARD_OLD, GUARD_RESYNTHESISED, GUARD_ONE_PATTERN].map(sample);
    let kept = run(&folder, &["prove", &old, &other, "-o", "evidence"]);
    let evidence = fs::read_to_string(folder.join("evidence")).expect("it was kept");
    let lists = [GUARD_OLD, GUARD_RESYNTHESISED].map(samples::text).concat();
    assert!(evidence.as_bytes().starts_with(&lists));
    let proof = &evidence[lists.len()..];
    assert!(proof.lines().all(|line| line.starts_with('1')));
    let lines = proof.lines().count();
    let (_, checked, _) = run(&folder, &["check", "evidence", "--frame"]);
    let (sentence, frame) = checked.trim_end().split_once('\n').expect("two lines");
    let steps = format!("({lines} proof lines, ");
    assert!(sentence.contains(&steps), "{sentence}");
    let found = sentence.replace(" (", " (found by search: ");
    says(kept, 0, &found);
    let framed = run(&folder, &["prove", &old, &other, "--frame"]);
    says(framed, 0, &format!("{found}\n{frame}"));

    let differs = run(&folder, &["prove", &old, &odd, "-o", "none"]);
    says(differs, 1, DIFFERS);
    assert!(!folder.join("none").exists());
    let framed = run(&folder, &["prove", &old, &odd, "--frame", "--seconds", "5"]);
    says(framed, 1, &format!("{DIFFERS}\n211200000300000000"));
}

/// With and without extensions, whose lines are shorter; the evidence goes where `-o` says.
#[test]
fn a_proof_that_was_found_is_judged_and_kept() {
    let sentence = format!("{ACCEPTED} (found by search: 4 proof lines, 13 clauses)");
    let root = searched_by("found", &proves(&PROOF.concat()));
    let words = ["prove", "gate", "wire", "--frame", "-o", "evidence"];
    let framed = format!("{sentence}\n21000000000004000D");
    says(run_of(&root, &root, &words), 0, &framed);
    let evidence = fs::read_to_string(root.join("evidence")).expect("it was kept");
    assert_eq!(evidence, bench(&PROOF));
    let printed = run_of(&root, &root, &["prove", "gate", "wire", "-o", "-"]);
    assert_eq!(printed, (Some(0), bench(&PROOF), format!("{sentence}\n")));

    let lists = P5.find("\n1").expect("a proof is behind the lists") + 1;
    let root = searched_by("extended", &proves(&P5[lists..]));
    put_pair(&root, &P5[..lists]);
    let words = ["prove", "gate", "wire", "-o", "evidence"];
    let sentence = format!("{ACCEPTED} (found by search: 7 proof lines, 19 clauses)");
    says(run_of(&root, &root, &words), 0, &sentence);
    let evidence = fs::read_to_string(root.join("evidence")).expect("it was kept");
    assert_eq!(evidence, P5);
}

#[test]
fn a_long_proof_that_was_found_is_judged_by_the_large_program() {
    let text = proof_behind(65_000);
    let root = searched_by("found-long", "cat \"${0%/*}/../../../long\"");
    fs::write(root.join("long"), &text).expect("it is written");
    let words = ["prove", "gate", "wire", "-o", "evidence"];
    let sentence = format!(
        "accepted by cec_check_large: both lists agree on every pattern (found by search: 65004 \
         proof lines, 65013 clauses); beyond the limits of cec_check by {} bytes and 60917 clauses",
        text.len() - 65_536
    );
    says(run_of(&root, &root, &words), 0, &sentence);
    let evidence = fs::read_to_string(root.join("evidence")).expect("it was kept");
    assert!(evidence == text);
}

/// The words are those of `cec_eval`, whatever the finder takes them for.
#[test]
fn a_pattern_is_confirmed() {
    let words = "0000000000000005 and 0000000000000007";
    let line = format!("differs: pattern 0000000000000001 gives {words}");
    let root = searched_by("confirmed", &ends(&line, 1));
    put_pair(&root, "0101000001\n040003\n0101000001\n040002\n");
    let printed = format!(
        "they differ: pattern 0000000000000001 gives 0000000000000000 and 0000000000000001\n{OPEN}"
    );
    let words = ["prove", "gate", "wire", "--frame", "-o", "evidence"];
    says(run_of(&root, &root, &words), 1, &printed);
    let words = ["prove", "gate", "wire", "-o", "-"];
    let (status, printed, errors) = run_of(&root, &root, &words);
    assert_eq!((status, printed.as_str()), (Some(1), ""));
    assert!(errors.starts_with("they differ: "), "{errors}");

    // On the paper's pair no pattern can be confirmed.
    put_pair(&root, LISTS);
    let message = "cec: both lists give 0000000000000001 on the pattern 0000000000000001: the \
        finder is broken, and nothing is known of the lists\n";
    fails(run_of(&root, &root, &words), message);
    assert!(!root.join("evidence").exists());
}

/// A file that changes during the search is not evaluated: the words are those of the lists that were
/// read.
#[test]
fn words_are_those_of_the_lists_that_were_read() {
    let line = "differs: pattern 0000000000000001 gives 0000000000000000 and 0000000000000001";
    let finder = format!("echo changed >gate\necho changed >wire\n{}", ends(line, 1));
    let root = searched_by("changed", &finder);
    put_pair(&root, "0101000001\n040003\n0101000001\n040002\n");
    let printed = line.replace("differs", "they differ");
    says(run_of(&root, &root, &PROVE), 1, &printed);
}

/// Why is the finder's own clause.
#[test]
fn neither_of_both_is_not_decided() {
    let why = "output 3 of 12 is open after 41,200 conflicts in 6 turns";
    let line = format!("no proof found: {why}");
    let root = searched_by("neither", &ends(&line, 1));
    let sentence = format!(
        "not decided: neither a proof nor a pattern on which they differ was found ({why})"
    );
    let words = ["prove", "gate", "wire", "--frame", "-o", "evidence"];
    let said = run_of(&root, &root, &words);
    says(said, 1, &format!("{sentence}\n{OPEN}"));
    assert!(!root.join("evidence").exists());
}

/// A proof that the checking program refuses is no refusal of the lists.
#[test]
fn a_refused_proof_says_nothing_of_the_lists() {
    let other = "11000500020002\n11000400080002\n11000A000B0001\n";
    for (proof, number) in [
        ("11000A00020002\n", 9),
        ("11000500020001\n", 10),
        ("1200200002\n", 12),
        ("110005000200\n", 3),
        ("110005000", 3),
        ("11000500020002\n1g", 2),
        (other, 15),
    ] {
        let root = searched_by("refused", &proves(proof));
        let message = format!(
            "cec: the proof that the search made was refused ({number}): the finder is broken, and \
             nothing is known of the lists\n"
        );
        let words = ["prove", "gate", "wire", "-o", "evidence"];
        fails(run_of(&root, &root, &words), &message);
        assert!(!root.join("evidence").exists());
    }
}

/// A whole proof for two other lists, and what is no evidence at all.
#[test]
fn evidence_for_other_lists_is_none() {
    let whole = bench(&PROOF);
    let turned = format!(
        "0101000001\n040002\n0101000101\n0200020002\n040004\n{}",
        PROOF[0]
    );
    for (text, status) in [(&whole[1..], 0), (&whole[11..], 0), (&turned, 0), ("", 0)] {
        let root = searched_by("for-others", &ends(text, status));
        let message = "cec: the search printed no evidence for these lists: the finder is broken, \
            and nothing is known of the lists\n";
        fails(run_of(&root, &root, &PROVE), message);
    }
    let root = searched_by("for-others", &ends(&whole, 0));
    put_pair(&root, "0101000001\n040002\n0101000001\n040002\n");
    fails(run_of(&root, &root, &PROVE), "no evidence for these lists");
    let root = searched_by("lists-alone", "cat");
    fails(run_of(&root, &root, &PROVE), "no evidence for these lists");
}

/// By a signal, with a status that means nothing, and with lines that do not.
#[test]
fn a_finder_that_breaks_off_decides_nothing() {
    let whole = bench(&PROOF);
    let finders = [
        ("kill -KILL $$".to_string(), 137),
        (format!("printf '%s' '{whole}'\nkill -TERM $$"), 143),
        (ends(&whole, 2), 2),
        (ends(&whole, 101), 101),
        (ends("no proof found: enough", 2), 2),
        (ends("", 1), 1),
        (ends(&whole, 1), 1),
        (ends(OPEN, 1), 1),
        (ends("no proof found: ", 1), 1),
        (ends("no proof found: one\ntwo", 1), 1),
        (ends("differs: pattern 1 gives 0 and 1", 1), 1),
        (
            ends("differs: pattern 000000000000000G gives 0 and 1", 1),
            1,
        ),
        (
            ends("differs: pattern 00000000 0000000 gives 0 and 1", 1),
            1,
        ),
        (ends("differs: pattern 0000000000000001", 1), 1),
    ];
    for (finder, status) in finders {
        let root = searched_by("broken", &finder);
        let message = format!(
            "cec: the search gave no answer: the finder ended with status {status}, and nothing is \
             known of the lists\n"
        );
        let words = ["prove", "gate", "wire", "-o", "evidence"];
        fails(run_of(&root, &root, &words), &message);
        assert!(!root.join("evidence").exists());
    }
    // What it says itself is seen.
    let root = searched_by("says-why", "echo why >&2\nexit 2");
    fails(
        run_of(&root, &root, &PROVE),
        "why\ncec: the search gave no answer",
    );
}

/// A finder that writes down how it was called.
const CALLED: &str = "echo \"$*\" >called\necho 'no proof found: enough'\nexit 1";

/// Twenty seconds if nothing is said, and no progress where standard error is no terminal.
#[test]
fn the_time_is_passed_on() {
    let root = searched_by("time", CALLED);
    let called = |words: &[&str]| {
        let words = [&PROVE[..], words].concat();
        let (status, ..) = run_of(&root, &root, &words);
        assert_eq!(status, Some(1));
        fs::read_to_string(root.join("called")).expect("it was called")
    };
    assert_eq!(called(&[]), "--seconds 20\n");
    for seconds in ["1", "7", "99999"] {
        let passed = format!("--seconds {seconds}\n");
        assert_eq!(called(&["--seconds", seconds]), passed);
    }
}

/// On a terminal the finder is asked for its line, and writes it there.
#[test]
fn progress_is_shown_on_a_terminal() {
    let moves = "printf '\\r\\033[Kcec: searching: 1 of 2 nets settled' >&2\n\
        printf '\\r\\033[K' >&2\n";
    let root = searched_by("moving", &format!("{moves}{CALLED}"));
    let mut command = Command::new("script");
    let words = "./cec prove gate wire";
    let command = command
        .args(["-qec", words, "/dev/null"])
        .current_dir(&root);
    let (status, shown, _) = said(command.stdin(Stdio::null()));
    assert_eq!(status, Some(1), "{shown}");
    let moved = "\r\x1b[Kcec: searching: 1 of 2 nets settled\r\x1b[Knot decided: ";
    assert!(shown.contains(moved), "{shown:?}");
    let called = fs::read_to_string(root.join("called")).expect("it was called");
    assert_eq!(called, "--seconds 20 --progress\n");
}

/// Nobody is asked but the engine, and nothing is built; nor where the engine has another refusal.
#[test]
fn the_engine_alone_calls_no_finder() {
    let root = searched_by("alone", CALLED);
    let words = ["prove", "gate", "wire", "--engine", "--frame"];
    says(
        run_of(&root, &root, &words),
        1,
        &format!("{REFUSED}\n{OPEN}"),
    );
    fs::remove_file(root.join(FINDER)).expect("it is ours");
    says(run_of(&root, &root, &words[..4]), 1, REFUSED);
    let root = reported("another", "210600000400000000", CALLED);
    let line = "refused (6), line 1 of wire: inputs or outputs are unlike those of the first list";
    says(run_of(&root, &root, &PROVE), 1, line);
    assert!(!root.join("called").exists());
}

/// A file that can be read only once, and no temporary file is left, whatever the finder says.
#[test]
fn a_search_leaves_no_temporary_files() {
    let line = "differs: pattern 0000000000000001 gives 0000000000000001 and 0000000000000000";
    for (name, finder) in [
        ("left-proof", proves(&PROOF.concat())),
        ("left-pattern", ends(line, 1)),
        ("left-none", CALLED.into()),
        ("left-broken", "exit 3".into()),
    ] {
        let root = searched_by(name, &finder);
        fs::create_dir(root.join("tmp")).expect("it is made");
        let mut command = Command::new("sh");
        let piped = "cat gate | ./cec prove - wire";
        let command = command.args(["-c", piped]).current_dir(&root);
        let (status, ..) = said(command.env("TMPDIR", root.join("tmp")));
        assert!(status.is_some(), "{name}");
        let left = fs::read_dir(root.join("tmp")).expect("it is there");
        assert_eq!(left.count(), 0, "{name}");
    }
}

#[test]
fn an_interrupted_search_leaves_no_finder() {
    let finder = "sleep 600 &\necho $! >begun\nmv begun worker\nwait";
    ends_with_its_command(&PROVE, || searched_by("interrupted-search", finder));
}

/// No variable of the environment enters a sentence that a search ends in.
#[test]
fn the_environment_says_nothing_of_a_search() {
    let root = searched_by("search-environment", &proves(&PROOF.concat()));
    let mut command = command_of(&root, &root, &PROVE);
    let names = "by how why made left pattern progress seconds engine finder worker ended found";
    for name in names.split(' ') {
        command.env(name, "nobody");
    }
    let sentence = format!("{ACCEPTED} (found by search: 4 proof lines, 13 clauses)");
    says(said(&mut command), 0, &sentence);
}

/// Every shell that the command may be run by.
#[test]
fn other_shells_search_as_well() {
    let whole = proof_behind(65_000);
    let root = searched_by("shells", "cat \"${0%/*}/../../../long\"");
    fs::write(root.join("long"), &whole).expect("it is written");
    for shell in ["dash", "bash", "ksh", "busybox"] {
        let found = env::var("PATH").expect("there is a path");
        let found = env::split_paths(&found).any(|place| place.join(shell).exists());
        if !found {
            continue;
        }
        let mut command = Command::new(shell);
        if shell == "busybox" {
            command.arg("sh");
        }
        let command = command.args(["./cec", "prove", "gate", "wire", "-o", "kept"]);
        let (status, printed, errors) = said(command.current_dir(&root));
        assert_eq!((status, errors.as_str()), (Some(0), ""), "{shell}");
        assert!(printed.contains("(found by search: 65004 "), "{printed}");
        let kept = fs::read_to_string(root.join("kept")).expect("it was kept");
        assert!(kept == whole, "{shell}");
        fs::remove_file(root.join("kept")).expect("it is ours");
    }
}
