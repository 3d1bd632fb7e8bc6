//! The command `cec` of the repository's root: the sentences of each command, and its exit status.

mod cec;
mod common;

use std::fs::{self, File};
use std::path::Path;
use std::process::{Command, Stdio};

use cec::{command_of, fails, folder, refuses, root, run, said, sample, says, Said, ACCEPTED};
use cec_reference::sample::PROOF;
use common::list_texts::linked;
use common::proof_texts::{bench, proof_behind};
use common::samples::{self, ADDER, GUARD_NEW, GUARD_OLD, GUARD_ONE_PATTERN, GUARD_RESYNTHESISED};

const WIRE: &str = "0101000001\n040002\n";

/// The README's first command, and what the samples' table says of each pair.
#[test]
fn samples_are_proved_and_checked() {
    let folder = folder("samples");
    let [old, new] = [GUARD_OLD, GUARD_NEW].map(sample);
    let accepted = format!("{ACCEPTED} (1340 proof lines, 2602 clauses)");
    says(run(&folder, &["prove", &old, &new]), 0, &accepted);
    assert_eq!(fs::read_dir(&folder).expect("it is there").count(), 0);
    let kept = run(&folder, &["prove", &old, &new, "-o", "evidence.txt"]);
    says(kept, 0, &accepted);
    says(run(&folder, &["check", "evidence.txt"]), 0, &accepted);
    let evidence = fs::read(folder.join("evidence.txt")).expect("it was kept");
    assert!(evidence.starts_with(&[GUARD_OLD, GUARD_NEW].map(samples::text).concat()));
    for (pair, counts) in [
        (["paper-gate", "paper-wire"], "(4 proof lines, 13 clauses)"),
        (
            [ADDER, "adder16-renamed"],
            "(718 proof lines, 1380 clauses)",
        ),
    ] {
        let [left, right] = pair.map(sample);
        let said = run(&folder, &["prove", &left, &right]);
        says(said, 0, &format!("{ACCEPTED} {counts}"));
    }
}

/// By the engine alone; `command_search.rs` has what the search makes of these.
#[test]
fn other_forms_are_18_with_the_output() {
    let folder = folder("forms");
    let old = sample(GUARD_OLD);
    for (other, output) in [(GUARD_ONE_PATTERN, 3), (GUARD_RESYNTHESISED, 1)] {
        let other = sample(other);
        let words = ["prove", "--engine", &old, &other, "-o", "evidence"];
        let line = format!(
            "refused (18): output {output} of 12 is the first whose folded forms differ; the \
             lists may agree or not"
        );
        says(run(&folder, &words), 1, &line);
        assert!(!folder.join("evidence").exists());
    }
}

/// The pattern that nobody would list, in either case of letters and with and without zeros.
#[test]
fn words_are_printed_alone() {
    let folder = folder("words");
    let pattern = format!("{:X}", samples::ODD_PATTERN);
    let padded = format!("{:016x}", samples::ODD_PATTERN);
    for (guard, word) in [
        (GUARD_OLD, "0000000000000DF2"),
        (GUARD_ONE_PATTERN, "0000000000000DF6"),
    ] {
        for pattern in [&pattern, &padded] {
            says(run(&folder, &["eval", &sample(guard), pattern]), 0, word);
        }
    }
    let adder = sample(ADDER);
    let zero = run(&folder, &["eval", &adder, "0", "--frame"]);
    says(zero, 0, "0000000000000000");
    let sum = run(&folder, &["eval", &adder, "1FFFFFFFF"]);
    says(sum, 0, "000000000001FFFF");
    let ones = run(&folder, &["eval", &adder, "ffffffffffffffff"]);
    says(ones, 0, "000000000001FFFF");
}

#[test]
fn a_list_is_counted() {
    let folder = folder("counts");
    let adder = sample(ADDER);
    let sentence = format!("{adder}: one list of 33 inputs, 80 gates and 17 outputs");
    says(run(&folder, &["list", &adder]), 0, &sentence);
    let said = run(&folder, &["list", "--frame", &adder]);
    says(said, 0, &format!("{sentence}\n0121005011"));
}

/// The frame stands on a line of its own behind the sentence.
#[test]
fn frames_are_printed_if_asked_for() {
    let folder = folder("frames");
    let [gate, wire] = ["paper-gate", "paper-wire"].map(sample);
    let printed = format!("{ACCEPTED} (4 proof lines, 13 clauses)\n21000000000004000D");
    let words = ["--frame", "prove", "-o", "evidence", &gate, &wire];
    says(run(&folder, &words), 0, &printed);
    says(run(&folder, &["check", "--frame", "evidence"]), 0, &printed);
    let printed = "refused (4), line 3: the text ends where a frame of a list is due\n\
        210400000300000000";
    says(run(&folder, &["check", &wire, "--frame"]), 1, printed);
    let printed = "refused (18): output 3 of 12 is the first whose folded forms differ; the lists \
        may agree or not\n211200000300000000";
    let [old, altered] = [GUARD_OLD, GUARD_ONE_PATTERN].map(sample);
    let said = run(&folder, &["prove", &old, &altered, "--frame", "--engine"]);
    says(said, 1, printed);
}

/// Faulty lists, and the number and line of the refusal.
const FAULTS: [(&str, u64, u64); 6] = [
    ("", 4, 1),
    ("0101000001\n04000a\n", 2, 2),
    ("0101000001\n040002\n\n", 3, 3),
    ("0101000000\n", 5, 1),
    ("0101000001\n040004\n", 7, 2),
    ("0101000001\n040002", 2, 2),
];

/// A list's refusals name its own file and line, on either side of a pair, and come before anything
/// is made.
#[test]
fn refusals_of_lists_name_the_file_and_its_line() {
    let folder = folder("lists");
    fs::write(folder.join("wire"), WIRE).expect("it is written");
    let list = |text: &str| fs::write(folder.join("list"), text).expect("it is written");
    for (text, number, line) in FAULTS {
        list(text);
        let sentence = format!("refused ({number}), line {line} of list: ");
        let commands: [&[&str]; 5] = [
            &["eval", "list", "1"],
            &["list", "list"],
            &["prove", "wire", "list", "-o", "evidence"],
            &["prove", "list", "wire", "-o", "evidence"],
            &["prove", "list", "list", "-o", "evidence"],
        ];
        for words in commands {
            refuses(run(&folder, words), &sentence);
        }
        assert!(!folder.join("evidence").exists());
    }
    list("0102000001\n040002\n");
    let said = run(&folder, &["prove", "wire", "list"]);
    let line = "refused (6), line 1 of list: inputs or outputs are unlike those of the first list";
    says(said, 1, line);
    list(&"0".repeat(65_537));
    let said = run(&folder, &["prove", "wire", "list"]);
    says(said, 1, "refused (1): the text is longer than 65,536 bytes");
}

/// Two lists in one file are no list, wherever the other file begins.
#[test]
fn a_pair_that_is_split_elsewhere_is_refused() {
    let folder = folder("split");
    let pair = ["paper-gate", "paper-wire"].map(samples::text).concat();
    let lines: Vec<_> = pair.split_inclusive(|byte| *byte == b'\n').collect();
    assert_eq!(lines.len(), 5);
    for place in 0..=5 {
        fs::write(folder.join("left"), lines[..place].concat()).expect("it is written");
        fs::write(folder.join("right"), lines[place..].concat()).expect("it is written");
        let said = run(&folder, &["prove", "left", "right"]);
        let sentence = match place {
            0..=2 => format!("refused (4), line {} of left: ", place + 1),
            3 => {
                says(said, 0, &format!("{ACCEPTED} (4 proof lines, 13 clauses)"));
                continue;
            }
            _ => "refused (3), line 4 of left: ".to_string(),
        };
        refuses(said, &sentence);
    }
}

/// The checking program's own refusals.
#[test]
fn refusals_of_evidence_have_words_and_a_line() {
    let folder = folder("evidence");
    let proof = |lines: &str| bench(&[lines]);
    let faults = [
        (proof("11000A00020002\n"), "refused (9), line 6: a clause"),
        (proof("11000500020001\n"), "refused (10), line 6: the var"),
        (proof("1200200002\n"), "refused (12), line 6: the variable"),
        (proof(PROOF[0]), "refused (15): there is no proof, or its"),
        (proof("110005000200\n"), "refused (3), line 6: no frame"),
        (proof("1"), "refused (2), line 6: a byte other than"),
    ];
    for (text, sentence) in faults {
        fs::write(folder.join("evidence"), text).expect("it is written");
        refuses(run(&folder, &["check", "evidence"]), sentence);
    }
}

/// Evidence that is beyond the limits of `cec_check` is judged by `cec_check_large`, and the sentence
/// says so; some is beyond that one's too.
#[test]
fn long_evidence_is_judged_by_the_large_program() {
    let folder = folder("large");
    let gates = "0300000000\n".repeat(1_024);
    let wide = format!("0100040001\n{gates}040000\n0100000001\n040000\n");
    let proof = |lines: &str| bench(&[lines]);
    let large = "refused by cec_check_large";
    let faults = [
        (proof(&PROOF[0].repeat(5_000)), " (15): there is no proof"),
        (wide, " (15): there is no proof"),
        (proof(&PROOF[0].repeat(4_090)), " (15): there is no proof"),
        (
            proof(&(PROOF[0].repeat(4_090) + "11000500020001\n")),
            " (10), line 4096: the variable",
        ),
        (
            proof(&PROOF[0].repeat(65_527)),
            " (14), line 65532: the store lacks space",
        ),
        (
            proof(&PROOF[0].repeat(279_700)),
            " (1): the text is longer than 4,194,304 bytes",
        ),
    ];
    for (text, sentence) in faults {
        fs::write(folder.join("evidence"), text).expect("it is written");
        let said = run(&folder, &["check", "evidence"]);
        refuses(said, &format!("{large}{sentence}"));
    }
}

/// A proof that the engine makes and `cec_check` has no room for is accepted, with by how much it is
/// beyond; only the limit that is passed is named.
#[test]
fn long_proofs_are_accepted_and_said_to_be_long() {
    let folder = folder("long");
    let lists = linked("03");
    let (left, right) = lists.split_at(lists.len() / 2);
    fs::write(folder.join("left"), left).expect("it is written");
    fs::write(folder.join("right"), right).expect("it is written");
    let said = run(&folder, &["prove", "left", "right", "-o", "long one"]);
    let evidence = fs::read(folder.join("long one")).expect("it was kept");
    let lines = (evidence.len() - lists.len()) / 15;
    // Each line adds a clause to the miter's: 4 of an XOR gate, 7 of an output but for one.
    let clauses = 4 * 2 * 1_024 + 7 * 64 - 1 + lines;
    let sentence = format!(
        "accepted by cec_check_large: both lists agree on every pattern ({lines} proof lines, \
         {clauses} clauses); beyond the limits of cec_check by {} bytes and {} clauses",
        evidence.len() - 65_536,
        clauses - 4_096
    );
    says(said, 0, &sentence);
    says(run(&folder, &["check", "long one"]), 0, &sentence);
    let mut short = proof_behind(4_084);
    fs::write(folder.join("clauses"), &short).expect("it is written");
    assert!(short.len() <= 65_536);
    let said = run(&folder, &["check", "clauses"]);
    let sentence = "accepted by cec_check_large: both lists agree on every pattern (4088 proof \
        lines, 4097 clauses); beyond the limits of cec_check by 1 clauses";
    says(said, 0, sentence);
    short = proof_behind(4_083);
    fs::write(folder.join("clauses"), &short).expect("it is written");
    let said = run(&folder, &["check", "clauses"]);
    says(
        said,
        0,
        &format!("{ACCEPTED} (4087 proof lines, 4096 clauses)"),
    );
}

/// `-` is standard input, for each file that is read; it cannot be both lists.
#[test]
fn a_dash_is_standard_input() {
    let folder = folder("dash");
    let [gate, wire] = ["paper-gate", "paper-wire"].map(sample);
    let accepted = format!("{ACCEPTED} (4 proof lines, 13 clauses)");
    let (status, ..) = run(&folder, &["prove", &gate, &wire, "-o", "evidence"]);
    assert_eq!(status, Some(0));
    let read = |words: &[&str], file: &str| -> Said {
        let file = File::open(folder.join(file)).expect("it is there");
        let mut command = Command::new(root().join("cec"));
        let command = command.args(words).current_dir(&folder);
        said(command.stdin(file))
    };
    says(read(&["prove", "-", &wire], &gate), 0, &accepted);
    says(read(&["prove", &gate, "-"], &wire), 0, &accepted);
    says(read(&["check", "-"], "evidence"), 0, &accepted);
    says(read(&["eval", "-", "1"], &gate), 0, "0000000000000001");
    let sentence = "standard input: one list of 1 inputs, 1 gates and 1 outputs";
    says(read(&["list", "-"], &gate), 0, sentence);
    refuses(
        read(&["prove", &gate, "-"], "evidence"),
        "refused (3), line 4 of standard input: ",
    );
    let message = "cec: standard input can be only one of the two lists\n";
    fails(read(&["prove", "-", "-"], &gate), message);
    // A file that can be read only once.
    let piped = format!("cat {gate} | ./cec prove /dev/stdin {wire}");
    let mut command = Command::new("sh");
    let command = command.args(["-c", &piped]).current_dir(root());
    says(said(command), 0, &accepted);
}

#[test]
fn names_may_have_spaces_and_begin_with_a_dash() {
    let folder = folder("a name");
    for (name, text) in [
        ("-gate", samples::text("paper-gate")),
        ("a wire", WIRE.into()),
    ] {
        fs::write(folder.join(name), text).expect("it is written");
    }
    let accepted = format!("{ACCEPTED} (4 proof lines, 13 clauses)");
    let said = run(&folder, &["prove", "-o", "-kept", "--", "-gate", "a wire"]);
    says(said, 0, &accepted);
    says(run(&folder, &["check", "--", "-kept"]), 0, &accepted);
    says(run(&folder, &["check", "./-kept"]), 0, &accepted);
    fails(run(&folder, &["check", "-kept"]), "usage: ");
}

#[test]
fn bad_usage_shows_the_usage() {
    let folder = folder("usage");
    let adder = sample(ADDER);
    let wrong: [&[&str]; 24] = [
        &[],
        &["prove"],
        &["prove", &adder],
        &["prove", &adder, &adder, &adder],
        &["prove", &adder, &adder, "-o"],
        &["prove", &adder, &adder, "-o", ""],
        &["prove", &adder, &adder, "--frames"],
        &["prove", &adder, &adder, "--seconds"],
        &["prove", &adder, &adder, "--seconds", ""],
        &["prove", &adder, &adder, "--seconds", "5", "--engine"],
        &["prove", &adder, &adder, "--engines"],
        &["check", &adder, "--engine"],
        &["check", &adder, "--seconds", "5"],
        &["list", &adder, "--engine"],
        &["eval", &adder, "1", "--seconds", "5"],
        &["check"],
        &["check", &adder, &adder],
        &["check", &adder, "-o", "evidence"],
        &["list", &adder, &adder],
        &["eval", &adder],
        &["eval", &adder, "-1"],
        &["prove3"],
        &["judge", &adder],
        &["help", "judge"],
    ];
    for words in wrong {
        fails(run(&folder, words), "usage: cec prove OLD NEW");
    }
    for pattern in ["", "+1", "0x1", "G", "00000000000000001"] {
        let message = format!("cec: {pattern}: a pattern has 1 to 16 hexadecimal digits\n");
        fails(run(&folder, &["eval", &adder, pattern]), &message);
    }
    for seconds in ["0", "01", "-1", "+1", "1.5", "5s", "A", "100000", " 5"] {
        let message = format!("cec: {seconds}: --seconds takes a whole number from 1 to 99999\n");
        let words = ["prove", &adder, &adder, "--seconds", seconds];
        fails(run(&folder, &words), &message);
    }
}

/// No variable of the environment enters a sentence, or keeps a program from being looked at.
#[test]
fn the_environment_says_nothing() {
    let folder = folder("environment");
    let [gate, wire] = ["paper-gate", "paper-wire"].map(sample);
    let mut command = command_of(&root(), &folder, &["prove", &gate, &wire]);
    let names = "by beyond how newest copies work worker finder engine seconds evidence frame \
        words made printed report";
    for name in names.split(' ') {
        command.env(name, "nobody");
    }
    says(
        said(&mut command),
        0,
        &format!("{ACCEPTED} (4 proof lines, 13 clauses)"),
    );
    assert_eq!(fs::read_dir(&folder).expect("it is there").count(), 0);
}

/// Help is an answer: on standard output, with status 0, and for each command about that.
#[test]
fn help_is_an_answer() {
    let folder = folder("help");
    let answer = |words: &[&str]| {
        let (status, printed, errors) = run(&folder, words);
        assert_eq!((status, errors.as_str()), (Some(0), ""), "{words:?}");
        printed
    };
    let all = answer(&["help"]);
    assert!(all.starts_with("usage: cec prove OLD NEW"), "{all}");
    for words in [["--help"], ["-h"]] {
        assert_eq!(answer(&words), all);
    }
    for command in ["prove", "check", "list", "eval"] {
        let one = answer(&["help", command]);
        assert!(one.starts_with(&format!("usage: cec {command} ")), "{one}");
        assert!(one.contains("Status 0: "), "{one}");
        assert_eq!(answer(&[command, "--help"]), one);
        assert!(all.contains(&format!("cec {command} ")), "{all}");
    }
    // Whoever has read enough is not told that the usage was bad.
    let mut command = Command::new("sh");
    let piped = "\"$0\" help eval 2>&1 | head -n 1";
    let command = command.args(["-c", piped]).arg(root().join("cec"));
    says(said(command), 0, "usage: cec eval LIST PATTERN [--frame]");
}

/// The version is that of the packages, and the limits are those of the programs.
#[test]
fn the_version_has_formats_and_limits() {
    let folder = folder("version");
    let (status, printed, errors) = run(&folder, &["--version"]);
    assert_eq!((status, errors.as_str()), (Some(0), ""));
    let first = concat!("cec ", env!("CARGO_PKG_VERSION"), "\n");
    assert!(printed.starts_with(first), "{printed}");
    for part in [
        "frames 01 to 04 and 11 to 13",
        "cec_check: up to 65,536 bytes and 4,096 clauses\n",
        "cec_check_large: up to 4,194,304 bytes and 65,535 clauses\n",
        "the search: 20 seconds, ",
    ] {
        assert!(printed.contains(part), "{printed}");
    }
}

#[test]
fn a_sentence_that_is_not_written_is_no_success() {
    let full = File::options().write(true).open("/dev/full");
    let Ok(full) = full else { return };
    let mut command = Command::new(root().join("cec"));
    let command = command.args(["prove", &sample(ADDER), &sample(ADDER)]);
    let ended = command.stdout(full).stderr(Stdio::null()).status();
    assert_eq!(ended.expect("the command runs").code(), Some(2));
    for words in ["--version", "help prove", "--help"] {
        let full = File::options()
            .write(true)
            .open("/dev/full")
            .expect("it is there");
        let mut command = Command::new(root().join("cec"));
        let command = command.args(words.split(' '));
        let ended = command.stdout(full).stderr(Stdio::null()).status();
        assert_eq!(ended.expect("the command runs").code(), Some(2), "{words}");
    }
}

/// Runs the command in a shell with a limit on the stack, as the words of `ulimit` say.
fn run_with_stack(folder: &Path, limit: &str, words: &[&str]) -> Said {
    let limited = format!("ulimit {limit} && exec \"$0\" \"$@\"");
    let mut command = Command::new("sh");
    let command = command.args(["-c", &limited]).arg(root().join("cec"));
    said(command.args(words).current_dir(folder))
}

/// With the stack that a program needs it takes the largest lists, also where the shell allows it but
/// gives less; with less there is a message and no verdict.
#[test]
fn a_stack_that_is_too_small_is_named() {
    let folder = folder("stack");
    let lists = linked("03");
    let (left, right) = lists.split_at(lists.len() / 2);
    fs::write(folder.join("left"), left).expect("it is written");
    fs::write(folder.join("right"), right).expect("it is written");
    fs::write(folder.join("both"), &lists).expect("it is written");
    fs::write(folder.join("short"), bench(&PROOF)).expect("it is written");
    let commands: [(&str, u32, u32, &[&str]); 5] = [
        ("cec_check_large", 7_168, 5_000, &["prove", "left", "right"]),
        ("cec_check_large", 7_168, 5_000, &["check", "both"]),
        ("cec_prove", 1_024, 600, &["prove", "left", "right"]),
        ("cec_check", 512, 130, &["check", "short"]),
        ("cec_eval", 256, 70, &["eval", "left", "3"]),
    ];
    for (program, needed, few, words) in commands {
        let wanted = run(&folder, words);
        let soft = run_with_stack(&folder, "-S -s 100", words);
        assert_eq!(soft, wanted, "{program}");
        if program != "cec_prove" {
            let enough = run_with_stack(&folder, &format!("-s {needed}"), words);
            assert_eq!(enough, wanted, "{program}");
        }
        let (status, printed, errors) = run_with_stack(&folder, &format!("-s {few}"), words);
        assert_eq!((status, printed.as_str()), (Some(2), ""), "{program}");
        let message = format!(
            "cec: {program} needs a stack of {needed} KB; this shell allows {few} (ulimit -H -s)\n"
        );
        assert!(errors.ends_with(&message), "{errors}");
    }
}
