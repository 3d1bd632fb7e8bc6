//! Runs the program `frames` on small texts: what it prints, and its exit status.

use std::io::Write;
use std::process::{Command, Stdio};

/// Exit status, standard output and standard error for this standard input.
fn frames(text: &[u8]) -> (Option<i32>, String, String) {
    let mut program = Command::new(env!("CARGO_BIN_EXE_frames"))
        .stdin(Stdio::piped())
        .stdout(Stdio::piped())
        .stderr(Stdio::piped())
        .spawn()
        .expect("the program starts");
    let mut input = program.stdin.take().expect("its input is a pipe");
    input.write_all(text).expect("its input is taken");
    drop(input);
    let ended = program.wait_with_output().expect("the program ends");
    let text = |bytes| String::from_utf8(bytes).expect("the output is text");
    (ended.status.code(), text(ended.stdout), text(ended.stderr))
}

#[test]
fn every_kind_is_shown_in_words() {
    let text = b"0102000301\n0200020004\n0300030005\n040006\n\
        11000A000B0001\n1200020004\n13FFFF0000\n210A00000600070008\n";
    let shown = "\
1: header inputs 2, gates 3, outputs 1
2: AND gate 2, 4
3: XOR gate 3, 5
4: output 6
5: resolve clause 10, clause 11, variable 1
6: extend by AND 2, 4
7: extend by XOR 65535, 0
8: report refusal 10, line 6, steps 7, clauses 8
8 lines read and written back unchanged
";
    assert_eq!(frames(text), (Some(0), shown.into(), String::new()));
}

#[test]
fn no_bytes_are_no_lines() {
    let shown = "0 lines read and written back unchanged\n";
    assert_eq!(frames(b""), (Some(0), shown.into(), String::new()));
}

#[test]
fn a_fault_ends_with_its_line_and_status_1() {
    let faults: [(&[u8], &str); 5] = [
        (b"040002\n04000g\n", "refusal 2 at line 2"),
        (b"040002\n040004", "refusal 2 at line 2"),
        (b"040002\n\n040002\n", "refusal 3 at line 2"),
        (b"040002\n14\n", "refusal 3 at line 2"),
        (b"040002\n0400020\n", "refusal 3 at line 2"),
    ];
    for (text, refusal) in faults {
        let (status, shown, fault) = frames(text);
        assert_eq!((status, shown.as_str()), (Some(1), "1: output 2\n"));
        assert!(fault.starts_with(refusal), "{fault}");
    }
}
