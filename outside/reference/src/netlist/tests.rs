//! Cases written by hand from the paper: the samples P8 to P10 with their neighbours, each refusal
//! at each place where it can fall due, and which of two faults is given.

use super::*;

/// The lists of the bench samples.
const LEFT: &str = "0101000101\n0200020002\n040004\n";
const RIGHT: &str = "0101000001\n040002\n";

/// The reply to a text that was read: inputs, gates and outputs.
fn counts(text: &str) -> Result<[usize; 3], Refusal> {
    read_list(text.as_bytes()).map(|list| counts_of(&list))
}

fn counts_of(list: &Netlist) -> [usize; 3] {
    [list.inputs(), list.gates().len(), list.outputs().len()]
}

#[track_caller]
fn read(text: &str, expected: [usize; 3]) {
    assert_eq!(counts(text), Ok(expected), "{text:?}");
}

#[track_caller]
fn refused(text: &str, number: u8, line: u64) {
    assert_eq!(counts(text), Err(Refusal { number, line }), "{text:?}");
}

#[track_caller]
fn both_read(text: &str, left: [usize; 3], right: [usize; 3]) {
    let lists = read_lists(text.as_bytes());
    let lists = lists.map(|(left, right)| (counts_of(&left), counts_of(&right)));
    assert_eq!(lists, Ok((left, right)), "{text:?}");
}

#[track_caller]
fn both_refused(text: &str, number: u8, line: u64) {
    let lists = read_lists(text.as_bytes()).map(|_| ());
    assert_eq!(lists, Err(Refusal { number, line }), "{text:?}");
}

/// A header with these counts, and gates and outputs that read net 0 alone.
fn constant_list(inputs: u8, gates: u16, outputs: u8) -> String {
    let mut text = format!("01{inputs:02X}{gates:04X}{outputs:02X}\n");
    text += &"0200000001\n".repeat(gates.into());
    text += &"040000\n".repeat(outputs.into());
    text
}

/// The beginnings of the text that end behind a line: how many lines, from 0, and the text.
fn ends(text: &str) -> impl Iterator<Item = (u64, &str)> {
    let places = text.match_indices('\n').map(|(place, _)| place + 1);
    (0..).zip(std::iter::once(0).chain(places).map(|end| &text[..end]))
}

#[test]
fn a_list_is_one_header_its_gates_its_outputs() {
    let list = read_list(b"0102000202\n0200020005\n0300060001\n040008\n040000\n").unwrap();
    assert_eq!(list.inputs(), 2);
    assert_eq!(list.nets(), 5);
    let gates = [
        (Operation::And, [Literal(2), Literal(5)]),
        (Operation::Xor, [Literal(6), Literal(1)]),
    ];
    let gates = gates.map(|(operation, operands)| Gate {
        operation,
        operands,
    });
    assert_eq!(list.gates(), gates);
    assert_eq!(list.outputs(), [Literal(8), Literal(0)]);
}

#[test]
fn bench_lists_are_read() {
    read(LEFT, [1, 1, 1]);
    read(RIGHT, [1, 0, 1]);
    both_read(&format!("{LEFT}{RIGHT}"), [1, 1, 1], [1, 0, 1]);
    both_read(&format!("{RIGHT}{LEFT}"), [1, 0, 1], [1, 1, 1]);
}

#[test]
fn both_lists_leave_the_lines_behind_them() {
    let text = format!("{LEFT}{RIGHT}11000500020002\n");
    let mut lines = Lines::of(text.as_bytes());
    assert!(read_both(&mut lines).is_ok());
    assert_eq!(lines.next_number(), 6);
    assert!(matches!(lines.next(), Some(Ok(line)) if line.digits.len() == 14));
    both_refused(&text, 3, 6);
}

/// P8, from both sides of each limit.
#[test]
fn p8_counts_have_ranges() {
    for inputs in [0, 1, 0x3F, 0x40] {
        read(&constant_list(inputs, 0, 1), [inputs.into(), 0, 1]);
    }
    for inputs in [0x41, 0x80, 0xFF] {
        refused(&constant_list(inputs, 0, 1), 5, 1);
    }
    for gates in [0, 1, 0x03FF, 0x0400] {
        read(&constant_list(1, gates, 1), [1, gates.into(), 1]);
    }
    for gates in [0x0401, 0x0500, 0x8000, 0xFFFF] {
        refused(&constant_list(1, gates, 1), 5, 1);
    }
    for outputs in [1, 2, 0x3F, 0x40] {
        read(&constant_list(1, 0, outputs), [1, 0, outputs.into()]);
    }
    for outputs in [0, 0x41, 0x80, 0xFF] {
        refused(&constant_list(1, 0, outputs), 5, 1);
    }
    read(&constant_list(0x40, 0x0400, 0x40), [64, 1_024, 64]);
}

/// P9: net 1 is the input, net 2 the first gate itself.
#[test]
fn p9_a_gate_reads_only_nets_below_its_own() {
    for literal in 0..=3 {
        let gate = format!("0101000101\n02{literal:04X}0000\n040000\n");
        read(&gate, [1, 1, 1]);
        read(&gate.replace("\n02", "\n03"), [1, 1, 1]);
    }
    for literal in [4, 5, 6, 7, 0x8002, 0xFFFF] {
        refused(&format!("0101000101\n02{literal:04X}0000\n040000\n"), 7, 2);
        refused(&format!("0101000101\n020000{literal:04X}\n040000\n"), 7, 2);
        refused(&format!("0101000101\n03{literal:04X}0000\n040000\n"), 7, 2);
        refused(&format!("0101000101\n030000{literal:04X}\n040000\n"), 7, 2);
    }
    // The second gate may read the first, and neither may read the one behind it.
    read("0101000201\n0200000000\n0200050000\n040000\n", [1, 2, 1]);
    refused("0101000201\n0200000000\n0200060000\n040000\n", 7, 3);
    refused("0101000201\n0200060000\n0200000000\n040000\n", 7, 2);
    // Without inputs the first gate has the constant alone.
    read("0100000101\n0200010001\n040000\n", [0, 1, 1]);
    refused("0100000101\n0200020001\n040000\n", 7, 2);
}

#[test]
fn an_output_reads_any_net_and_no_other() {
    for literal in 0..=5 {
        read(
            &format!("0101000101\n0200000000\n04{literal:04X}\n"),
            [1, 1, 1],
        );
    }
    for literal in [6, 7, 0x8000, 0xFFFF] {
        refused(&format!("0101000101\n0200000000\n04{literal:04X}\n"), 7, 3);
    }
    read("0100000001\n040001\n", [0, 0, 1]);
    refused("0100000001\n040002\n", 7, 2);
    refused("0101000002\n040003\n040004\n", 7, 3);
}

/// P10, and the same end behind each line.
#[test]
fn p10_a_text_that_ends_where_a_frame_is_due_is_4() {
    refused("", 4, 1);
    let list = "0102000202\n0200020004\n0300060002\n040008\n040006\n";
    for (lines, text) in ends(list) {
        if lines < 5 {
            refused(text, 4, lines + 1);
        } else {
            read(text, [2, 2, 2]);
        }
    }
    for (lines, text) in ends(&format!("{LEFT}{RIGHT}")) {
        if lines < 5 {
            both_refused(text, 4, lines + 1);
        }
    }
}

#[test]
fn a_text_that_ends_within_a_line_is_2() {
    let pair = format!("{LEFT}{RIGHT}");
    for (lines, text) in ends(&pair) {
        let behind = &pair[text.len()..];
        for digits in 1..=behind.find('\n').unwrap_or(0) {
            let cut = format!("{text}{}", &behind[..digits]);
            both_refused(&cut, 2, lines + 1);
        }
    }
    refused("0101000101\n0200020002\n040004", 2, 3);
}

#[test]
fn a_kind_not_due_or_a_wrong_length_is_3() {
    let others = [
        "00000000",
        "05000000",
        "11000500020002",
        "1200020002",
        "1300020002",
        "21000000000004000D",
    ];
    let lines = ["0101000101", "0200020002", "0300020002", "040002"];
    for due in 0..3 {
        let due_here = [0..1, 1..3, 3..4][due].clone();
        let wrong = (0..4).filter(|kind| !due_here.contains(kind));
        let wrong = wrong.map(|kind| lines[kind]).chain(others);
        for line in wrong.chain(["", "0", "02", "02000200021", "020002000200"]) {
            let mut list = ["0101000101", "0200020002", "040004"];
            list[due] = line;
            refused(&(list.join("\n") + "\n"), 3, due as u64 + 1);
        }
    }
}

#[test]
fn a_line_behind_the_end_is_read_before_it_is_refused() {
    for behind in ["\n", "0\n", "040004\n", "0101000101\n", "\nG\n", "05\n04"] {
        refused(&format!("{LEFT}{behind}"), 3, 4);
        both_refused(&format!("{LEFT}{RIGHT}{behind}"), 3, 6);
    }
    for behind in ["G\n", "\r\n", "040004", "0", "04000a\n"] {
        refused(&format!("{LEFT}{behind}"), 2, 4);
        both_refused(&format!("{LEFT}{RIGHT}{behind}"), 2, 6);
    }
}

/// On one line: bytes before frame, frame before what it says.
#[test]
fn of_two_faults_on_one_line_the_earlier_place_is_given() {
    refused("01410401000\r\n", 2, 1);
    refused("01ff000101\n", 2, 1);
    refused("0141040100", 2, 1);
    refused("014104010\n", 3, 1);
    refused("01410401000\n", 3, 1);
    refused("0101000101\n02FFFFffff\n", 2, 2);
    refused("0101000101\n02FFFFFFFF", 2, 2);
    refused("0101000101\n02FFFFFFFFF\n", 3, 2);
    refused("0101000101\n02FFFFFFF\n", 3, 2);
    refused("0101000101\n12FFFFFFFF\n", 3, 2);
    refused("0101000101\n04FFFF\n", 3, 2);
    refused("0101000001\n02FFFFFFFF\n", 3, 2);
    refused("0101000001\n04FFFFF\n", 3, 2);
    refused("0101000001\n04FFFf\n", 2, 2);
}

#[test]
fn of_two_faulty_lines_the_first_is_given() {
    refused("0141000101\nG\n", 5, 1);
    refused("0101000101\n0200040000\nG\n", 7, 2);
    refused("0101000101\n\n04FFFF\n", 3, 2);
    refused("0101000101\n0200020002\n040006\n\n", 7, 3);
    refused("0101000101\nG\n", 2, 2);
    refused("\n0101000101\n0200020002\n040004\n", 3, 1);
    both_refused(&format!("0101000001\n040004\n{RIGHT}"), 7, 2);
    both_refused("0101000001\n040004\n0102000001\n", 7, 2);
}

#[test]
fn a_right_header_is_like_the_left_but_for_its_gates() {
    let left = "0102000102\n0200020004\n040006\n040002\n";
    both_read(
        &format!("{left}0102000002\n040004\n040000\n"),
        [2, 1, 2],
        [2, 0, 2],
    );
    both_read(
        &format!("{left}{}", constant_list(2, 0x0400, 2)),
        [2, 1, 2],
        [2, 1_024, 2],
    );
    for right in ["0101000102", "0103000102", "0102000101", "0102000103"] {
        both_refused(&format!("{left}{right}\n"), 6, 5);
    }
    // 5 before 6: a count out of range, whether the others are like the left's or not.
    for right in [
        "0141000102",
        "0102040102",
        "0101040102",
        "0102000100",
        "0101000100",
        "0102000141",
        "0141000141",
    ] {
        both_refused(&format!("{left}{right}\n"), 5, 5);
    }
    // 2 and 3 before both.
    both_refused(&format!("{left}01410001F\n"), 3, 5);
    both_refused(&format!("{left}01410001ff\n"), 2, 5);
    both_refused(&format!("{left}0141000101"), 2, 5);
}

#[test]
fn right_literals_are_over_the_right_lists_own_nets() {
    let left = "0101000201\n0200020002\n0200040004\n040006\n";
    let right = "0101000101\n0200030003\n040005\n";
    both_read(&format!("{left}{right}"), [1, 2, 1], [1, 1, 1]);
    // Net 2 is the right gate's own, though the left list has nets up to 3.
    both_refused(&format!("{left}0101000101\n0200040003\n040005\n"), 7, 6);
    both_refused(&format!("{left}0101000101\n0200030003\n040006\n"), 7, 7);
    // The right list is longer than the left.
    both_read(&format!("{right}{left}"), [1, 1, 1], [1, 2, 1]);
    both_refused(
        &format!("{right}0101000201\n0200020002\n0200040004\n040008\n"),
        7,
        7,
    );
}
