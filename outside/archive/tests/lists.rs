//! The archive's readers of gate lists against the reference: the whole reply. Each failure prints
//! the seed, the case and its bytes.

mod common;

use cec_archive::{read_list, read_lists};
use common::lists::{List, Shape, LARGEST};
use common::random::{seed, Random};
use common::tally::Tally;
use common::{expected, hex, list_texts, places, samples};

const ONE_CASES: u64 = 200_000;
const TWO_CASES: u64 = 200_000;

/// How many lists are cut at every byte.
const CUT_CASES: u64 = 200;

/// Reads the text as one list with both, compares the whole reply, and counts the outcome.
fn compare_one(tally: &mut Tally, case: u64, about: &str, text: &[u8]) -> [u64; 5] {
    let lent = list_texts::with_bytes_behind(case, text);
    let archive = read_list(&lent[..text.len()]);
    same_replies(archive, expected::list_reading(text), case, about, text);
    tally.count(outcome(archive[0], archive[1], text, places::ONE));
    archive
}

/// The same for two lists.
fn compare_two(tally: &mut Tally, case: u64, about: &str, text: &[u8]) -> [u64; 6] {
    let lent = list_texts::with_bytes_behind(case, text);
    let archive = read_lists(&lent[..text.len()]);
    same_replies(archive, expected::lists_reading(text), case, about, text);
    tally.count(outcome(archive[0], archive[1], text, places::TWO));
    archive
}

fn same_replies<const N: usize>(
    archive: [u64; N],
    reference: [u64; N],
    case: u64,
    about: &str,
    text: &[u8],
) {
    assert_eq!(
        archive,
        reference,
        "archive and reference differ: seed {:#X}, case {case} ({about}), {} bytes {}",
        seed(),
        text.len(),
        hex(text)
    );
}

fn outcome(number: u64, line: u64, text: &[u8], lists: &[&str]) -> String {
    match number {
        0 => "read".into(),
        _ => places::refusal(text, number, line, lists),
    }
}

/// Every outcome of reading these lists.
fn outcomes(lists: &[&str]) -> Vec<String> {
    let read = std::iter::once("read".into());
    read.chain(places::refusals(lists)).collect()
}

/// Those that begin with one of these, and name none of those places.
fn outcomes_of(lists: &[&str], beginnings: &[&str], not_at: &[&str]) -> Vec<String> {
    let wanted = |outcome: &String| {
        beginnings.iter().any(|&b| outcome.starts_with(b))
            && !not_at.iter().any(|&place| outcome.contains(place))
    };
    outcomes(lists).into_iter().filter(wanted).collect()
}

/// What a list that was read can have of the ends of the ranges; and whether the text's gates and
/// outputs read net 0 alone.
fn features(inputs: u64, gates: u64, outputs: u64, text: &[u8]) -> [(&'static str, bool); 7] {
    [
        ("no inputs", inputs == 0),
        ("64 inputs", inputs == 64),
        ("no gates", gates == 0),
        ("1,024 gates", gates == 1_024),
        ("one output", outputs == 1),
        ("64 outputs", outputs == 64),
        ("gates over the constant", gates > 0 && constant_only(text)),
    ]
}

fn constant_only(text: &[u8]) -> bool {
    let lines = text.split(|&byte| byte == b'\n');
    let gates_and_outputs = lines.filter(|line| !line.is_empty() && !line.starts_with(b"01"));
    let mut literals = gates_and_outputs.flat_map(|line| line[2..].chunks(4));
    literals.all(|literal| matches!(literal, b"0000" | b"0001"))
}

fn count_features(tally: &mut Tally, features: [(&str, bool); 7]) {
    for (name, present) in features {
        if present {
            tally.count(name.into());
        }
    }
}

fn every_feature() -> [String; 7] {
    features(0, 0, 0, b"").map(|(name, _)| name.into())
}

/// Replies written by hand from the paper, so that an error shared by both sides is seen too.
#[test]
fn replies_by_hand() {
    let one: [(&[u8], [u64; 5]); 17] = [
        (b"0101000101\n0200020002\n040004\n", [0, 0, 1, 1, 1]),
        (b"0101000001\n040002\n", [0, 0, 1, 0, 1]),
        (b"0100000002\n040000\n040001\n", [0, 0, 0, 0, 2]),
        (b"0101000101\n0200020002\n04000a\n", [2, 3, 0, 0, 0]),
        (b"0101000101\r\n0200020002\n040004\n", [2, 1, 0, 0, 0]),
        (b"0101000101\n0200020002\n040004", [2, 3, 0, 0, 0]),
        (b"0101000101\n040004\n040004\n", [3, 2, 0, 0, 0]),
        (b"0101000101\n0200020002\n040004\n\n", [3, 4, 0, 0, 0]),
        (b"0101000101\n0200020002\n040004\n04", [2, 4, 0, 0, 0]),
        (b"0101000101\n0200020002\n", [4, 3, 0, 0, 0]),
        (b"0101000101\n0200020006\n040004\n", [7, 2, 0, 0, 0]),
        (b"0101000101\n0200020002\n040006\n", [7, 3, 0, 0, 0]),
        (b"0101000101\n02FFFFFFFFF\n040004\n", [3, 2, 0, 0, 0]),
        (b"014100010G\n0200020002\n040004\n", [2, 1, 0, 0, 0]),
        (b"0141000101\nG\n", [5, 1, 0, 0, 0]),
        (b"0101000101\n0200040002\nG\n", [7, 2, 0, 0, 0]),
        (b"0101000101\n0200020002\n040006\n\n", [7, 3, 0, 0, 0]),
    ];
    for (text, reply) in one {
        assert_eq!(read_list(text), reply, "{:?}", text.escape_ascii());
    }
    let left = "0101000101\n0200020002\n040004\n";
    let two: [(&str, [u64; 6]); 16] = [
        ("0101000001\n040002\n", [0, 0, 1, 1, 0, 1]),
        (
            "0101000201\n0300020001\n0300050001\n040007\n",
            [0, 0, 1, 1, 2, 1],
        ),
        ("", [4, 4, 0, 0, 0, 0]),
        ("0101000001\n", [4, 5, 0, 0, 0, 0]),
        ("0102000001\n040002\n", [6, 4, 0, 0, 0, 0]),
        ("0101000002\n040002\n040002\n", [6, 4, 0, 0, 0, 0]),
        ("0141000001\n040002\n", [5, 4, 0, 0, 0, 0]),
        ("0102000000\n040002\n", [5, 4, 0, 0, 0, 0]),
        ("0101040101\n040002\n", [5, 4, 0, 0, 0, 0]),
        ("0102000001", [2, 4, 0, 0, 0, 0]),
        ("01020000011\n", [3, 4, 0, 0, 0, 0]),
        ("0101000001\n040004\n", [7, 5, 0, 0, 0, 0]),
        ("0101000101\n0200040002\n040004\n", [7, 5, 0, 0, 0, 0]),
        ("0101000001\n040002\n11000500020002\n", [3, 6, 0, 0, 0, 0]),
        ("0102000001\nG\n", [6, 4, 0, 0, 0, 0]),
        ("0101000001\n040004\n\n", [7, 5, 0, 0, 0, 0]),
    ];
    for (right, reply) in two {
        let text = format!("{left}{right}");
        assert_eq!(read_lists(text.as_bytes()), reply, "{text:?}");
    }
    eprintln!("replies by hand: {} cases", one.len() + two.len());
}

/// P8 to P10, and their neighbours.
#[test]
fn samples_p8_to_p10() {
    let constant_list = |inputs: u64, gates: u64, outputs: u64| {
        let mut text = format!("01{inputs:02X}{gates:04X}{outputs:02X}\n");
        text += &"0300000001\n".repeat(gates as usize);
        text += &"040001\n".repeat(outputs as usize);
        text
    };
    let read = [
        [0, 0, 1],
        [1, 0, 1],
        [63, 0, 1],
        [64, 0, 1],
        [1, 1_023, 1],
        [1, 1_024, 1],
        [1, 0, 63],
        [1, 0, 64],
        [64, 1_024, 64],
    ];
    for [inputs, gates, outputs] in read {
        let text = constant_list(inputs, gates, outputs);
        let reply = read_list(text.as_bytes());
        assert_eq!(reply, [0, 0, inputs, gates, outputs]);
        let reply = read_lists(text.repeat(2).as_bytes());
        assert_eq!(reply, [0, 0, inputs, gates, gates, outputs]);
    }
    let refused = [
        [65, 0, 1],
        [255, 0, 1],
        [1, 1_025, 1],
        [1, 65_535, 1],
        [1, 0, 0],
        [1, 0, 65],
        [1, 0, 255],
    ];
    for [inputs, gates, outputs] in refused {
        let text = constant_list(inputs, gates, outputs);
        assert_eq!(read_list(text.as_bytes()), [5, 1, 0, 0, 0]);
        assert_eq!(read_lists(text.as_bytes()), [5, 1, 0, 0, 0, 0]);
        let right = format!("0101000001\n040002\n{text}");
        assert_eq!(read_lists(right.as_bytes()), [5, 3, 0, 0, 0, 0]);
    }
    for literal in 0..8 {
        for operands in [format!("{literal:04X}0000"), format!("0000{literal:04X}")] {
            for kind in ["02", "03"] {
                let text = format!("0101000101\n{kind}{operands}\n040000\n");
                let reply = match literal {
                    0..=3 => [0, 0, 1, 1, 1],
                    _ => [7, 2, 0, 0, 0],
                };
                assert_eq!(read_list(text.as_bytes()), reply, "{text:?}");
            }
        }
    }
    assert_eq!(read_list(b""), [4, 1, 0, 0, 0]);
    assert_eq!(read_lists(b""), [4, 1, 0, 0, 0, 0]);
    let headers = read.len() + refused.len();
    eprintln!("P8 to P10: {headers} headers, 32 gates and the empty text");
}

#[test]
fn one_list_is_read_alike() {
    let mut tally = Tally::default();
    let mut reached = Tally::default();
    for case in 0..ONE_CASES {
        let (about, text) = list_texts::any(&mut Random::of_case(seed(), case), 1);
        let [refusal, _, inputs, gates, outputs] = compare_one(&mut tally, case, &about, &text);
        if refusal == 0 {
            count_features(&mut reached, features(inputs, gates, outputs, &text));
        }
    }
    tally.finish("texts of one list", 100_000, &outcomes(places::ONE));
    reached.finish("features of one list", 20_000, &every_feature());
}

#[test]
fn two_lists_are_read_alike() {
    let mut tally = Tally::default();
    let mut reached = Tally::default();
    let mut gates = Tally::default();
    for case in 0..TWO_CASES {
        let (about, text) = list_texts::any(&mut Random::of_case(seed(), case), 2);
        let [refusal, _, inputs, left, right, outputs] =
            compare_two(&mut tally, case, &about, &text);
        if refusal == 0 {
            count_features(&mut reached, features(inputs, left, outputs, &text));
            count_features(&mut reached, features(inputs, right, outputs, &text));
            gates.count(format!("{:?}", left.cmp(&right)));
        }
    }
    tally.finish("texts of two lists", 100_000, &outcomes(places::TWO));
    reached.finish("features of two lists", 20_000, &every_feature());
    let orders = ["Less", "Equal", "Greater"].map(String::from);
    gates.finish("left gates against right gates", 20_000, &orders);
}

/// Every count of a header, alone and behind a left list. Nothing follows, so a count in its range
/// shows as 4 behind the header.
#[test]
fn every_count_is_bounded_alike() {
    let mut one = Tally::default();
    let mut two = Tally::default();
    let left = "0105000103\n0200020004\n040002\n040004\n040006\n";
    let mut compare = |case: u64, header: String| {
        compare_one(&mut one, case, "header", header.as_bytes());
        let text = format!("{left}{header}");
        compare_two(&mut two, case, "right header", text.as_bytes());
    };
    for case in 0..=0xFFFF {
        let (inputs, outputs) = (case >> 8, case & 0xFF);
        compare(case, format!("01{inputs:02X}0000{outputs:02X}\n"));
        compare(case, format!("0105{case:04X}03\n"));
    }
    let outcomes = [
        "5 at the header",
        "4 at the only gate",
        "4 at the first gate",
        "4 at the only output",
        "4 at the first output",
    ];
    one.finish("every count", 0x2_0000, &outcomes.map(String::from));
    let outcomes = [
        "5 at the right header",
        "6 at the right header",
        "4 at the only right gate",
        "4 at the first right gate",
        "4 at the first right output",
    ];
    two.finish("every right count", 0x2_0000, &outcomes.map(String::from));
}

/// All small literals, and large ones spread so that their low digits differ.
fn literals() -> impl Iterator<Item = usize> {
    (0..0x0180)
        .chain((0x0180..=0xFFFF).step_by(61))
        .chain([0xFFFE, 0xFFFF])
}

/// Gives the list with each of those literals at each place of a gate and an output.
fn each_literal(list: &List, mut given: impl FnMut(&List)) {
    for literal in literals() {
        for gate in 0..list.gates.len() {
            for operand in 0..2 {
                let mut list = list.clone();
                list.gates[gate].1[operand] = literal;
                given(&list);
            }
        }
        for output in 0..list.outputs.len() {
            let mut list = list.clone();
            list.outputs[output] = literal;
            given(&list);
        }
    }
}

/// The literals of small lists, with inputs at both ends of their range.
#[test]
fn literals_are_bounded_alike_at_every_place() {
    let mut tally = Tally::default();
    let mut case = 0;
    for inputs in [0, 1, 2, 63, 64] {
        for (gates, outputs) in [(0, 1), (0, 3), (1, 1), (3, 3)] {
            let shape = Shape {
                inputs,
                gates,
                outputs,
            };
            let list = List::random(&mut Random::of_case(seed(), case), shape);
            each_literal(&list, |list| {
                compare_one(&mut tally, case, "one literal set", &list.text());
                case += 1;
            });
        }
    }
    let outcomes = outcomes_of(places::ONE, &["read", "7"], &[]);
    tally.finish("literals at every place", 100_000, &outcomes);
}

/// The right list's literals, beside left lists with fewer, as many and more gates.
#[test]
fn right_literals_are_bounded_alike_at_every_place() {
    let mut tally = Tally::default();
    let mut case = 0;
    for inputs in [0, 2, 64] {
        for left_gates in [0, 3, 9] {
            for (gates, outputs) in [(1, 1), (3, 3)] {
                let shape = Shape {
                    inputs,
                    gates,
                    outputs,
                };
                let mut random = Random::of_case(seed(), case);
                let left = Shape {
                    gates: left_gates,
                    ..shape
                };
                let left = List::random(&mut random, left).text();
                let right = List::random(&mut random, shape);
                each_literal(&right, |right| {
                    let text = [left.clone(), right.text()].concat();
                    compare_two(&mut tally, case, "one right literal set", &text);
                    case += 1;
                });
            }
        }
    }
    let outcomes = outcomes_of(places::TWO, &["read", "7"], &["left"]);
    tally.finish("right literals at every place", 100_000, &outcomes);
}

/// Small lists cut at every byte.
#[test]
fn every_cut_is_read_alike() {
    let mut one = Tally::default();
    let mut two = Tally::default();
    for case in 0..CUT_CASES {
        let mut random = Random::of_case(seed(), case);
        let (inputs, outputs) = (random.below(65), 1 + random.below(5));
        let mut text = Vec::new();
        for _ in 0..2 {
            let shape = Shape {
                inputs,
                gates: random.below(6),
                outputs,
            };
            text.extend(List::random(&mut random, shape).text());
        }
        for length in 0..=text.len() {
            let reply = compare_one(&mut one, case, "cut", &text[..length]);
            // What was cut off stands right behind what is lent here.
            assert_eq!(read_list(&text[..length]), reply, "seed {:#X}", seed());
            let reply = compare_two(&mut two, case, "cut", &text[..length]);
            assert_eq!(read_lists(&text[..length]), reply, "seed {:#X}", seed());
        }
    }
    // The right list's lines are lines behind the end of one list.
    let outcomes = outcomes_of(places::ONE, &["read", "2", "4", "3 at the end"], &[]);
    one.finish("every cut of one list", 20_000, &outcomes);
    let outcomes = outcomes_of(places::TWO, &["read", "2", "4"], &["end"]);
    two.finish("every cut of two lists", 20_000, &outcomes);
}

/// A small text of lists, with every byte in turn at each place of it.
#[test]
fn every_byte_at_every_place_is_read_alike() {
    let mut one = Tally::default();
    let mut two = Tally::default();
    let left = b"0101000202\n0200020003\n0300040001\n040006\n040000\n";
    let right = b"0101000202\n0300030002\n0200030005\n040005\n040001\n";
    let both = [left.as_slice(), right].concat();
    let mut case = 0;
    for place in 0..both.len() {
        for byte in 0..=255 {
            let mut text = both.clone();
            text[place] = byte;
            if place < left.len() {
                compare_one(&mut one, case, "one byte set", &text[..left.len()]);
            }
            compare_two(&mut two, case, "one byte set", &text);
            case += 1;
        }
    }
    // Of the places in the middle, only a header with another count makes some.
    let numbers = ["read", "2", "3", "5", "6", "7"];
    let wanted = outcomes_of(places::ONE, &numbers, &["only", "middle", "2 at the end"]);
    let at_least = 256 * left.len() as u64;
    one.finish_within("every byte", at_least, &wanted, &outcomes(places::ONE));
    // A right header with fewer outputs is 6, so no line is left behind the end.
    let wanted = outcomes_of(places::TWO, &numbers, &["only", "middle", "the end"]);
    let at_least = 256 * both.len() as u64;
    two.finish_within(
        "every byte of two lists",
        at_least,
        &wanted,
        &outcomes(places::TWO),
    );
}

/// The largest lists, faulty at a line in each way that a line can be: at every line of one list,
/// and at the ends and some others of a right list.
#[test]
fn lines_of_the_largest_lists_are_read_alike() {
    let mut one = Tally::default();
    let mut two = Tally::default();
    let mut random = Random::of_case(seed(), 0);
    let left = List::random(&mut random, LARGEST);
    let right = List::random(&mut random, LARGEST);
    for (case, faulty) in (0..).zip(faulty_at_each_line(&left)) {
        for text in faulty {
            compare_one(&mut one, case, "largest", &text);
        }
    }
    for (case, faulty) in (0..).zip(faulty_at_each_line(&right)) {
        // Header, first gate, last gate, first output and last output are among these.
        if case % 16 < 2 {
            for text in faulty {
                let text = [left.text(), text].concat();
                compare_two(&mut two, case, "largest right", &text);
            }
        }
    }
    compare_one(&mut one, 0, "largest", &left.text());
    let both = [left.text(), right.text()].concat();
    compare_two(&mut two, 0, "two largest", &both);
    let numbers = ["read", "2", "3", "4", "7"];
    let outcomes = outcomes_of(places::ONE, &numbers, &["only", "end"]);
    one.finish("lines of the largest list", 5_000, &outcomes);
    let outcomes = outcomes_of(places::TWO, &numbers, &["only", "end", "left"]);
    two.finish("lines of the largest right list", 600, &outcomes);
}

/// For each line of the list its text with that line cut off, emptied, with a byte that is no
/// digit, and made a gate and an output that read no net of the list.
fn faulty_at_each_line(list: &List) -> impl Iterator<Item = [Vec<u8>; 5]> {
    let lines = list.lines();
    (0..lines.len()).map(move |at| {
        let before = lines[..at].concat();
        let behind = lines[at + 1..].concat();
        let with = |line: &[u8]| [before.as_slice(), line, &behind].concat();
        [
            before.clone(),
            with(b"\n"),
            with(b"0G\n"),
            with(b"02FFFF0000\n"),
            with(b"04FFFF\n"),
        ]
    })
}

/// Long lines: 70,000 digits, and excesses that a length of 8 or 16 bits would lose.
#[test]
fn overlong_lines_are_read_alike() {
    let mut tally = Tally::default();
    let shape = Shape {
        inputs: 3,
        gates: 3,
        outputs: 3,
    };
    let lines = List::random(&mut Random::of_case(seed(), 0), shape).lines();
    for at in 0..lines.len() {
        for excess in [1, 2, 255, 256, 512, 65_535, 65_536, 70_000] {
            for end in ["", "G", "\n", "G\n"] {
                let mut lines = lines.clone();
                lines[at].pop();
                lines[at].extend("0".repeat(excess).bytes());
                lines[at].extend(end.bytes());
                compare_one(&mut tally, at as u64, "overlong", &lines.concat());
            }
        }
    }
    let outcomes = outcomes_of(places::ONE, &["2", "3"], &["only", "end"]);
    tally.finish("overlong lines", 200, &outcomes);
}

#[test]
fn sample_lists_are_read_alike() {
    let mut one = Tally::default();
    let mut two = Tally::default();
    for (left, left_shape) in samples::ALL {
        let text = samples::text(left);
        let reply = compare_one(&mut one, 0, left, &text);
        let Shape {
            inputs,
            gates,
            outputs,
        } = left_shape;
        let [inputs, gates, outputs] = [inputs, gates, outputs].map(|count| count as u64);
        assert_eq!(reply, [0, 0, inputs, gates, outputs], "{left}");
        for (right, right_shape) in samples::ALL {
            let pair = [text.clone(), samples::text(right)].concat();
            let reply = compare_two(&mut two, 0, &format!("{left} and {right}"), &pair);
            let wanted = if left_shape.inputs == right_shape.inputs {
                [0, 0, inputs, gates, right_shape.gates as u64, outputs]
            } else {
                [6, 2 + gates + outputs, 0, 0, 0, 0]
            };
            assert_eq!(reply, wanted, "{left} and {right}");
        }
    }
    one.finish("sample lists", 3, &["read".into()]);
    let outcomes = ["read", "6 at the right header"].map(String::from);
    two.finish("pairs of sample lists", 9, &outcomes);
}
