//! Miters written by hand from the paper, their largest size, and what their clauses say.

use super::*;
use crate::evaluator::{evaluate_nets, output_word};
use crate::netlist::read_lists;
use crate::sample::LISTS;

const ADDER: &[u8] = include_bytes!("../../../../samples/adder16.txt");
const GUARD_OLD: &[u8] = include_bytes!("../../../../samples/guard-old.txt");
const GUARD_NEW: &[u8] = include_bytes!("../../../../samples/guard-new.txt");

fn lists(text: &[u8]) -> (Netlist, Netlist) {
    read_lists(text).expect("the lists are read")
}

/// The number of variables, and the literals of each clause.
fn miter(text: &str) -> (u16, Vec<Vec<u16>>) {
    let (left, right) = lists(text.as_bytes());
    let miter = Miter::of(&left, &right);
    let literals = |clause: &Clause| -> Vec<u16> {
        let literals = clause.literals().iter();
        literals.map(|literal| literal.number()).collect()
    };
    (
        miter.variables,
        miter.clauses.iter().map(literals).collect(),
    )
}

/// The bench sample: variables 0 and a, the left gate, z.
#[test]
fn the_bench_sample_has_nine_clauses() {
    let (variables, clauses) = miter(LISTS);
    assert_eq!(variables, 4);
    let wanted: [&[u16]; 9] = [
        &[1],
        &[2, 5],
        &[2, 5],
        &[3, 4],
        &[2, 4, 7],
        &[3, 4, 6],
        &[2, 5, 6],
        &[3, 5, 7],
        &[6],
    ];
    assert_eq!(clauses, wanted);
}

/// Two inputs, a gate on each side, three outputs: z 5 to 7 and w 8 and 9. The right gate is
/// variable 4, and reads the shared inputs and no left gate.
const THREE_OUTPUTS: [&[u16]; 27] = [
    &[1],
    // The left gate 3 = AND of a, ¬b.
    &[2, 7],
    &[5, 7],
    &[3, 4, 6],
    // The right gate 4 = XOR of b, ¬a.
    &[3, 4, 9],
    &[2, 4, 8],
    &[3, 5, 8],
    &[2, 5, 9],
    // z 5 = XOR of the gate 3 and the complement of the gate 4.
    &[6, 9, 11],
    &[6, 8, 10],
    &[7, 9, 10],
    &[7, 8, 11],
    // z 6 = XOR of a and ¬b.
    &[2, 5, 13],
    &[2, 4, 12],
    &[3, 5, 12],
    &[3, 4, 13],
    // z 7 = XOR of true and false.
    &[0, 1, 15],
    &[1, 14],
    &[0, 14],
    &[0, 1, 15],
    // w 8 joins z 5 and z 6.
    &[11, 16],
    &[13, 16],
    &[10, 12, 17],
    // w 9 joins w 8 and z 7.
    &[17, 18],
    &[15, 18],
    &[14, 16, 19],
    &[18],
];

#[test]
fn right_gates_z_and_w_follow_in_order() {
    let (variables, clauses) = miter(
        "0102000103\n0200020005\n040006\n040002\n040001\n\
         0102000103\n0300040003\n040007\n040005\n040000\n",
    );
    assert_eq!(variables, 10);
    assert_eq!(clauses, THREE_OUTPUTS);
}

#[test]
fn the_largest_miter_has_2240_variables_and_8639_clauses() {
    let list = format!(
        "0140040040\n{}{}",
        "0300020080\n".repeat(1_024),
        "040880\n".repeat(64)
    );
    let (variables, clauses) = miter(&list.repeat(2));
    assert_eq!((variables, clauses.len()), (2_240, 8_639));
    let smallest = "0100000001\n040000\n";
    let (variables, clauses) = miter(&smallest.repeat(2));
    assert_eq!((variables, clauses.len()), (2, 6));
}

/// The value of each variable on a pattern: the shared nets, the gates of both lists, each z and
/// each w. Gives whether the words differ, too.
fn values(left: &Netlist, right: &Netlist, pattern: u64) -> (Vec<u8>, bool) {
    let mut values = vec![0; left.nets()];
    evaluate_nets(left, pattern, &mut values);
    let left_word = output_word(left, &values);
    let mut right_values = vec![0; right.nets()];
    evaluate_nets(right, pattern, &mut right_values);
    let differing = left_word ^ output_word(right, &right_values);
    values.extend(&right_values[1 + right.inputs()..]);
    let outputs = 0..left.outputs().len();
    values.extend(outputs.clone().map(|place| (differing >> place & 1) as u8));
    let seen = outputs.skip(1).map(|last| differing << (63 - last) != 0);
    values.extend(seen.map(u8::from));
    (values, differing != 0)
}

/// Each clause but the last is true of the nets' values, and the last says whether the words
/// differ.
#[test]
fn the_clauses_say_that_some_output_differs() {
    // The guard with its last output on another net.
    let damaged = [&GUARD_OLD[..GUARD_OLD.len() - 3], b"00\n"].concat();
    for (left, right, agree) in [
        (ADDER, ADDER, true),
        (GUARD_OLD, GUARD_NEW, true),
        (GUARD_OLD, &damaged, false),
    ] {
        let (left, right) = lists(&[left, right].concat());
        let miter = Miter::of(&left, &right);
        let (last, others) = miter.clauses.split_last().expect("there are clauses");
        let mut seen_to_differ = false;
        for number in 0..200_u64 {
            let pattern = number.wrapping_mul(0x9E37_79B9_7F4A_7C15);
            let (values, differ) = values(&left, &right, pattern);
            assert_eq!(values.len(), usize::from(miter.variables));
            let is_true = |clause: &Clause| clause.literals().iter().any(|l| shows(&values, l));
            assert!(others.iter().all(is_true));
            assert_eq!(is_true(last), differ);
            seen_to_differ |= differ;
        }
        assert_eq!(seen_to_differ, !agree);
    }
}

fn shows(values: &[u8], literal: &Literal) -> bool {
    values[literal.net()] == u8::from(!literal.is_complemented())
}
