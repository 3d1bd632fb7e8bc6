//! Cases written by hand from the paper, and the sample lists against arithmetic and each other.

use super::*;

const ADDER: &[u8] = include_bytes!("../../../../samples/adder16.txt");
const GUARD_OLD: &[u8] = include_bytes!("../../../../samples/guard-old.txt");
const GUARD_NEW: &[u8] = include_bytes!("../../../../samples/guard-new.txt");

/// The most working bytes that a list can need.
const ENOUGH: usize = 1 + 64 + 1_024;

/// The word of a list that is evaluated, with `work` looked at.
#[track_caller]
fn word(text: &[u8], pattern: u64) -> u64 {
    let mut work = [0xA5; ENOUGH];
    let word = evaluate(text, pattern, &mut work).expect("the list is evaluated");
    assert_eq!(work, [0; ENOUGH]);
    word
}

#[track_caller]
fn refused(text: &str, length: usize, number: u8, line: u64) {
    let mut work = vec![0xA5; length];
    let evaluated = evaluate(text.as_bytes(), u64::MAX, &mut work);
    assert_eq!(evaluated, Err(Refusal { number, line }), "{text:?}");
    assert_eq!(work, vec![0; length]);
}

/// Patterns with each bit on both sides: none, all, each bit alone, all but one, and mixed ones.
fn patterns() -> impl Iterator<Item = u64> {
    let singles = (0..64).flat_map(|place| [1 << place, !(1 << place)]);
    let mixed = (1..=500_u64).map(|number| number.wrapping_mul(0x9E37_79B9_7F4A_7C15));
    [0, u64::MAX].into_iter().chain(singles).chain(mixed)
}

/// A list of 64 outputs without gates: output k shows literal `shown(k)`.
fn wires(inputs: u8, shown: impl Fn(u16) -> u16) -> String {
    let outputs = (1..=64).map(|output| format!("04{:04X}\n", shown(output)));
    format!("01{inputs:02X}000040\n{}", outputs.collect::<String>())
}

#[test]
fn gates_have_their_truth_tables() {
    // Inputs a and b; outputs AND, XOR, and both with the first operand complemented.
    let text = b"0102000404\n0200020004\n0300020004\n0200030004\n0300030004\n\
        040006\n040008\n04000A\n04000C\n";
    assert_eq!(word(text, 0b00), 0b1000);
    assert_eq!(word(text, 0b01), 0b0010);
    assert_eq!(word(text, 0b10), 0b0110);
    assert_eq!(word(text, 0b11), 0b1001);
}

#[test]
fn net_0_is_false_and_its_complement_true() {
    assert_eq!(word(b"0100000002\n040000\n040001\n", u64::MAX), 0b10);
    let text = b"0100000202\n0200010001\n0300020001\n040002\n040004\n";
    assert_eq!(word(text, 0), 0b01);
    assert_eq!(word(text, u64::MAX), 0b01);
}

#[test]
fn bit_k_minus_1_is_input_k_and_output_k() {
    let same = wires(64, |output| 2 * output);
    let complemented = wires(64, |output| 2 * output + 1);
    let reversed = wires(64, |output| 2 * (65 - output));
    for pattern in patterns() {
        assert_eq!(word(same.as_bytes(), pattern), pattern);
        assert_eq!(word(complemented.as_bytes(), pattern), !pattern);
        assert_eq!(word(reversed.as_bytes(), pattern), pattern.reverse_bits());
    }
}

#[test]
fn bits_from_the_number_of_inputs_up_are_ignored() {
    for inputs in 0..64 {
        let shown = |output| {
            if output > u16::from(inputs) {
                0
            } else {
                2 * output
            }
        };
        let text = wires(inputs, shown);
        for pattern in patterns() {
            let wanted = pattern & ((1 << inputs) - 1);
            assert_eq!(word(text.as_bytes(), pattern), wanted, "{inputs} inputs");
        }
    }
}

#[test]
fn bits_past_the_last_output_are_0() {
    for outputs in 1..64 {
        let text = format!("0100{:04X}{outputs:02X}\n{}", 0, "040001\n".repeat(outputs));
        assert_eq!(word(text.as_bytes(), u64::MAX), (1 << outputs) - 1);
    }
}

#[test]
fn a_chain_of_1024_gates_is_evaluated_in_order() {
    // Gate k is the complement of gate k - 1, and the first that of the input.
    let mut text = String::from("0101040002\n");
    for gate in 1..=1_024 {
        text += &format!("03{:04X}0001\n", 2 * gate);
    }
    text += "040802\n040800\n";
    assert_eq!(word(text.as_bytes(), 0), 0b10);
    assert_eq!(word(text.as_bytes(), 1), 0b01);
}

/// The bench sample's lists, and the pairs of P11 and P12, agree on every pattern.
#[test]
fn bench_lists_agree() {
    let pairs: [(&[u8], &[u8]); 3] = [
        (b"0101000101\n0200020002\n040004\n", b"0101000001\n040002\n"),
        (
            b"0102000101\n0200020004\n040006\n",
            b"0102000101\n0200040002\n040006\n",
        ),
        (
            b"0102000301\n0200020005\n0200030004\n0200070009\n04000B\n",
            b"0102000101\n0300020004\n040006\n",
        ),
    ];
    for (left, right) in pairs {
        for pattern in 0..4 {
            assert_eq!(word(left, pattern), word(right, pattern));
        }
    }
    assert_eq!([0, 1].map(|pattern| word(pairs[0].0, pattern)), [0, 1]);
    let three_ands = [0, 1, 2, 3].map(|pattern| word(pairs[2].0, pattern));
    assert_eq!(three_ands, [0, 1, 1, 0]);
}

/// The adder's inputs are two numbers of 16 bits and a carry; its outputs are their sum.
#[test]
fn the_sample_adder_adds() {
    for pattern in patterns() {
        let sum = (pattern & 0xFFFF) + (pattern >> 16 & 0xFFFF) + (pattern >> 32 & 1);
        assert_eq!(word(ADDER, pattern), sum, "{pattern:016X}");
    }
}

#[test]
fn the_sample_guards_agree() {
    // Outputs 3 and 4 are 1 on this pattern, and hardly ever on a random one.
    let working: u64 = 0x0200_006C_003F;
    let near = (0..64).map(|place| working ^ 1 << place);
    let mut shown = 0;
    let mut hidden = 0;
    for pattern in patterns().chain([working]).chain(near) {
        let guard = word(GUARD_OLD, pattern);
        assert_eq!(guard, word(GUARD_NEW, pattern), "{pattern:016X}");
        shown |= guard;
        hidden |= !guard;
    }
    // Each of the twelve outputs was seen as 1 and as 0.
    assert_eq!((shown, hidden & 0xFFF), (0xFFF, 0xFFF));
}

#[test]
fn values_are_those_of_the_nets_whatever_was_there() {
    let list = read_list(b"0102000201\n0300020004\n0200070003\n040008\n").unwrap();
    let mut values = [0xA5; 6];
    evaluate_nets(&list, 0b10, &mut values);
    assert_eq!(values, [0, 0, 1, 1, 0, 0xA5]);
    assert_eq!(output_word(&list, &values), 0);
    evaluate_nets(&list, 0b00, &mut values);
    assert_eq!(values, [0, 0, 0, 0, 1, 0xA5]);
    assert_eq!(output_word(&list, &values), 1);
}

/// 17 asks for 1 + inputs + gates bytes; with more, all of them end as zeros.
#[test]
fn short_working_memory_is_17() {
    let largest = "0200000000\n".repeat(1_024);
    let lists = [
        ("0100000001\n040001\n".to_string(), 1),
        ("0102000101\n0200020004\n040001\n".to_string(), 4),
        ("0140000001\n040001\n".to_string(), 65),
        (format!("0140040001\n{largest}040001\n"), 1_089),
    ];
    for (text, need) in lists {
        for length in 0..need {
            refused(&text, length, 17, 0);
        }
        for length in [need, need + 1, need + 500] {
            let mut work = vec![0xA5; length];
            assert_eq!(evaluate(text.as_bytes(), 0, &mut work), Ok(1));
            assert_eq!(work, vec![0; length]);
        }
    }
}

#[test]
fn the_text_is_refused_before_the_working_memory() {
    for length in [0, 1, 3, 4, 100] {
        refused("", length, 4, 1);
        refused("0101000101\n", length, 4, 2);
        refused("0101000101\n0200020002\n04000", length, 2, 3);
        refused("0101000101\n0200020002\n040004\n\n", length, 3, 4);
        refused("0141000101\n0200020002\n040004\n", length, 5, 1);
        refused("0101000101\n0200020004\n040004\n", length, 7, 2);
        // A second list is a line too many, whatever its header says: the evaluator never says 6.
        refused("0101000001\n040002\n0102000001\n", length, 3, 3);
    }
}
