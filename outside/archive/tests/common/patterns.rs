//! Lists evaluated on all patterns, by the reference.

use cec_reference::{evaluate_nets, output_word, Netlist};

/// Each pattern of the inputs, and the words of both lists on it.
pub fn words<'lists>(
    left: &'lists Netlist,
    right: &'lists Netlist,
) -> impl Iterator<Item = (u64, [u64; 2])> + 'lists {
    let mut left_values = vec![0; left.nets()];
    let mut right_values = vec![0; right.nets()];
    (0..1 << left.inputs()).map(move |pattern| {
        let left_word = word(left, pattern, &mut left_values);
        let right_word = word(right, pattern, &mut right_values);
        (pattern, [left_word, right_word])
    })
}

fn word(list: &Netlist, pattern: u64, values: &mut [u8]) -> u64 {
    evaluate_nets(list, pattern, values);
    output_word(list, values)
}

/// The name under which pairs with so many inputs are counted.
pub fn inputs_of(count: usize) -> String {
    format!("{count:2} inputs")
}
