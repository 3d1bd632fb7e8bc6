//! Pairs of small lists that agree on every pattern, though their gates may differ.

use cec_reference::{evaluate_nets, read_list};

use super::lists::{List, Shape, XOR};
use super::random::Random;

/// The most inputs of a pair: all its patterns are tried.
pub const MOST_INPUTS: usize = 10;

/// Two lists with equal outputs. The right gates are the left ones rewritten, or others.
pub fn agreeing(random: &mut Random) -> [List; 2] {
    let any_inputs = random.below(MOST_INPUTS + 1);
    let few_outputs = 1 + random.below(5);
    let shape = Shape {
        inputs: random.pick(&[0, 1, 1, 2, 2, 2, 3, 3, 4, any_inputs]),
        gates: random.below(6),
        outputs: random.pick(&[1, 1, 1, 1, 2, few_outputs]),
    };
    let left = List::random(random, shape);
    let right = if random.one_in(3) {
        let gates = random.below(6);
        List::random(random, Shape { gates, ..shape })
    } else {
        rewritten(random, &left)
    };
    with_equal_outputs(random, [left, right])
}

/// The same gates with operands exchanged, XORs with both operands complemented, and now and then
/// another function.
fn rewritten(random: &mut Random, list: &List) -> List {
    let mut list = list.clone();
    for (kind, operands) in &mut list.gates {
        if random.one_in(2) {
            operands.swap(0, 1);
        }
        if *kind == XOR && random.one_in(2) {
            *operands = operands.map(|literal| literal ^ 1);
        }
        if random.one_in(6) {
            *kind ^= 1;
        }
    }
    list
}

/// The lists with each pair of outputs on literals that agree: mostly over two gates, if there are
/// such. Net 0 is equal on both sides, so some pair of nets always is.
fn with_equal_outputs(random: &mut Random, mut lists: [List; 2]) -> [List; 2] {
    let equal = equal_literals(&lists);
    let first_gate = 2 * (1 + lists[0].counts[0]);
    let over_gates = |pair: &&[usize; 2]| pair.iter().all(|&literal| literal >= first_gate);
    let gates: Vec<[usize; 2]> = equal.iter().filter(over_gates).copied().collect();
    for output in 0..lists[0].outputs.len() {
        let all = gates.is_empty() || random.one_in(4);
        let [left, right] = random.pick(if all { &equal } else { &gates });
        let sign = random.below(2);
        lists[0].outputs[output] = left ^ sign;
        lists[1].outputs[output] = right ^ sign;
    }
    lists
}

/// Each left net, and a literal over a right net with the same value on every pattern.
fn equal_literals(lists: &[List; 2]) -> Vec<[usize; 2]> {
    let [left, right] = lists.each_ref().map(tables);
    let mut equal = Vec::new();
    for (left_net, left) in left.iter().enumerate() {
        for (right_net, right) in right.iter().enumerate() {
            let sign = usize::from(left[0] ^ right[0]);
            if left
                .iter()
                .zip(right)
                .all(|(a, b)| usize::from(a ^ b) == sign)
            {
                equal.push([2 * left_net, 2 * right_net + sign]);
            }
        }
    }
    equal
}

/// The values of each net on all patterns of the inputs.
fn tables(list: &List) -> Vec<Vec<u8>> {
    let list = read_list(&list.text()).expect("the list is read");
    let mut values = vec![0; list.nets()];
    let mut tables = vec![Vec::new(); list.nets()];
    for pattern in 0..1 << list.inputs() {
        evaluate_nets(&list, pattern, &mut values);
        for (table, &value) in tables.iter_mut().zip(&values) {
            table.push(value);
        }
    }
    tables
}
