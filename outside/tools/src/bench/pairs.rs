//! The pairs of lists that are measured.

use crate::common::lists::{List, Shape, LARGEST, XOR};
use crate::common::random::{seed, Random};
use crate::common::rewrites;

/// The gates a side of the smallest pairs with 64 outputs, and how often they are doubled.
pub const FEWEST_GATES: usize = 64;
pub const DOUBLINGS: u32 = 4;

/// A pair of lists with so many gates on the left, and about as many on the right.
pub type Pairing = (&'static str, fn(&mut Random, Shape) -> [List; 2]);

pub const EXCHANGED: Pairing = ("the same gates, operands exchanged", |random, shape| {
    let left = list(random, shape);
    let mut right = left.clone();
    let gates = right.gates.iter_mut();
    gates.for_each(|(_, operands)| operands.reverse());
    [left, right]
});

pub const REWRITTEN: Pairing = ("a list with many folds, rewritten", |random, shape| {
    let left = rewrites::coincident(random, shape);
    let pair = rewrites::rewritten(random, left);
    [pair.left, pair.right]
});

pub const LINKED: Pairing = ("all XORs alike, over linked operands", |random, shape| {
    let mut list = List::random(random, shape);
    let linked = 2 * shape.inputs + 2;
    list.gates.fill((XOR, [linked, linked + 2]));
    list.gates[0] = (XOR, [2, 0]);
    list.gates[1] = (XOR, [4, 0]);
    [list.clone(), list]
});

pub const UNRELATED: Pairing = ("two unrelated lists, which are 18", |random, shape| {
    [(); 2].map(|()| list(random, shape))
});

/// The shape of so many gates with 64 inputs and 64 outputs.
pub fn shape(gates: usize) -> Shape {
    Shape { gates, ..LARGEST }
}

/// A random list, but none of those that read the constant alone.
pub fn list(random: &mut Random, shape: Shape) -> List {
    let reads_nets = |list: &List| {
        let mut operands = list.gates.iter().flat_map(|(_, operands)| operands);
        operands.any(|&literal| literal > 1)
    };
    let mut lists = std::iter::repeat_with(|| List::random(random, shape));
    lists.find(reads_nets).expect("most lists do")
}

/// A pairing's text of this number with two lists of this shape, the same in each run.
pub fn text((_, pair): Pairing, shape: Shape, number: u64) -> Vec<u8> {
    let lists = pair(&mut Random::of_case(seed(), number), shape);
    lists.map(|list| list.text()).concat()
}
