//! Lists with one gate changed, as a slip of the hand would change it.

use cec_reference::{Netlist, Operation};

use super::lists::{literal_below, List, AND, XOR};
use super::random::Random;

/// What can be done to a gate.
pub const WAYS: [&str; 3] = [
    "another operation",
    "an operand complemented",
    "an operand replaced",
];

/// A list that was read, to be changed.
pub fn list_of(list: &Netlist) -> List {
    let gates = list.gates().iter().map(|gate| {
        let kind = match gate.operation {
            Operation::And => AND,
            Operation::Xor => XOR,
        };
        (kind, gate.operands.map(|literal| literal.number().into()))
    });
    let outputs = list.outputs().iter();
    List {
        counts: [list.inputs(), list.gates().len(), list.outputs().len()],
        gates: gates.collect(),
        outputs: outputs.map(|literal| literal.number().into()).collect(),
    }
}

/// The list with one of its gates changed, and how. It has gates.
pub fn mutated(random: &mut Random, list: &List) -> (&'static str, List) {
    let mut list = list.clone();
    let place = random.below(list.gates.len());
    let own = 1 + list.counts[0] + place;
    let (kind, operands) = &mut list.gates[place];
    let operand = &mut operands[random.below(2)];
    let way = random.below(WAYS.len());
    match way {
        0 => *kind ^= AND ^ XOR,
        1 => *operand ^= 1,
        _ => {
            let before = *operand;
            while *operand == before {
                *operand = literal_below(random, own);
            }
        }
    }
    (WAYS[way], list)
}
