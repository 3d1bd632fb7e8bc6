//! Evaluation. Renders document 01, 'Lines on the wire': "The evaluator takes an input pattern of
//! 64 bits (bit k−1 is input k, bits from I up are ignored) and gives 64 bits (bit k−1 is output k,
//! the others 0). Its lent working bytes number at least 1 + I + gates and end as zeros."
//!
//! Values are bytes, 0 or 1, one for each net. They are worked out apart from the reading, so that
//! whoever has a list can evaluate it.

use crate::frame::Operation;
use crate::literal::Literal;
use crate::netlist::{read_list, Netlist};
use crate::refusal::Refusal;

/// Evaluates the one list of the text on a pattern and gives the word of its outputs. The text is
/// refused as by `read_list`, and then 17 falls due if `work` is short. All of `work` is zero
/// afterwards, in every case.
pub fn evaluate(text: &[u8], pattern: u64, work: &mut [u8]) -> Result<u64, Refusal> {
    work.fill(0);
    let list = read_list(text)?;
    let values = work
        .get_mut(..list.nets())
        .ok_or(Refusal::working_memory())?;
    evaluate_nets(&list, pattern, values);
    let word = output_word(&list, values);
    values.fill(0);
    Ok(word)
}

/// Gives each net its value on a pattern. What `values` held before does not matter.
///
/// # Panics
///
/// If `values` has fewer elements than the list has nets.
pub fn evaluate_nets(list: &Netlist, pattern: u64, values: &mut [u8]) {
    let first_gate = 1 + list.inputs();
    values[0] = 0;
    for (place, input) in values[1..first_gate].iter_mut().enumerate() {
        *input = u8::from(pattern >> place & 1 == 1);
    }
    for (net, gate) in (first_gate..).zip(list.gates()) {
        let [first, second] = gate.operands.map(|literal| value(literal, values));
        values[net] = match gate.operation {
            Operation::And => first & second,
            Operation::Xor => first ^ second,
        };
    }
}

/// The word of the outputs, "bit k−1 is output k, the others 0", given the values of all nets.
pub fn output_word(list: &Netlist, values: &[u8]) -> u64 {
    let outputs = list.outputs().iter().enumerate();
    outputs.fold(0, |word, (place, &literal)| {
        word | u64::from(value(literal, values)) << place
    })
}

/// A literal's value, given those of the nets.
fn value(literal: Literal, values: &[u8]) -> u8 {
    values[literal.net()] ^ u8::from(literal.is_complemented())
}

#[cfg(test)]
mod tests;
