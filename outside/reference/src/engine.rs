//! The engine. Renders document 01, 'Folded form and the engine', with the refusals 16 to 18: two
//! lists whose outputs have the same folded forms are proved to agree.
//!
//! Folding knows no clause and is done first, so that 18 is known before a line is written.
//! Emitting knows no other refusal. Both take time in proportion to the text; their memory is
//! their own, and the lent working numbers are only counted and cleared.

mod emit;
mod fold;

use crate::miter::outputs;
use crate::netlist::{read_lists, Netlist};
use crate::refusal::Refusal;
use emit::emit;
use fold::Forms;

/// "lines of 15 bytes": the engine writes resolves alone.
const LINE_BYTES: usize = 15;

/// Proves that the two lists of the text agree, and gives the number of the proof's lines. They
/// stand from the proof's start with zeros behind; after a refusal all of it is zero. All of `work`
/// is zero afterwards, in every case.
pub fn prove(text: &[u8], proof: &mut [u8], work: &mut [u16]) -> Result<usize, Refusal> {
    proof.fill(0);
    work.fill(0);
    let (left, right) = read_lists(text)?;
    if proof.len() < LINE_BYTES * line_bound(&left, &right) {
        return Err(Refusal::proof_bytes());
    }
    if work.len() < working_numbers(&left, &right) {
        return Err(Refusal::working_memory());
    }
    let forms = Forms::of(&left, &right);
    let mut shown = outputs(&left, &right);
    if let Some(place) = shown.position(|[x, y]| forms.of_literal(x) != forms.of_literal(y)) {
        return Err(Refusal::forms(place as u64 + 1));
    }
    Ok(emit(&left, &right, &forms, proof))
}

fn gates_of_both(left: &Netlist, right: &Netlist) -> usize {
    left.gates().len() + right.gates().len()
}

/// "at most 16 × (gates of both lists) + 12 × outputs lines".
fn line_bound(left: &Netlist, right: &Netlist) -> usize {
    16 * gates_of_both(left, right) + 12 * left.outputs().len()
}

/// "16-bit working numbers, 16 × (1 + inputs + gates of both lists)".
fn working_numbers(left: &Netlist, right: &Netlist) -> usize {
    16 * (1 + left.inputs() + gates_of_both(left, right))
}

#[cfg(test)]
mod tests;
