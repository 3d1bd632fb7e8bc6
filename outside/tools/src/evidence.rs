//! The archive's own proofs.

use crate::common::sizes::{Sizes, LINE_BYTES};

/// The lines of the proof that two lists agree; none if their forms differ.
pub fn proof_of(lists: &[u8]) -> Vec<u8> {
    let needed = Sizes::of(lists).expect("the lists are read").needed();
    let mut proof = vec![0; needed.proof];
    let [_, _, lines] = cec_archive::prove(lists, &mut proof, &mut vec![0; needed.work]);
    proof.truncate(LINE_BYTES * lines as usize);
    proof
}
