//! The call that proves two lists to agree.

use crate::UNWRITTEN;

extern "C" {
    fn cec_prove(
        text: *const u8,
        text_len: usize,
        proof: *mut u8,
        proof_len: usize,
        work: *mut u16,
        work_len: usize,
        reply: *mut u64,
    );
}

/// Proves that the two lists of the text agree: refusal number, its line (of 18, the output), the
/// number of proof lines. Afterwards `proof` holds the lines and zeros behind; after a refusal all
/// of it is zero. All of `work` is zero afterwards.
pub fn prove(text: &[u8], proof: &mut [u8], work: &mut [u16]) -> [u64; 3] {
    let mut reply = [UNWRITTEN; 3];
    // SAFETY: the pointers lead to text.len() bytes, proof.len() bytes, work.len() numbers and three
    // numbers, and do not overlap.
    unsafe {
        cec_prove(
            text.as_ptr(),
            text.len(),
            proof.as_mut_ptr(),
            proof.len(),
            work.as_mut_ptr(),
            work.len(),
            reply.as_mut_ptr(),
        );
    }
    reply
}
