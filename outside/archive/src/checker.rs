//! The call that checks a proof.

use crate::UNWRITTEN;

extern "C" {
    fn cec_check(
        text: *const u8,
        text_len: usize,
        store: *mut u16,
        store_len: usize,
        reply: *mut u64,
    );
}

/// Checks the proof of the text: refusal number, its line, steps, clauses. Afterwards `store` holds
/// every clause and zeros behind; after a refusal all of it is zero.
pub fn check(text: &[u8], store: &mut [u16]) -> [u64; 4] {
    let mut reply = [UNWRITTEN; 4];
    // SAFETY: the pointers lead to text.len() bytes, store.len() numbers and four numbers, and do
    // not overlap.
    unsafe {
        cec_check(
            text.as_ptr(),
            text.len(),
            store.as_mut_ptr(),
            store.len(),
            reply.as_mut_ptr(),
        );
    }
    reply
}
