//! The call that evaluates a gate list.

use crate::UNWRITTEN;

extern "C" {
    fn cec_evaluate(
        text: *const u8,
        text_len: usize,
        pattern: u64,
        work: *mut u8,
        work_len: usize,
        reply: *mut u64,
    );
}

/// Evaluates the list of the text on a pattern: refusal number, its line, the word. All of `work`
/// is zero afterwards.
pub fn evaluate(text: &[u8], pattern: u64, work: &mut [u8]) -> [u64; 3] {
    let mut reply = [UNWRITTEN; 3];
    // SAFETY: the pointers lead to text.len() bytes, work.len() bytes and three numbers, and do
    // not overlap.
    unsafe {
        cec_evaluate(
            text.as_ptr(),
            text.len(),
            pattern,
            work.as_mut_ptr(),
            work.len(),
            reply.as_mut_ptr(),
        );
    }
    reply
}
