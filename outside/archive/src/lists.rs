//! The calls that read gate lists.

use crate::UNWRITTEN;

extern "C" {
    fn cec_read_list(text: *const u8, text_len: usize, reply: *mut u64);
    fn cec_read_lists(text: *const u8, text_len: usize, reply: *mut u64);
}

/// Reads a text of one list: refusal number, its line, inputs, gates, outputs.
pub fn read_list(text: &[u8]) -> [u64; 5] {
    let mut reply = [UNWRITTEN; 5];
    // SAFETY: the pointers lead to text.len() bytes and to five numbers, and do not overlap.
    unsafe { cec_read_list(text.as_ptr(), text.len(), reply.as_mut_ptr()) };
    reply
}

/// Reads a text of two lists: refusal number, its line, inputs, gates of the left list, gates of
/// the right list, outputs.
pub fn read_lists(text: &[u8]) -> [u64; 6] {
    let mut reply = [UNWRITTEN; 6];
    // SAFETY: the pointers lead to text.len() bytes and to six numbers, and do not overlap.
    unsafe { cec_read_lists(text.as_ptr(), text.len(), reply.as_mut_ptr()) };
    reply
}
