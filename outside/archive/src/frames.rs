//! The calls that read and write one frame.

use crate::UNWRITTEN;

extern "C" {
    fn cec_read_frame(text: *const u8, text_len: usize, reply: *mut u64);
    fn cec_write_frame(kind: u8, fields: *const u64, out: *mut u8, out_len: usize, reply: *mut u64);
}

/// Reads a text of one line: refusal number, its line, kind, four fields.
pub fn read_frame(text: &[u8]) -> [u64; 7] {
    let mut reply = [UNWRITTEN; 7];
    // SAFETY: the pointers lead to text.len() bytes and to seven numbers, and do not overlap.
    unsafe { cec_read_frame(text.as_ptr(), text.len(), reply.as_mut_ptr()) };
    reply
}

/// Writes a frame as a line from the start of `out`: refusal number, its line, the line's length.
pub fn write_frame(kind: u8, fields: [u64; 4], out: &mut [u8]) -> [u64; 3] {
    let mut reply = [UNWRITTEN; 3];
    // SAFETY: the pointers lead to four numbers, out.len() bytes and three numbers, and do not
    // overlap.
    unsafe {
        cec_write_frame(
            kind,
            fields.as_ptr(),
            out.as_mut_ptr(),
            out.len(),
            reply.as_mut_ptr(),
        );
    }
    reply
}
