//! The replies that the header promises, worked out by the reference, and the lines that programs
//! print.

use cec_reference::{Checked, Frame, Netlist, Refusal};

/// The numbers of cec_read_frame's reply.
pub fn reading(text: &[u8]) -> [u64; 7] {
    match cec_reference::read_frame(text) {
        Ok(frame) => {
            let [a, b, c, d] = frame.fields();
            [0, 0, frame.kind().into(), a, b, c, d]
        }
        Err(Refusal { number, line }) => [number.into(), line, 0, 0, 0, 0, 0],
    }
}

/// The numbers of cec_write_frame's reply; `out` is left as the call has to leave it.
pub fn writing(kind: u8, fields: [u64; 4], out: &mut [u8]) -> [u64; 3] {
    let Some(frame) = Frame::from_fields(kind, fields) else {
        out.fill(0);
        return [3, 0, 0];
    };
    match cec_reference::write_frame(&frame, out) {
        Ok(length) => [0, 0, length as u64],
        Err(Refusal { number, line }) => [number.into(), line, 0],
    }
}

/// The numbers of cec_read_list's reply.
pub fn list_reading(text: &[u8]) -> [u64; 5] {
    match cec_reference::read_list(text) {
        Ok(list) => {
            let [inputs, gates, outputs] = counts(&list);
            [0, 0, inputs, gates, outputs]
        }
        Err(Refusal { number, line }) => [number.into(), line, 0, 0, 0],
    }
}

/// The numbers of cec_read_lists' reply.
pub fn lists_reading(text: &[u8]) -> [u64; 6] {
    match cec_reference::read_lists(text) {
        Ok((left, right)) => {
            let [inputs, left_gates, outputs] = counts(&left);
            let [_, right_gates, _] = counts(&right);
            [0, 0, inputs, left_gates, right_gates, outputs]
        }
        Err(Refusal { number, line }) => [number.into(), line, 0, 0, 0, 0],
    }
}

fn counts(list: &Netlist) -> [u64; 3] {
    [list.inputs(), list.gates().len(), list.outputs().len()].map(|count| count as u64)
}

/// The numbers of cec_evaluate's reply; `work` is left as the call has to leave it.
pub fn evaluating(text: &[u8], pattern: u64, work: &mut [u8]) -> [u64; 3] {
    match cec_reference::evaluate(text, pattern, work) {
        Ok(word) => [0, 0, word],
        Err(Refusal { number, line }) => [number.into(), line, 0],
    }
}

/// The numbers of cec_check's reply; `store` is left as the call has to leave it.
pub fn checking(text: &[u8], store: &mut [u16]) -> [u64; 4] {
    match cec_reference::check(text, store) {
        Ok(Checked { steps, clauses }) => [0, 0, steps as u64, clauses as u64],
        Err(Refusal { number, line }) => [number.into(), line, 0, 0],
    }
}

/// The first two numbers of cec_prove's reply. The third, the number of lines, is as free as the
/// lines are.
pub fn proving(text: &[u8], proof_len: usize, work_len: usize) -> [u64; 2] {
    let (mut proof, mut work) = (vec![0; proof_len], vec![0; work_len]);
    match cec_reference::prove(text, &mut proof, &mut work) {
        Ok(_) => [0, 0],
        Err(Refusal { number, line }) => [number.into(), line],
    }
}

/// The line that every program prints after a refusal: a report frame without counts.
pub fn refused(number: u64, line: u64) -> String {
    format!("21{number:02X}{line:06X}00000000\n")
}
