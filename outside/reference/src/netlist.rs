//! Gate lists. Renders document 01, 'Lines on the wire', from "A list is one header, its gates, its
//! outputs" on, with the refusals 4 to 7 of the places 'end', 'header', 'right header' and 'gate,
//! output'.
//!
//! A list comes from a reader alone, so its counts are within their ranges and every literal is
//! over a net that it may read. "Reading goes from the top and the first fault ends it": each step
//! hands its refusal upward.

use std::ops::RangeInclusive;

use crate::frame::{Frame, Operation};
use crate::line::Lines;
use crate::literal::Literal;
use crate::refusal::Refusal;

/// "Inputs 0 to 64, gates 0 to 1,024, outputs 1 to 64."
const INPUTS: RangeInclusive<usize> = 0..=64;
const GATES: RangeInclusive<usize> = 0..=1_024;
const OUTPUTS: RangeInclusive<usize> = 1..=64;

/// One gate of a list.
#[derive(Clone, Copy, Debug, PartialEq, Eq)]
pub struct Gate {
    /// AND or XOR.
    pub operation: Operation,
    /// What it reads: "A gate reads only nets below its own".
    pub operands: [Literal; 2],
}

/// A list that was read.
#[derive(Clone, Debug, PartialEq, Eq)]
pub struct Netlist {
    inputs: usize,
    gates: Vec<Gate>,
    outputs: Vec<Literal>,
}

impl Netlist {
    /// The number of inputs.
    pub fn inputs(&self) -> usize {
        self.inputs
    }

    /// The gates in order.
    pub fn gates(&self) -> &[Gate] {
        &self.gates
    }

    /// What each output shows: "an output reads any net".
    pub fn outputs(&self) -> &[Literal] {
        &self.outputs
    }

    /// How many nets there are, which is also the number that the next gate would have. "Net 0 is
    /// constant false, nets 1 to I the inputs, then the gates in order."
    pub fn nets(&self) -> usize {
        1 + self.inputs + self.gates.len()
    }
}

/// Reads a text of one list: "The engine's text is two lists, the evaluator's one." Behind the list
/// the text has to end.
pub fn read_list(text: &[u8]) -> Result<Netlist, Refusal> {
    let mut lines = Lines::of(text);
    let list = read_next(&mut lines, None)?;
    lines.expect_end()?;
    Ok(list)
}

/// Reads a text of two lists, left and right. Behind them the text has to end.
pub fn read_lists(text: &[u8]) -> Result<(Netlist, Netlist), Refusal> {
    let mut lines = Lines::of(text);
    let lists = read_both(&mut lines)?;
    lines.expect_end()?;
    Ok(lists)
}

/// Reads the left and the right list, and no line behind them: "The checker's text is left list,
/// right list, then proof lines to the end."
pub(crate) fn read_both(lines: &mut Lines<'_>) -> Result<(Netlist, Netlist), Refusal> {
    let left = read_next(lines, None)?;
    let right = read_next(lines, Some(&left))?;
    Ok((left, right))
}

/// Reads the list that comes next; a right list is given its left one. "A list is one header, its
/// gates, its outputs."
fn read_next(lines: &mut Lines<'_>, left: Option<&Netlist>) -> Result<Netlist, Refusal> {
    let header = read_header(lines, left)?;
    let mut list = Netlist {
        inputs: header.inputs,
        gates: Vec::new(),
        outputs: Vec::new(),
    };
    for _ in 0..header.gates {
        // The nets so far are those below this gate's own.
        let gate = read_gate(lines, list.nets())?;
        list.gates.push(gate);
    }
    for _ in 0..header.outputs {
        let output = read_output(lines, list.nets())?;
        list.outputs.push(output);
    }
    Ok(list)
}

/// The counts of a header, each within its range.
struct Header {
    inputs: usize,
    gates: usize,
    outputs: usize,
}

/// Reads a header: 5 if a count is outside its range, and then 6 if a right list's inputs or
/// outputs are unlike the left's. The numbers of gates may differ.
fn read_header(lines: &mut Lines<'_>, left: Option<&Netlist>) -> Result<Header, Refusal> {
    let (line, frame) = due_frame(lines)?;
    let Frame::Header {
        inputs,
        gates,
        outputs,
    } = frame
    else {
        return Err(Refusal::frame(line));
    };
    let header = Header {
        inputs: inputs.into(),
        gates: gates.into(),
        outputs: outputs.into(),
    };
    let in_range = INPUTS.contains(&header.inputs)
        && GATES.contains(&header.gates)
        && OUTPUTS.contains(&header.outputs);
    if !in_range {
        return Err(Refusal::header(line));
    }
    let unlike =
        |left: &Netlist| (header.inputs, header.outputs) != (left.inputs(), left.outputs().len());
    if left.is_some_and(unlike) {
        return Err(Refusal::right_header(line));
    }
    Ok(header)
}

/// Reads a gate whose own net has this number.
fn read_gate(lines: &mut Lines<'_>, own_net: usize) -> Result<Gate, Refusal> {
    let (line, frame) = due_frame(lines)?;
    let Frame::Gate {
        operation,
        operands: [first, second],
    } = frame
    else {
        return Err(Refusal::frame(line));
    };
    Ok(Gate {
        operation,
        operands: [
            literal_below(own_net, first, line)?,
            literal_below(own_net, second, line)?,
        ],
    })
}

/// Reads an output of a list with so many nets.
fn read_output(lines: &mut Lines<'_>, nets: usize) -> Result<Literal, Refusal> {
    let (line, frame) = due_frame(lines)?;
    let Frame::Output { literal } = frame else {
        return Err(Refusal::frame(line));
    };
    literal_below(nets, literal, line)
}

/// The literal, if its net is below the bound; else 7 at its line.
fn literal_below(bound: usize, literal: u16, line: u64) -> Result<Literal, Refusal> {
    let literal = Literal(literal);
    if literal.net() < bound {
        Ok(literal)
    } else {
        Err(Refusal::literal(line))
    }
}

/// The next line's number and frame: 4 if the text has ended, 2 or 3 by the line itself.
fn due_frame(lines: &mut Lines<'_>) -> Result<(u64, Frame), Refusal> {
    let number = lines.next_number();
    let line = lines.next().ok_or(Refusal::end(number))??;
    Ok((number, Frame::of_line(&line)?))
}

#[cfg(test)]
mod tests;
