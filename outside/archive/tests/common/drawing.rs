//! A list drawn gate by gate. A gate over a constant, or over one net twice, is folded away as it
//! is drawn, so that the lists made of it have no gate that says nothing.

use super::lists::{List, AND, LARGEST, XOR};

/// The constants as literals.
pub const FALSE: usize = 0;
pub const TRUE: usize = 1;

/// A list as far as it is drawn.
#[derive(Clone, Debug)]
pub struct Drawing {
    inputs: usize,
    gates: Vec<(u8, [usize; 2])>,
}

impl Drawing {
    pub fn over(inputs: usize) -> Self {
        let gates = Vec::new();
        Self { inputs, gates }
    }

    /// The literal of input k, counted from 1.
    pub fn input(k: usize) -> usize {
        2 * k
    }

    /// How many gates are drawn.
    pub fn gates(&self) -> usize {
        self.gates.len()
    }

    /// How many nets there are so far, the constant and the inputs included.
    pub fn nets(&self) -> usize {
        1 + self.inputs + self.gates.len()
    }

    /// Draws a gate as it is, and gives the literal over it.
    pub fn gate(&mut self, kind: u8, operands: [usize; 2]) -> usize {
        self.gates.push((kind, operands));
        2 * (self.nets() - 1)
    }

    /// A gate of this kind, unless its literals alone say what it is.
    pub fn folded(&mut self, kind: u8, operands: [usize; 2]) -> usize {
        match kind {
            AND => self.and(operands[0], operands[1]),
            _ => self.xor(operands[0], operands[1]),
        }
    }

    pub fn and(&mut self, x: usize, y: usize) -> usize {
        match [x.min(y), x.max(y)] {
            [FALSE, _] => FALSE,
            [TRUE, other] => other,
            [low, high] if low == high => low,
            [low, high] if low / 2 == high / 2 => FALSE,
            _ => self.gate(AND, [x, y]),
        }
    }

    pub fn xor(&mut self, x: usize, y: usize) -> usize {
        match [x.min(y), x.max(y)] {
            [sign @ (FALSE | TRUE), other] => other ^ sign,
            [low, high] if low / 2 == high / 2 => low ^ high,
            _ => self.gate(XOR, [x, y]),
        }
    }

    /// By AND and complements.
    pub fn or(&mut self, x: usize, y: usize) -> usize {
        self.and(x ^ 1, y ^ 1) ^ 1
    }

    /// y where the selecting literal is true, else z.
    pub fn multiplexer(&mut self, select: usize, y: usize, z: usize) -> usize {
        let [chosen, other] = [self.and(select, y), self.and(select ^ 1, z)];
        self.or(chosen, other)
    }

    /// The list with these outputs, of the gates that they rest on; the others are left out.
    pub fn list(&self, outputs: &[usize]) -> List {
        let mut is_read = vec![false; self.nets()];
        for &output in outputs {
            is_read[output / 2] = true;
        }
        let first = 1 + self.inputs;
        for (net, (_, operands)) in (first..self.nets()).zip(&self.gates).rev() {
            for operand in operands {
                is_read[operand / 2] |= is_read[net];
            }
        }
        let mut numbers: Vec<usize> = (0..first).collect();
        let mut gates = Vec::new();
        for (net, &(kind, operands)) in (first..).zip(&self.gates) {
            numbers.push(first + gates.len());
            if is_read[net] {
                gates.push((kind, operands.map(|operand| renumbered(&numbers, operand))));
            }
        }
        let outputs: Vec<usize> = outputs
            .iter()
            .map(|&output| renumbered(&numbers, output))
            .collect();
        assert!(gates.len() <= LARGEST.gates, "{} gates", gates.len());
        assert!(outputs.len() <= LARGEST.outputs && self.inputs <= LARGEST.inputs);
        List {
            counts: [self.inputs, gates.len(), outputs.len()],
            gates,
            outputs,
        }
    }
}

/// The literal over its net's new number.
pub fn renumbered(numbers: &[usize], literal: usize) -> usize {
    2 * numbers[literal / 2] + literal % 2
}
