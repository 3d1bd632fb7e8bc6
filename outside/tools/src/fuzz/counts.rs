//! What the lines of a text add up to by their kinds alone, whether they are valid or not. For valid
//! ones these are the paper's numbers.

use crate::common::sizes::Sizes;

#[derive(Default)]
pub struct Counts {
    /// As the first header says.
    inputs: Option<usize>,
    gates: usize,
    /// Behind the last header.
    own_gates: usize,
    gate_clauses: usize,
    output_lines: usize,
    step_clauses: usize,
    extensions: usize,
}

impl Counts {
    pub fn of(text: &[u8]) -> Self {
        let mut counts = Self::default();
        for line in text.split(|&byte| byte == b'\n') {
            counts.add(line);
        }
        counts
    }

    fn add(&mut self, line: &[u8]) {
        match line.get(..2) {
            Some(b"01") => {
                self.own_gates = 0;
                self.inputs = self.inputs.or(line.get(2..4).and_then(number));
            }
            Some(b"02") => self.add_gate(3),
            Some(b"03") => self.add_gate(4),
            Some(b"04") => self.output_lines += 1,
            Some(b"11") => self.step_clauses += 1,
            Some(b"12") => self.add_extension(3),
            Some(b"13") => self.add_extension(4),
            _ => {}
        }
    }

    fn add_gate(&mut self, clauses: usize) {
        self.gates += 1;
        self.own_gates += 1;
        self.gate_clauses += clauses;
    }

    fn add_extension(&mut self, clauses: usize) {
        self.extensions += 1;
        self.step_clauses += clauses;
    }

    /// Of two lists.
    pub fn sizes(&self) -> Sizes {
        Sizes {
            inputs: self.inputs.unwrap_or(0),
            gates: self.gates,
            outputs: self.output_lines / 2,
        }
    }

    /// The nets of the last list, which is also the number of its next gate.
    pub fn nets(&self) -> usize {
        1 + self.inputs.unwrap_or(0) + self.own_gates
    }

    /// How many clauses the miter has: the first and the last, four for a z, three for a w.
    pub fn miter(&self) -> usize {
        let Sizes { outputs, .. } = self.sizes();
        2 + self.gate_clauses + (7 * outputs).saturating_sub(3)
    }

    /// How many clauses there are behind the last line.
    pub fn clauses(&self) -> usize {
        self.miter() + self.step_clauses
    }

    /// How many variables are in use behind the last line.
    pub fn variables(&self) -> usize {
        let sizes = self.sizes();
        let differences = (2 * sizes.outputs).saturating_sub(1);
        1 + sizes.inputs + sizes.gates + differences + self.extensions
    }
}

/// The number that hexadecimal digits write.
pub fn number(digits: &[u8]) -> Option<usize> {
    usize::from_str_radix(std::str::from_utf8(digits).ok()?, 16).ok()
}
