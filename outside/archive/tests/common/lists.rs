//! Random gate lists as numbers, and lists with one number moved to its bound or past it.

use super::random::Random;

/// The kinds of gate.
pub const AND: u8 = 0x02;
pub const XOR: u8 = 0x03;

/// The places of a header's counts.
const INPUTS: usize = 0;
const GATES: usize = 1;
const OUTPUTS: usize = 2;

/// How many inputs, gates and outputs a list has.
#[derive(Clone, Copy, Debug)]
pub struct Shape {
    pub inputs: usize,
    pub gates: usize,
    pub outputs: usize,
}

/// The most of each.
pub const LARGEST: Shape = Shape {
    inputs: 64,
    gates: 1_024,
    outputs: 64,
};

impl Shape {
    /// Mostly few lines, so that a damage often meets the line that it needs; each count is often
    /// at an end of its range.
    pub fn random(random: &mut Random) -> Self {
        let any_inputs = random.below(65);
        let inputs = random.pick(&[0, 1, 2, 3, 63, 64, any_inputs]);
        let few_outputs = 1 + random.below(8);
        let outputs = if random.one_in(24) {
            random.pick(&[63, 64, 64])
        } else {
            random.pick(&[1, 1, 2, 3, few_outputs])
        };
        Self {
            inputs,
            gates: random_gates(random),
            outputs,
        }
    }

    /// The same inputs and outputs, as a right list has them, with gates of its own number.
    pub fn beside(self, random: &mut Random) -> Self {
        Self {
            gates: random_gates(random),
            ..self
        }
    }

    /// One for the constant, one for each input and each gate.
    pub fn nets(self) -> usize {
        1 + self.inputs + self.gates
    }
}

fn random_gates(random: &mut Random) -> usize {
    if random.one_in(400) {
        return random.pick(&[1_023, 1_024, 1_024]);
    }
    let most = random.pick(&[4, 12, 12, 40]);
    let few = random.below(most);
    random.pick(&[0, 1, 2, 3, few, few, few])
}

/// A list as it will be written. The header's counts stand apart from the lines, so that they can
/// be wrong.
#[derive(Clone, Debug)]
pub struct List {
    /// Inputs, gates and outputs in the header.
    pub counts: [usize; 3],
    /// Each gate's kind and literals.
    pub gates: Vec<(u8, [usize; 2])>,
    /// Each output's literal.
    pub outputs: Vec<usize>,
}

impl List {
    /// A list of this shape whose literals are all over nets that they may read. Some lists read
    /// the constant alone.
    pub fn random(random: &mut Random, shape: Shape) -> Self {
        let constant_only = random.one_in(16);
        let readable = |nets| if constant_only { 1 } else { nets };
        let mut gates = Vec::new();
        for own in 1 + shape.inputs..shape.nets() {
            let kind = random.pick(&[AND, XOR]);
            let operands = [readable(own); 2].map(|nets| literal_below(random, nets));
            gates.push((kind, operands));
        }
        let nets = readable(shape.nets());
        let outputs = (0..shape.outputs).map(|_| literal_below(random, nets));
        Self {
            counts: [shape.inputs, shape.gates, shape.outputs],
            outputs: outputs.collect(),
            gates,
        }
    }

    /// The lines, each with its LF.
    pub fn lines(&self) -> Vec<Vec<u8>> {
        let [inputs, gates, outputs] = self.counts;
        let header = format!("01{inputs:02X}{gates:04X}{outputs:02X}\n");
        let gates = self.gates.iter();
        let gates = gates.map(|(kind, [a, b])| format!("{kind:02X}{a:04X}{b:04X}\n"));
        let outputs = self.outputs.iter();
        let outputs = outputs.map(|literal| format!("04{literal:04X}\n"));
        let lines = std::iter::once(header).chain(gates).chain(outputs);
        lines.map(String::into_bytes).collect()
    }

    pub fn text(&self) -> Vec<u8> {
        self.lines().concat()
    }

    /// Moves one number to its bound or past it. Gives what was done, and the place of the line in
    /// the list. `other` is the other list of a pair, whose nets have bounds of their own.
    pub fn move_number(&mut self, random: &mut Random, other: &List) -> (&'static str, usize) {
        match random.below(4) {
            0 => {
                let place = random.below(3);
                let count = self.counts[place];
                self.counts[place] = random.pick(&[count + 1, count.saturating_sub(1)]);
                ("a count off by one", 0)
            }
            1 => {
                let (place, count) = random.pick(&[
                    (INPUTS, 65),
                    (INPUTS, 255),
                    (GATES, 1_025),
                    (GATES, 0x0500),
                    (GATES, 0xFFFF),
                    (OUTPUTS, 0),
                    (OUTPUTS, 65),
                    (OUTPUTS, 255),
                ]);
                self.counts[place] = count;
                ("a count out of its range", 0)
            }
            2 if !self.gates.is_empty() => {
                let gate = some_place(random, self.gates.len());
                let own = 1 + self.counts[INPUTS] + gate;
                self.gates[gate].1[random.below(2)] = self.literal_near(random, own, other);
                ("a gate's literal at its bound", 1 + gate)
            }
            _ => {
                let output = some_place(random, self.outputs.len());
                self.outputs[output] = self.literal_near(random, self.nets(), other);
                (
                    "an output's literal at its bound",
                    1 + self.gates.len() + output,
                )
            }
        }
    }

    /// The nets of the lines, whatever the header's number of gates says.
    fn nets(&self) -> usize {
        1 + self.counts[INPUTS] + self.gates.len()
    }

    /// A literal over a net just below or just past this bound, the bounds of both lists, or far
    /// past all; some agree with an allowed net in their low bits.
    fn literal_near(&self, random: &mut Random, bound: usize, other: &List) -> usize {
        let allowed = random.below(bound);
        let net = random.pick(&[
            bound - 1,
            bound,
            bound,
            bound + 1,
            self.nets() - 1,
            self.nets(),
            other.nets() - 1,
            other.nets(),
            0x0100 + allowed,
            0x4000 + allowed,
            0x7FFF,
        ]);
        2 * net + random.below(2)
    }
}

/// A literal over one of so many nets, often the first or the last of them.
pub fn literal_below(random: &mut Random, nets: usize) -> usize {
    let any = random.below(nets);
    let net = random.pick(&[0, nets / 2, nets - 1, nets - 1, any, any, any, any]);
    2 * net + random.below(2)
}

/// The first of so many, the last, or any.
pub fn some_place(random: &mut Random, count: usize) -> usize {
    let any = random.below(count);
    random.pick(&[0, count - 1, any, any])
}
