//! Pairs of lists for the engine. The left list is full of coincidences, and the right one is the
//! left rewritten so that each output keeps its folded form, by rules of the paper: what the engine
//! has to say is known without a fold. Other pairs are changed, or have little to do with each other.

use super::lists::{literal_below, some_place, List, Shape, AND, LARGEST, XOR};
use super::pairs;
use super::random::{seed, Random};

/// A pair of lists for the engine.
pub struct Pair {
    /// What the pair is, for failure messages and counts.
    pub about: &'static str,
    pub left: List,
    pub right: List,
    /// Refusal and line, or zeros, given enough memory; none where it takes an engine to say.
    pub expected: Option<[u64; 2]>,
    /// What was done to keep the forms.
    pub shown: Vec<&'static str>,
}

/// What can be done to keep the forms.
pub const SHOWN: [&str; 7] = [
    "a gate in another's place",
    "a gate left out",
    "a gate put in",
    "a gate that nothing reads",
    "a gate twice",
    "operands exchanged",
    "a sign moved through an XOR",
];

impl Pair {
    pub fn text(&self) -> Vec<u8> {
        [self.left.text(), self.right.text()].concat()
    }

    /// A pair of these sizes: six in ten have the same forms, one in ten has an output complemented.
    pub fn any(random: &mut Random, shape: Shape) -> Self {
        let left = coincident(random, shape);
        let mut pair = rewritten(random, left);
        match random.below(10) {
            0..6 => {}
            6 => pair.complement_outputs(random),
            7 => pair.change_gate(random),
            8 => pair = Self::unrelated(random, shape),
            _ => pair = Self::agreeing(random),
        }
        if random.one_in(2) {
            std::mem::swap(&mut pair.left, &mut pair.right);
        }
        pair
    }

    /// The first of the outputs that are complemented differs: no form is its own complement.
    pub fn complement_outputs(&mut self, random: &mut Random) {
        let count = self.right.outputs.len();
        let first = some_place(random, count);
        self.right.outputs[first] ^= 1;
        for output in first + 1..count {
            self.right.outputs[output] ^= random.below(2);
        }
        self.about = "outputs complemented";
        self.expected = Some([18, first as u64 + 1]);
    }

    /// Another operation, or another literal, in one of the right gates.
    fn change_gate(&mut self, random: &mut Random) {
        self.about = "a gate changed";
        if self.right.gates.is_empty() {
            return;
        }
        self.expected = None;
        let place = some_place(random, self.right.gates.len());
        let own = 1 + self.right.counts[0] + place;
        let (kind, operands) = &mut self.right.gates[place];
        let operand = &mut operands[random.below(2)];
        match random.below(3) {
            0 => *kind ^= AND ^ XOR,
            1 => *operand ^= 1,
            _ => *operand = literal_below(random, own),
        }
    }

    fn unrelated(random: &mut Random, shape: Shape) -> Self {
        let right = shape.beside(random);
        Self {
            about: "unrelated lists",
            left: coincident(random, shape),
            right: coincident(random, right),
            expected: None,
            shown: Vec::new(),
        }
    }

    /// Lists that agree, though their forms may differ.
    fn agreeing(random: &mut Random) -> Self {
        let [left, right] = pairs::agreeing(random);
        Self {
            about: "lists that agree",
            left,
            right,
            expected: None,
            shown: Vec::new(),
        }
    }
}

/// The small pair of a test's case, and the numbers that the case goes on with.
pub fn small(case: u64) -> (Pair, Random) {
    let mut random = Random::of_case(seed(), case);
    let shape = any_shape(&mut random);
    (Pair::any(&mut random, shape), random)
}

/// A pair of so many left gates with 64 outputs, rewritten.
pub fn large(random: &mut Random, gates: usize) -> Pair {
    let shape = Shape {
        inputs: random.pick(&[4, 16, 64, 64]),
        gates,
        ..LARGEST
    };
    let left = coincident(random, shape);
    rewritten(random, left)
}

/// A shape for a pair, mostly small: all patterns of up to ten inputs are tried.
pub fn any_shape(random: &mut Random) -> Shape {
    let few_inputs = random.below(pairs::MOST_INPUTS + 1);
    let more_inputs = random.pick(&[11, 32, 64]);
    let any_gates = random.below(16);
    let more_gates = 16 + random.below(30);
    let few_outputs = 1 + random.below(8);
    Shape {
        inputs: random.pick(&[0, 1, 2, 2, 3, 3, 4, 4, few_inputs, more_inputs]),
        gates: random.pick(&[any_gates, any_gates, any_gates, more_gates]),
        outputs: random.pick(&[1, 2, 3, few_outputs]),
    }
}

/// A list with equal, opposite and constant operands, and with gates that repeat earlier ones: in
/// some lists they are many, in others few. Some lists have gates of one kind alone.
pub fn coincident(random: &mut Random, shape: Shape) -> List {
    let rate = random.pick(&[1, 2, 4, 16]);
    let kinds = random.pick(&[[AND, XOR], [AND, XOR], [AND, AND], [XOR, XOR]]);
    let mut list = List::random(random, shape);
    for place in 0..list.gates.len() {
        let own = 1 + shape.inputs + place;
        let operands = [(); 2].map(|()| no_constant_below(random, own));
        list.gates[place] = (random.pick(&kinds), operands);
        if random.one_in(rate) {
            list.gates[place] = coincidence(random, &list.gates[..=place]);
        }
    }
    let nets = 1 + shape.inputs + shape.gates;
    for output in &mut list.outputs {
        *output = no_constant_below(random, nets);
    }
    list
}

/// A literal over one of so many nets but the constant, if there is another; often over a late one.
fn no_constant_below(random: &mut Random, nets: usize) -> usize {
    let literal = literal_below(random, nets);
    literal + 2 * usize::from(literal < 2 && nets > 1)
}

/// The last gate changed so that it folds, or an earlier gate again, changed little.
fn coincidence(random: &mut Random, gates: &[(u8, [usize; 2])]) -> (u8, [usize; 2]) {
    let (kind, [x, y]) = gates[gates.len() - 1];
    let (earlier_kind, [a, b]) = random.pick(gates);
    random.pick(&[
        (kind, [x, x]),
        (kind, [x, x ^ 1]),
        (kind, [x, y % 2]),
        (kind, [x % 2, y]),
        (earlier_kind, [a, b]),
        (earlier_kind, [b, a]),
        (earlier_kind, [b, a ^ 1]),
        (earlier_kind ^ AND ^ XOR, [a, b]),
    ])
}

/// The list and a right one in which each output has the same form.
pub fn rewritten(random: &mut Random, left: List) -> Pair {
    let mut rewriting = Rewriting::of(&left, LARGEST.gates - left.gates.len());
    let reorder = random.one_in(2);
    let mut unwritten: Vec<usize> = (0..left.gates.len()).collect();
    while !unwritten.is_empty() {
        let from = if reorder {
            random.below(unwritten.len())
        } else {
            0
        };
        let place = rewriting.first_ready(&unwritten, from);
        rewriting.note(SHOWN[0], place > 0);
        let gate = unwritten.remove(place);
        rewriting.gate(random, gate);
    }
    for &output in &left.outputs {
        let shown = rewriting.dressed(random, output);
        rewriting.right.outputs.push(shown);
    }
    let Rewriting { right, shown, .. } = rewriting;
    Pair {
        about: "rewritten",
        left,
        right,
        expected: Some([0, 0]),
        shown,
    }
}

/// The right list up to some gate of the left.
struct Rewriting<'list> {
    left: &'list List,
    right: List,
    /// By left net: a right literal that has its form; none if its gate is not written yet.
    literals: Vec<Option<usize>>,
    /// How many gates may come besides those of the left list.
    spare: usize,
    shown: Vec<&'static str>,
}

impl<'list> Rewriting<'list> {
    fn of(left: &'list List, spare: usize) -> Self {
        let [inputs, gates, outputs] = left.counts;
        let shared = (0..=inputs).map(|net| Some(2 * net));
        Self {
            left,
            right: List {
                counts: [inputs, 0, outputs],
                gates: Vec::new(),
                outputs: Vec::new(),
            },
            literals: shared.chain(vec![None; gates]).collect(),
            spare,
            shown: Vec::new(),
        }
    }

    fn note(&mut self, name: &'static str, seen: bool) {
        if seen && !self.shown.contains(&name) {
            self.shown.push(name);
        }
    }

    /// The right literal with a left literal's form, if there is one already.
    fn literal(&self, left: usize) -> Option<usize> {
        self.literals[left / 2].map(|right| right ^ (left % 2))
    }

    /// The place of the first gate from a place on that reads what is written; the first of all
    /// does.
    fn first_ready(&self, unwritten: &[usize], from: usize) -> usize {
        let is_ready = |&place: &usize| {
            let (_, operands) = self.left.gates[unwritten[place]];
            operands
                .iter()
                .all(|&operand| self.literal(operand).is_some())
        };
        (from..unwritten.len()).find(is_ready).unwrap_or(0)
    }

    /// Adds a right gate and gives the literal over it.
    fn push(&mut self, kind: u8, operands: [usize; 2]) -> usize {
        self.right.gates.push((kind, operands));
        self.right.counts[1] += 1;
        2 * (self.right.counts[0] + self.right.counts[1])
    }

    /// Whether a gate may come besides, in one case of so many.
    fn takes_spare(&mut self, random: &mut Random, times: usize, name: &'static str) -> bool {
        let takes = self.spare > 0 && random.one_in(times);
        self.spare -= usize::from(takes);
        self.note(name, takes);
        takes
    }

    /// The right literal with a left literal's form, sometimes behind a gate that folds to it.
    fn dressed(&mut self, random: &mut Random, left: usize) -> usize {
        let literal = self.literal(left).expect("the gate is written");
        if !self.takes_spare(random, 10, SHOWN[2]) {
            return literal;
        }
        let (kind, other, sign) =
            random.pick(&[(AND, literal, 0), (AND, 1, 0), (XOR, 0, 0), (XOR, 1, 1)]);
        let operands = random.pick(&[[literal, other], [other, literal]]);
        self.push(kind, operands) ^ sign
    }

    /// Writes a gate of the left list, or leaves it out.
    fn gate(&mut self, random: &mut Random, gate: usize) {
        let (kind, operands) = self.left.gates[gate];
        let operands = operands.map(|operand| self.dressed(random, operand));
        let net = 1 + self.right.counts[0] + gate;
        let folded = self.folded(kind, operands).filter(|_| random.one_in(2));
        self.note(SHOWN[1], folded.is_some());
        self.spare += usize::from(folded.is_some());
        let literal = folded.unwrap_or_else(|| self.written(random, kind, operands));
        self.literals[net] = Some(literal);
        if self.takes_spare(random, 16, SHOWN[3]) {
            let nets = 1 + self.right.counts[0] + self.right.counts[1];
            let operands = [(); 2].map(|()| literal_below(random, nets));
            self.push(random.pick(&[AND, XOR]), operands);
        }
    }

    /// Writes a gate, once or twice, with operands exchanged and signs moved.
    fn written(&mut self, random: &mut Random, kind: u8, mut operands: [usize; 2]) -> usize {
        let mut sign = 0;
        if kind == XOR {
            let signs = [(); 2].map(|()| random.below(2));
            operands = [operands[0] ^ signs[0], operands[1] ^ signs[1]];
            sign = signs[0] ^ signs[1];
            self.note(SHOWN[6], sign == 1);
        }
        if random.one_in(2) {
            operands.swap(0, 1);
            self.note(SHOWN[5], operands[0] != operands[1]);
        }
        let once = self.push(kind, operands) ^ sign;
        if self.takes_spare(random, 12, SHOWN[4]) {
            operands.swap(0, 1);
            let twice = self.push(kind, operands) ^ sign;
            return random.pick(&[once, twice]);
        }
        once
    }

    /// The literal that a gate folds to by its literals alone, or that of a gate written already.
    fn folded(&self, kind: u8, [x, y]: [usize; 2]) -> Option<usize> {
        let [low, high] = [x.min(y), x.max(y)];
        match (kind, low) {
            (AND, 0) => return Some(0),
            (AND, 1) => return Some(high),
            (XOR, 0 | 1) => return Some(high ^ low),
            _ => {}
        }
        if low / 2 == high / 2 {
            let opposite = low ^ high;
            return Some(if kind == XOR {
                opposite
            } else {
                low * (1 - opposite)
            });
        }
        let written = self.right.gates.iter();
        let mut alike = written.zip(1 + self.right.counts[0]..);
        let (_, net) =
            alike.find(|&(&gate, _)| gate == (kind, [x, y]) || gate == (kind, [y, x]))?;
        Some(2 * net)
    }
}
