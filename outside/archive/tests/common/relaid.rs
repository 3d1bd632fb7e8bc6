//! Random lists laid out again in other gates: identities of AND and XOR are applied to gates
//! picked at random, in one to three rounds, and then the gates are renumbered and shuffled. Each
//! output keeps its value on every pattern, but mostly not its folded form, so the engine has no
//! proof. `rewrites` makes the pairs that keep their forms.

use super::drawing::{renumbered, Drawing};
use super::lists::{List, AND, LARGEST, XOR};
use super::random::Random;

/// A list, and the same laid out again.
pub struct Relaid {
    pub left: List,
    pub right: List,
    /// The names of the identities that were used.
    pub used: Vec<&'static str>,
}

impl Relaid {
    pub fn text(&self) -> Vec<u8> {
        [self.left.text(), self.right.text()].concat()
    }

    /// A random list of about so many gates, and the same laid out again.
    pub fn any(random: &mut Random, gates: usize) -> Self {
        let left = any_list(random, gates);
        Self::of(random, left)
    }

    /// This list laid out again. Its right gates are at most three times as many, and 40 more; each
    /// round has its share of them.
    pub fn of(random: &mut Random, left: List) -> Self {
        let gates = left.gates.len();
        let spare = LARGEST.gates.min(3 * gates + 40) - gates;
        let every = random.pick(&[1, 2, 4]);
        let rounds = random.pick(&[1, 2, 2, 3]);
        let mut used = Vec::new();
        let mut right = left.clone();
        for round in 1..=rounds {
            let most = gates + spare * round / rounds;
            let mut laying = Laying::of(&right, most, every);
            let outputs = laying.all(random);
            let next = laying.drawing.list(&outputs);
            used.append(&mut laying.used);
            right = next;
        }
        let right = shuffled(random, &right);
        used.sort_unstable();
        used.dedup();
        Self { left, right, used }
    }
}

/// A list in which each gate reads two nets, mostly late ones, and few are left unread: about so
/// many gates are behind the outputs.
pub fn any_list(random: &mut Random, gates: usize) -> List {
    let most_inputs = (4 + gates / 3).min(LARGEST.inputs);
    let inputs = 3 + random.below(most_inputs - 2);
    let ands_in_four = random.pick(&[1, 2, 3, 3]);
    let mut drawing = Drawing::over(inputs);
    let mut unread: Vec<usize> = (1..=inputs).collect();
    while drawing.gates() < gates {
        let operands = [(); 2].map(|()| {
            let any = 1 + random.below(drawing.nets() - 1);
            let waiting = random.below(unread.len().max(1));
            let net = unread.get(waiting).copied().filter(|_| random.one_in(2));
            2 * net.unwrap_or(any) + random.below(2)
        });
        let kind = if random.below(4) < ands_in_four {
            AND
        } else {
            XOR
        };
        let before = drawing.gates();
        drawing.folded(kind, operands);
        if drawing.gates() > before {
            unread.retain(|net| operands.iter().all(|operand| operand / 2 != *net));
            unread.push(drawing.nets() - 1);
        }
    }
    unread.retain(|&net| net > inputs);
    let most_outputs = random.pick(&[1, 4, 12, 32]);
    let outputs = unread.iter().rev().take(most_outputs);
    let outputs: Vec<usize> = outputs.map(|net| 2 * net + random.below(2)).collect();
    drawing.list(&outputs)
}

/// An identity, under its name: what to draw for a gate over two literals of the list that is laid
/// out. None where it does not fit them.
type Identity = (
    &'static str,
    fn(&mut Laying, &mut Random, [usize; 2]) -> Option<usize>,
);

/// How many identities at the start fit every gate of the kind.
const FITTING: usize = 4;

/// For x and y.
const AND_IDENTITIES: [Identity; 9] = [
    ("x and not (x and not y)", |laying, random, operands| {
        let [x, y] = laying.both(random, operands);
        let only = laying.drawing.and(x, y ^ 1);
        Some(laying.drawing.and(x, only ^ 1))
    }),
    ("x xor (x and not y)", |laying, random, operands| {
        let [x, y] = laying.both(random, operands);
        let only = laying.drawing.and(x, y ^ 1);
        Some(laying.drawing.xor(x, only))
    }),
    ("(x or y) xor (x xor y)", |laying, random, operands| {
        let [x, y] = laying.both(random, operands);
        let [any, unlike] = [laying.drawing.or(x, y), laying.drawing.xor(x, y)];
        Some(laying.drawing.xor(any, unlike))
    }),
    (
        "absorption: (x and y) and (x or z)",
        |laying, random, operands| {
            let [x, y] = laying.both(random, operands);
            let z = laying.any_literal(random);
            let [both, more] = [laying.drawing.and(x, y), laying.drawing.or(x, z)];
            Some(laying.drawing.and(both, more))
        },
    ),
    ("AND associated", |laying, random, [x, y]| {
        let [p, q] = laying.parts(y, AND, 0)?;
        let [x, p, q] = [x, p, q].map(|literal| laying.shown(random, literal));
        let first = laying.drawing.and(x, p);
        Some(laying.drawing.and(first, q))
    }),
    ("AND distributed over XOR", |laying, random, [x, y]| {
        let [p, q] = laying.parts(y, XOR, y % 2)?;
        let [x, p, q] = [x, p, q ^ (y % 2)].map(|literal| laying.shown(random, literal));
        let [first, second] = [laying.drawing.and(x, p), laying.drawing.and(x, q)];
        Some(laying.drawing.xor(first, second))
    }),
    ("AND distributed over OR", |laying, random, [x, y]| {
        let [p, q] = laying.parts(y, AND, 1)?;
        let [x, p, q] = [x, p, q].map(|literal| laying.shown(random, literal));
        let [first, second] = [laying.drawing.and(x, p ^ 1), laying.drawing.and(x, q ^ 1)];
        Some(laying.drawing.or(first, second))
    }),
    ("consensus", |laying, random, operands| {
        let [a, b, d] = laying.common_part(operands, 1, 1)?;
        let [a, b, d] = [a, b, d].map(|literal| laying.shown(random, literal));
        let chosen = laying.drawing.multiplexer(a, b, d);
        let consensus = laying.drawing.and(b, d);
        Some(laying.drawing.or(chosen, consensus) ^ 1)
    }),
    ("AND taken out of OR", |laying, random, operands| {
        let [a, b, d] = laying.common_part(operands, 1, 0)?;
        let [a, b, d] = [a, b, d].map(|literal| laying.shown(random, literal));
        let any = laying.drawing.or(b, d);
        Some(laying.drawing.and(a, any) ^ 1)
    }),
];

/// For x xor y.
const XOR_IDENTITIES: [Identity; 7] = [
    (
        "(x and not y) or (not x and y)",
        |laying, random, operands| {
            let [x, y] = laying.both(random, operands);
            Some(laying.drawing.multiplexer(x, y ^ 1, y))
        },
    ),
    ("(x or y) and not (x and y)", |laying, random, operands| {
        let [x, y] = laying.both(random, operands);
        let [any, both] = [laying.drawing.or(x, y), laying.drawing.and(x, y)];
        Some(laying.drawing.and(any, both ^ 1))
    }),
    ("(x or y) xor (x and y)", |laying, random, operands| {
        let [x, y] = laying.both(random, operands);
        let [any, both] = [laying.drawing.or(x, y), laying.drawing.and(x, y)];
        Some(laying.drawing.xor(any, both))
    }),
    ("not (both or none)", |laying, random, operands| {
        let [x, y] = laying.both(random, operands);
        Some(laying.drawing.multiplexer(x, y, y ^ 1) ^ 1)
    }),
    ("XOR associated", |laying, random, [x, y]| {
        let [p, q] = laying.parts(y, XOR, y % 2)?;
        let [x, p, q] = [x, p, q ^ (y % 2)].map(|literal| laying.shown(random, literal));
        let first = laying.drawing.xor(x, p);
        Some(laying.drawing.xor(first, q))
    }),
    ("XOR as a multiplexer", |laying, random, [x, y]| {
        let [p, q] = laying.parts(y, AND, y % 2)?;
        let [x, p, q] = [x ^ (y % 2), p, q].map(|literal| laying.shown(random, literal));
        let turned = laying.drawing.xor(x, q);
        Some(laying.drawing.multiplexer(p, turned, x))
    }),
    ("AND taken out of XOR", |laying, random, [x, y]| {
        let sign = (x ^ y) % 2;
        let [a, b, d] = laying.common_part([x | 1, y | 1], 1, 0)?;
        let [a, b, d] = [a, b, d].map(|literal| laying.shown(random, literal));
        let unlike = laying.drawing.xor(b, d);
        Some(laying.drawing.and(a, unlike) ^ sign)
    }),
];

/// For a gate of either kind, given its net and not its operands.
const EXPANDED: &str = "expanded by an input";
const SPLIT: &str = "split by another net";
const DOUBLED: &str = "a gate twice";

/// The names of all identities.
pub fn names() -> Vec<&'static str> {
    let identities = AND_IDENTITIES.iter().chain(&XOR_IDENTITIES);
    let names = identities.map(|(name, _)| *name);
    names.chain([EXPANDED, SPLIT, DOUBLED]).collect()
}

/// The most gates of a cone that is expanded, and so of a gate's identity.
const CONE: usize = 12;
const COST: usize = 2 * CONE + 3;

/// A list that is laid out again, as far as it is.
struct Laying<'list> {
    list: &'list List,
    drawing: Drawing,
    /// By net of the list: the literals that show it.
    literals: Vec<Vec<usize>>,
    /// The gates that may be drawn, and of how many gates one is changed.
    most: usize,
    every: usize,
    used: Vec<&'static str>,
}

impl<'list> Laying<'list> {
    fn of(list: &'list List, most: usize, every: usize) -> Self {
        let inputs = list.counts[0];
        Self {
            list,
            drawing: Drawing::over(inputs),
            literals: (0..=inputs).map(|net| vec![2 * net]).collect(),
            most,
            every,
            used: Vec::new(),
        }
    }

    /// Draws all gates, and gives the outputs.
    fn all(&mut self, random: &mut Random) -> Vec<usize> {
        let gates = self.list.gates.len();
        for place in 0..gates {
            let left = gates - place;
            let room = self.most.saturating_sub(self.drawing.gates() + left);
            // The room is spread over the gates that are left: an identity has about four gates.
            let is_due = random.below(4 * left) < room && random.one_in(self.every);
            let changes = is_due && room > COST;
            let changed = if changes {
                self.changed(random, place)
            } else {
                None
            };
            let literals = changed.unwrap_or_else(|| vec![self.plain(random, place)]);
            self.literals.push(literals);
        }
        let outputs = self.list.outputs.iter();
        outputs.map(|&output| self.shown(random, output)).collect()
    }

    /// A drawn literal for one of the list.
    fn shown(&self, random: &mut Random, literal: usize) -> usize {
        random.pick(&self.literals[literal / 2]) ^ (literal % 2)
    }

    fn both(&self, random: &mut Random, operands: [usize; 2]) -> [usize; 2] {
        operands.map(|operand| self.shown(random, operand))
    }

    /// Any literal drawn so far but the constants.
    fn any_literal(&self, random: &mut Random) -> usize {
        2 + random.below(2 * (self.drawing.nets() - 1))
    }

    /// The gate of a literal of the list.
    fn gate(&self, literal: usize) -> Option<(u8, [usize; 2])> {
        let place = (literal / 2).checked_sub(1 + self.list.counts[0])?;
        Some(self.list.gates[place])
    }

    /// The operands of a literal's gate, if it is of this kind and the literal of this sign.
    fn parts(&self, literal: usize, kind: u8, sign: usize) -> Option<[usize; 2]> {
        let (of_kind, operands) = self.gate(literal)?;
        (of_kind == kind && literal % 2 == sign).then_some(operands)
    }

    /// Of two ANDs of this sign a literal of the first that the second reads with this sign, and
    /// the other literal of each.
    fn common_part(&self, literals: [usize; 2], sign: usize, turned: usize) -> Option<[usize; 3]> {
        let [first, second] = literals.map(|literal| self.parts(literal, AND, sign));
        let (first, second) = (first?, second?);
        let places = [[0, 0], [0, 1], [1, 0], [1, 1]];
        let mut parts = places.map(|[i, j]| [first[i], second[j], first[1 - i], second[1 - j]]);
        parts.sort_unstable();
        let found = parts.iter().find(|[a, c, ..]| a ^ c == turned);
        found.map(|&[a, _, b, d]| [a, b, d])
    }

    fn plain(&mut self, random: &mut Random, place: usize) -> usize {
        let (kind, operands) = self.list.gates[place];
        let operands = self.both(random, operands);
        self.drawing.folded(kind, operands)
    }

    /// The gate by some identity that fits, if one of several tries does.
    fn changed(&mut self, random: &mut Random, place: usize) -> Option<Vec<usize>> {
        match random.below(8) {
            0 => {
                let literals = [(); 2].map(|()| self.plain(random, place));
                return Some(self.noting(DOUBLED, literals.into()));
            }
            1 => {
                let literal = self.expanded(random, place)?;
                return Some(self.noting(EXPANDED, vec![literal]));
            }
            2 => {
                let literal = self.split(random, place);
                return Some(self.noting(SPLIT, vec![literal]));
            }
            _ => {}
        }
        let (kind, mut operands) = self.list.gates[place];
        let identities: &[Identity] = match kind {
            AND => &AND_IDENTITIES,
            _ => &XOR_IDENTITIES,
        };
        // Those that need operands of some kind fit seldom, so half of the time they alone are
        // tried.
        let tried = &identities[if random.one_in(2) { FITTING } else { 0 }..];
        (0..6).find_map(|_| {
            operands.swap(0, random.below(2));
            let (name, identity) = random.pick(tried);
            let literal = identity(self, random, operands)?;
            Some(self.noting(name, vec![literal]))
        })
    }

    fn noting(&mut self, name: &'static str, literals: Vec<usize>) -> Vec<usize> {
        self.used.push(name);
        literals
    }

    /// (g and z) or (g' and not z), with z any net and g' the gate once more.
    fn split(&mut self, random: &mut Random, place: usize) -> usize {
        let [once, again] = [(); 2].map(|()| self.plain(random, place));
        let z = self.any_literal(random);
        self.drawing.multiplexer(z, once, again)
    }

    /// The gate with an input of its cone true and with it false, and between both a multiplexer.
    fn expanded(&mut self, random: &mut Random, place: usize) -> Option<usize> {
        let net = 1 + self.list.counts[0] + place;
        let (gates, inputs) = self.cone(net)?;
        let input = random.pick(&inputs);
        let [high, low] = [1, 0].map(|value| self.cofactor(&gates, input, value));
        Some(self.drawing.multiplexer(2 * input, high, low))
    }

    /// The gates behind a net and itself, rising, and the inputs; none if they are many gates, or
    /// no inputs.
    fn cone(&self, net: usize) -> Option<(Vec<usize>, Vec<usize>)> {
        let (mut gates, mut inputs) = (Vec::new(), Vec::new());
        let mut open = vec![net];
        while let Some(net) = open.pop() {
            match self.gate(2 * net) {
                Some(_) if gates.contains(&net) => {}
                Some(_) if gates.len() == CONE => return None,
                Some((_, operands)) => {
                    gates.push(net);
                    open.extend(operands.map(|operand| operand / 2));
                }
                None if net > 0 && !inputs.contains(&net) => inputs.push(net),
                None => {}
            }
        }
        gates.sort_unstable();
        (!inputs.is_empty()).then_some((gates, inputs))
    }

    /// The last of these gates with the input at a value.
    fn cofactor(&mut self, gates: &[usize], input: usize, value: usize) -> usize {
        let mut drawn: Vec<(usize, usize)> = vec![(input, value)];
        for &net in gates {
            let (kind, operands) = self.gate(2 * net).expect("a cone has gates");
            let operands = operands.map(|operand| {
                let known = drawn.iter().find(|(net, _)| *net == operand / 2);
                // A net of no gate here is an input or the constant, which are shown by themselves.
                known.map_or(operand, |(_, literal)| literal ^ (operand % 2))
            });
            let literal = self.drawing.folded(kind, operands);
            drawn.push((net, literal));
        }
        drawn.last().expect("a cone has gates").1
    }
}

/// The same gates in another order, numbered anew, with operands exchanged and signs moved.
fn shuffled(random: &mut Random, list: &List) -> List {
    let [inputs, ..] = list.counts;
    let mut numbers: Vec<usize> = (0..=inputs).collect();
    numbers.resize(1 + inputs + list.gates.len(), usize::MAX);
    let mut signs = vec![0; numbers.len()];
    let mut unwritten: Vec<usize> = (0..list.gates.len()).collect();
    let mut gates = Vec::new();
    while !unwritten.is_empty() {
        let from = random.below(unwritten.len());
        let is_ready = |&at: &usize| {
            let (_, operands) = list.gates[unwritten[at]];
            operands
                .iter()
                .all(|operand| numbers[operand / 2] != usize::MAX)
        };
        let at = (from..unwritten.len()).find(is_ready).unwrap_or(0);
        let place = unwritten.remove(at);
        let (kind, operands) = list.gates[place];
        let mut operands =
            operands.map(|literal| renumbered(&numbers, literal) ^ signs[literal / 2]);
        operands.swap(0, random.below(2));
        let net = 1 + inputs + place;
        if kind == XOR {
            signs[net] = random.below(2);
            operands[random.below(2)] ^= signs[net];
        }
        numbers[net] = 1 + inputs + gates.len();
        gates.push((kind, operands));
    }
    let outputs = list.outputs.iter();
    let outputs = outputs.map(|&literal| renumbered(&numbers, literal) ^ signs[literal / 2]);
    List {
        counts: list.counts,
        outputs: outputs.collect(),
        gates,
    }
}
