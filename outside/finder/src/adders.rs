//! Adders in a list as it stands: full and half adders, and the ripple chains that they make.
//!
//! A cell's sum is an XOR of two or three literals, and its carry is whatever net of the same list is
//! their AND or majority by simulation. Cells whose carry goes into the next are one adder. Nets are
//! those of the list, not what stands for them: half-merged adders would have no shape.

use std::collections::{HashMap, HashSet};

use crate::gate::{Gate, Lit, Var};
use crate::proof::Id;
use crate::simulation::Signature;
use crate::sweep::Sweep;

/// A half or full adder: its carry is 1 where two of its bits are.
struct Cell {
    bits: Vec<Lit>,
    sum: Lit,
}

/// One place of an adder.
pub(crate) struct Link {
    /// What is added there, besides the carry from below; also nets that are always false.
    pub(crate) operands: Vec<Lit>,
    pub(crate) carry_in: Lit,
    pub(crate) sum: Lit,
    /// The carry, if a net has it.
    pub(crate) carry_out: Option<Lit>,
}

/// The cells of both lists by their carries, and the bits of cells by their sums.
#[derive(Default)]
pub(crate) struct Cells {
    by_carry: HashMap<Lit, Cell>,
    by_sum: HashMap<Lit, Vec<Lit>>,
}

/// Two half adders one behind the other, with an XOR of their carries, are a full adder, or places
/// of two adders. No gate says which: the lists are read in each way.
#[derive(Clone, Copy)]
pub(crate) enum Reading {
    /// Places of two adders, as in a counter.
    Apart,
    /// A full adder, if at most one of its bits is a carry.
    Joined,
    /// A full adder, as where words' highest bits are added.
    AllJoined,
}

impl Reading {
    pub(crate) const ALL: [Self; 3] = [Self::Apart, Self::Joined, Self::AllJoined];

    /// Whether three bits, of which so many are carries, are those of a full adder.
    fn joins(self, carries: usize) -> bool {
        match self {
            Self::Apart => false,
            Self::Joined => carries <= 1,
            Self::AllJoined => true,
        }
    }
}

/// Gates between a cell's bits and its sum or carry, at most.
const MOST_GATES: usize = 12;

impl Sweep<'_> {
    /// Finds the cells of both lists, in this reading.
    pub(crate) fn find_cells(&self, reading: Reading) -> Cells {
        let mut cells = Cells::default();
        let first_right = self.miter.first_right;
        for list in [1..first_right, first_right..self.miter.differences[0]] {
            let mut nets: HashMap<u64, Vec<Lit>> = HashMap::new();
            for v in list.clone() {
                let Signature { hash, turned, .. } = self.simulation.signature(v);
                nets.entry(hash).or_default().push(Lit::of(v) ^ turned);
            }
            for v in list.filter(|&v| v > self.miter.inputs) {
                let summands = self.summands(Lit::of(v));
                for (bits, sum) in summands.iter().flat_map(|bits| signed(bits, v)) {
                    let is_carry = |l: &&Lit| cells.by_carry.contains_key(l);
                    let joins = reading.joins(bits.iter().filter(is_carry).count());
                    for carry in self.carries(&bits, sum, &nets, joins) {
                        let bits = bits.clone();
                        cells.by_sum.entry(sum).or_insert(bits.clone());
                        cells.by_carry.entry(carry).or_insert(Cell { bits, sum });
                    }
                }
            }
        }
        cells
    }

    /// The nets among these that are the carry of some bits, and made of them; whether an XOR may be
    /// the carry of three.
    fn carries(
        &self,
        bits: &[Lit],
        sum: Lit,
        nets: &HashMap<u64, Vec<Lit>>,
        joins: bool,
    ) -> Vec<Lit> {
        let simulation = &self.simulation;
        let Signature { hash, turned, .. } = simulation.carry_signature(bits);
        // Where a bit never changes, or two are never both 1, the carry may be a bit or the sum; and
        // where two of three bits are never both 1, the third makes a half adder of them.
        let known = |l: &Lit| simulation.signature(l.var()).hash == hash;
        let never = || simulation.carry_signature(&bits[..2]) == simulation.signature(0);
        if bits.iter().chain([&sum]).any(known) || bits.len() == 3 && never() {
            return vec![];
        }
        let last = bits.iter().map(|l| l.var()).max().unwrap_or(0);
        let fits = |k: &Lit| {
            let is_joined = bits.len() == 3 && self.plain_xor(*k).is_some();
            k.var() > last && (joins || !is_joined) && self.cone(*k, bits).is_some()
        };
        let alike = nets.get(&hash).into_iter().flatten().copied();
        alike.filter(fits).map(|k| k ^ turned).collect()
    }

    /// What a net is the XOR of, three at first, in the list as it stands.
    fn summands(&self, l: Lit) -> Vec<Vec<Lit>> {
        let Some([x, y]) = self.plain_xor(l) else {
            return vec![];
        };
        let mut found = vec![];
        for (one, other) in [(x, y), (y, x)] {
            if let Some([p, q]) = self.plain_xor(one) {
                found.push(vec![p, q, other]);
            }
        }
        found.push(vec![x, y]);
        found
    }

    /// l as the XOR of two literals: an XOR gate, or three ANDs.
    fn plain_xor(&self, l: Lit) -> Option<[Lit; 2]> {
        if l.var() >= self.nets.len() {
            return None;
        }
        match self.proof.gate(l.var()) {
            Gate::Leaf => None,
            Gate::Xor(x, y) => Some([x ^ l.is_complemented(), y]),
            Gate::And(x, y) => {
                let Gate::And(a, b) = self.proof.gate(x.var()) else {
                    return None;
                };
                let Gate::And(..) = self.proof.gate(y.var()) else {
                    return None;
                };
                let turned = self.simulation.as_xor(l.var(), a.var(), b.var())?;
                let [a, b] = [a, b].map(|l| Lit::of(l.var()));
                Some([a ^ (turned != l.is_complemented()), b])
            }
        }
    }

    /// The adder that l is the top bit of, from its lowest place on.
    pub(crate) fn adder_below(&self, l: Lit, cells: &Cells) -> Option<Vec<Link>> {
        if let Some(cell) = cells.by_carry.get(&l) {
            let mut links = self.chain(&cell.bits, cells)?;
            let top = links.last_mut()?;
            (top.sum, top.carry_out) = (cell.sum, Some(l));
            links.push(Link {
                operands: vec![],
                carry_in: l,
                sum: l,
                carry_out: None,
            });
            return Some(links);
        }
        let bits = match cells.by_sum.get(&l) {
            Some(bits) => bits.clone(),
            None => self.top_bits(l, cells)?,
        };
        let mut links = self.chain(&bits, cells)?;
        links.last_mut()?.sum = l;
        Some(links)
    }

    /// What is added at a place that has no carry. An operand that is an XOR is a sum by itself, if it
    /// is that of a cell or has a carry from below in it; else this place adds three bits.
    fn top_bits(&self, l: Lit, cells: &Cells) -> Option<Vec<Lit>> {
        let mut bits = self.plain_xor(l)?.to_vec();
        let is_sum = |l: Lit| cells.by_sum.contains_key(&l) || cells.by_sum.contains_key(&!l);
        for k in 0..2 {
            let Some([p, q]) = self.plain_xor(bits[k]).filter(|_| !is_sum(bits[k])) else {
                continue;
            };
            if self.carry_among(&[p, q], cells).is_none() {
                bits[k] = p;
                bits.push(q);
                break;
            }
        }
        Some(bits)
    }

    /// Which of some bits is the carry from below: of those that are carries, the deepest.
    fn carry_among(&self, bits: &[Lit], cells: &Cells) -> Option<Lit> {
        let carries = bits
            .iter()
            .copied()
            .filter(|l| cells.by_carry.contains_key(l));
        carries.max_by_key(|l| (self.nets[l.var()].depth, *l))
    }

    /// The links up to one that adds these bits; its sum is left open.
    fn chain(&self, bits: &[Lit], cells: &Cells) -> Option<Vec<Link>> {
        let mut top = bits.to_vec();
        let mut links = vec![];
        loop {
            let carry = self.carry_among(&top, cells);
            top.retain(|&l| Some(l) != carry);
            top.sort_by_key(|&l| !self.is_false(l));
            let bits = top.iter().filter(|&&l| !self.is_false(l)).count();
            // An adder may begin with three bits: then one of them comes in as a carry does.
            let third = if bits > 2 { top.pop() } else { None };
            let carry_in = carry.or(third).unwrap_or(Lit::FALSE);
            links.push(Link {
                operands: top,
                carry_in,
                sum: Lit::FALSE,
                carry_out: None,
            });
            let Some(cell) = carry.map(|carry| &cells.by_carry[&carry]) else {
                break;
            };
            top = cell.bits.clone();
        }
        links.reverse();
        for place in 1..links.len() {
            let carry = links[place].carry_in;
            links[place - 1].carry_out = Some(carry);
            links[place - 1].sum = cells.by_carry[&carry].sum;
        }
        Some(links)
    }

    /// The definitions of the gates between some bits and a literal over them.
    pub(crate) fn cone(&self, l: Lit, bits: &[Lit]) -> Option<Vec<Id>> {
        let (mut open, mut seen) = (vec![l.var()], HashSet::new());
        let mut clauses = vec![];
        while let Some(v) = open.pop() {
            if bits.iter().any(|bit| bit.var() == v) || !seen.insert(v) {
                continue;
            }
            let operands = self
                .proof
                .gate(v)
                .operands()
                .filter(|_| seen.len() <= MOST_GATES)?;
            open.extend(operands.map(|l| l.var()));
            clauses.extend(self.proof.definition(v));
        }
        Some(clauses)
    }
}

/// The bits of a sum, and the sum, with each sign that two of them may have; a majority has the third
/// by itself.
fn signed(bits: &[Lit], sum: Var) -> impl Iterator<Item = (Vec<Lit>, Lit)> + '_ {
    [[false, false], [true, false], [false, true], [true, true]]
        .into_iter()
        .map(move |turns| {
            let mut turned = bits.to_vec();
            turned[0] = turned[0] ^ turns[0];
            turned[1] = turned[1] ^ turns[1];
            (turned, Lit::of(sum) ^ (turns[0] != turns[1]))
        })
}
