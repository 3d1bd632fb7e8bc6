//! XOR trees over the same leaves in another bracketing or order, for which search alone needs
//! exponentially many clauses.
//!
//! Both trees are split by the same half of their leaves: u = (XOR of what is in the half) XOR (XOR
//! of the rest), with extension variables where a tree has no such net, and the parts are related
//! in the same way. A node with leaves of both sides costs a rotation of three XORs, and the half is
//! chosen so that few are: n log n rotations, where putting leaf after leaf in order takes n²/4.

use crate::gate::{xor_clauses, Gate, Lit, Var};
use crate::halves::best_half;
use crate::proof::Id;
use crate::sweep::Sweep;

/// A net as the XOR of two literals, by clauses over the three.
#[derive(Clone)]
pub struct XorOf {
    operands: [Lit; 2],
    clauses: Vec<Id>,
}

/// What a net is made of on either side of a half of leaves, and the clauses of net = part XOR part
/// where it has both.
struct Split {
    parts: [Option<Lit>; 2],
    clauses: Vec<Id>,
}

/// Fewer leaves are left to the search, whose proofs are shorter there.
const LEAST_LEAVES: usize = 4;

/// Sets of leaves are bits of a `u128`.
const MOST_LEAVES: usize = 128;

/// How deep the ANDs of an XOR are looked at.
const XOR_WINDOW: usize = 3;

impl Sweep<'_> {
    /// The clauses (not v, r), (v, not r), if both have XOR trees over the same leaves, each there
    /// once.
    pub(crate) fn xor_route(&mut self, v: Var, r: Lit) -> Option<[Id; 2]> {
        let sorted = |mut leaves: Vec<Var>| {
            leaves.sort_unstable();
            leaves
        };
        let (of_v, of_r) = (sorted(self.leaves(v)?), sorted(self.leaves(r.var())?));
        let once = of_v.windows(2).all(|pair| pair[0] < pair[1]);
        if of_v.len() < LEAST_LEAVES || of_v != of_r || !once {
            return None;
        }
        let clauses = self.same_xor(v, r)?;
        Some([clauses[0], clauses[1]])
    }

    /// The clauses of v = r, two trees over the same leaves; none where they are one net.
    fn same_xor(&mut self, v: Var, r: Lit) -> Option<Vec<Id>> {
        if v == r.var() {
            return (!r.is_complemented()).then(Vec::new);
        }
        let half = self.half_of(v, r.var())?;
        let (of_v, of_r) = (self.split_xor(v, &half)?, self.split_xor(r.var(), &half)?);
        let mut clauses = [of_v.clauses, of_r.clauses].concat();
        for (p, q) in of_v.parts.into_iter().zip(of_r.parts) {
            let (p, q) = p.zip(q)?;
            let turned = self.parity(Lit::of(p.var())) != self.parity(Lit::of(q.var()));
            clauses.extend(self.same_xor(p.var(), Lit::of(q.var()) ^ turned)?);
        }
        let v = Lit::of(v);
        self.clauses_out_of(&clauses, &[vec![!v, r], vec![v, !r]])
    }

    /// A half of the leaves by which both trees split cheaply.
    fn half_of(&mut self, v: Var, r: Var) -> Option<Vec<Var>> {
        let leaves = self.leaves(v)?;
        let place = |u: &Var| leaves.iter().position(|leaf| leaf == u);
        let set = |leaves: &Vec<Var>| {
            leaves
                .iter()
                .filter_map(place)
                .fold(0u128, |set, k| set | 1 << k)
        };
        let mut nodes = vec![];
        for root in [v, r] {
            self.nodes(root, &mut nodes)?;
        }
        let nodes: Vec<u128> = nodes.iter().map(set).collect();
        let alone: Vec<u128> = (0..leaves.len()).map(|k| 1 << k).collect();
        let half = best_half(&nodes, &alone)?;
        let inside = |&(place, _): &(usize, &Var)| half >> place & 1 == 1;
        Some(
            leaves
                .iter()
                .enumerate()
                .filter(inside)
                .map(|(_, &u)| u)
                .collect(),
        )
    }

    /// Splits u by a half of its leaves.
    fn split_xor(&mut self, u: Var, half: &[Var]) -> Option<Split> {
        let whole = |side: bool, l: Lit| Split {
            parts: if side {
                [Some(l), None]
            } else {
                [None, Some(l)]
            },
            clauses: vec![],
        };
        let Some(node) = self.xor_of(u) else {
            return Some(whole(half.contains(&u), Lit::of(u)));
        };
        let [x, y] = node.operands.map(|l| l.var());
        let (x, y) = (self.split_xor(x, half)?, self.split_xor(y, half)?);
        for side in [0, 1] {
            if x.parts[side].is_none() && y.parts[side].is_none() {
                return Some(whole(side == 1, Lit::of(u)));
            }
        }
        let parts = [0, 1].map(|side| match (x.parts[side], y.parts[side]) {
            (Some(p), Some(q)) => Some(self.proof.extend(Gate::Xor(p, q))),
            (p, q) => p.or(q),
        });
        let mut clauses = [node.clauses, x.clauses, y.clauses].concat();
        if let ([Some(p), Some(q)], true) = (parts, clauses.len() > 4) {
            let defined = [p, q].map(|l| self.proof.definition(l.var()));
            clauses.extend(defined.into_iter().flatten());
            let turned = self.parity(Lit::of(u)) != (self.parity(p) != self.parity(q));
            clauses = self.relate(Lit::of(u), [p, q ^ turned], &clauses)?;
        }
        Some(Split { parts, clauses })
    }

    /// Whether l is the complement of the XOR of its leaves.
    fn parity(&mut self, l: Lit) -> bool {
        let below = match self.xor_of(l.var()) {
            Some(node) => node.operands.map(|l| self.parity(l)),
            None => [false, false],
        };
        l.is_complemented() != (below[0] != below[1])
    }

    /// The leaves of v's XOR tree from left to right.
    fn leaves(&mut self, v: Var) -> Option<Vec<Var>> {
        let Some(node) = self.xor_of(v) else {
            return Some(vec![v]);
        };
        let [x, y] = node.operands.map(|l| l.var());
        let leaves = [self.leaves(x)?, self.leaves(y)?].concat();
        (leaves.len() <= MOST_LEAVES).then_some(leaves)
    }

    /// The leaves of each XOR in v's tree.
    fn nodes(&mut self, v: Var, into: &mut Vec<Vec<Var>>) -> Option<()> {
        if let Some(node) = self.xor_of(v) {
            into.push(self.leaves(v)?);
            for l in node.operands {
                self.nodes(l.var(), into)?;
            }
        }
        Some(())
    }

    /// v as an XOR of two others, if it is an XOR gate or ANDs that make one.
    fn xor_of(&mut self, v: Var) -> Option<XorOf> {
        if v >= self.nets.len() {
            let Gate::Xor(x, y) = self.proof.gate(v) else {
                return None;
            };
            let clauses = self.proof.definition(v).collect();
            return Some(XorOf {
                operands: [x, y],
                clauses,
            });
        }
        if let Some(known) = self.xors.get(&v) {
            return known.clone();
        }
        let found = self.find_xor(v);
        self.xors.insert(v, found.clone());
        found
    }

    fn find_xor(&mut self, v: Var) -> Option<XorOf> {
        let clauses = self.nets.get(v)?.defined.clone()?;
        if let Gate::Xor(x, y) = self.proof.gate(v) {
            let operands = [x, y].map(|l| self.standing(l));
            return (clauses.len() == 4).then_some(XorOf { operands, clauses });
        }
        let below = self.grandchildren(v);
        for (k, &a) in below.iter().enumerate() {
            for &b in below[..k].iter().filter(|&&b| b > 0) {
                if let Some(turned) = self.simulation.as_xor(v, a, b) {
                    let window = self.window(&[v], XOR_WINDOW);
                    let operands = [Lit::of(a), Lit::of(b) ^ turned];
                    if let Some(clauses) = self.relate(Lit::of(v), operands, &window.clauses) {
                        return Some(XorOf { operands, clauses });
                    }
                }
            }
        }
        None
    }

    /// What the ANDs below v read.
    fn grandchildren(&self, v: Var) -> Vec<Var> {
        let mut below = vec![];
        for l in self.proof.gate(v).operands().into_iter().flatten() {
            let u = self.standing(l).var();
            if let (Gate::And(x, y), true) = (self.proof.gate(u), self.nets[u].defined.is_some()) {
                below.extend([x, y].map(|l| self.standing(l).var()));
            }
        }
        below.sort_unstable();
        below.dedup();
        below
    }

    /// The four clauses of n = x XOR y out of the given ones.
    fn relate(&mut self, n: Lit, [x, y]: [Lit; 2], clauses: &[Id]) -> Option<Vec<Id>> {
        self.clauses_out_of(clauses, &xor_clauses(n, x, y).map(Vec::from))
    }
}
