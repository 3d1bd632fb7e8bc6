//! Sums in another order: words added up by ripple adders in another bracketing or order.
//!
//! As XOR trees are, both trees are split by the same half of the bits that they add up, with
//! adders of extension variables where a tree has no such sum, and each node with bits of both
//! halves costs a rotation or three. Search has to find the relation of the carries by itself, and
//! needs clauses whose number grows exponentially: for the ones among 16 bits, counted in opposite
//! order, a proof of 131,578 clauses, twice as many as have numbers. By rotations it has 17,901.

use std::rc::Rc;

use crate::adders::{Cells, Reading};
use crate::gate::{Lit, Var};
use crate::halves::best_half;
use crate::plans::Plan;
use crate::proof::Id;
use crate::sweep::Sweep;
use crate::words::{Adder, Leaf, Tree};

/// What a tree is the sum of, on either side of a half of its leaves, and by which addition; or the
/// side that all of it is on.
enum Split {
    Both([Rc<Tree>; 2], Adder),
    One(usize),
}

/// Fewer bits are left to the search, whose proofs are shorter there.
const LEAST_LEAVES: usize = 8;

impl Sweep<'_> {
    /// The clauses (not v, r), (v, not r), if both are the same bit of a sum of the same bits. Any
    /// net that r stands for may be that bit.
    pub(crate) fn sum_route(&mut self, v: Var, r: Lit) -> Option<[Id; 2]> {
        if r.var() == 0 {
            return None;
        }
        let found = || Rc::new(Reading::ALL.map(|reading| self.find_cells(reading)));
        let cells = self.cells.clone().unwrap_or_else(found);
        self.cells = Some(cells.clone());
        let signed = |u: Var| Lit::of(u) ^ (self.nets[u].stands == !r);
        let nets = (r.var()..self.nets.len()).map(signed);
        let same: Vec<Lit> = nets.filter(|&u| self.standing(u) == r).collect();
        for (x, leaves) in self.plans_of(Lit::of(v), &*cells) {
            for &u in &same {
                for (y, of_y) in self.plans_of(u, &*cells) {
                    if leaves != of_y || leaves.len() < LEAST_LEAVES {
                        continue;
                    }
                    if let Some(clauses) = self.same_bit(&x, &y) {
                        return self.equal_through(v, u, r, clauses);
                    }
                }
            }
        }
        None
    }

    /// How a bit is added up and which bits those are, in each reading of the lists' cells.
    fn plans_of(&self, l: Lit, cells: &[Cells]) -> Vec<(Plan, Vec<(i32, Lit)>)> {
        cells
            .iter()
            .filter_map(|cells| self.plan_of(l, cells))
            .collect()
    }

    /// The clauses (not v, r), (v, not r), given those of v = u, for which r stands.
    fn equal_through(&mut self, v: Var, u: Lit, r: Lit, mut clauses: Vec<Id>) -> Option<[Id; 2]> {
        clauses.extend(self.nets[u.var()].equal.iter().flatten());
        let v = Lit::of(v);
        let found = self.clauses_out_of(&clauses, &[vec![!v, r], vec![v, !r]])?;
        Some([found[0], found[1]])
    }

    /// The clauses of x = y at their highest weight.
    fn same_bit(&mut self, x: &Plan, y: &Plan) -> Option<Vec<Id>> {
        let low = x.lowest().min(y.lowest());
        let (x, y) = (self.tree(x, low)?, self.tree(y, low)?);
        self.same_sum(&x, &y)?.pop()
    }

    /// For each weight the clauses of x = y, two trees over the same leaves.
    fn same_sum(&mut self, x: &Rc<Tree>, y: &Rc<Tree>) -> Option<Vec<Vec<Id>>> {
        if let Some(clauses) = self.same_word(x, y) {
            return Some(clauses);
        }
        let half = half_of(x, y)?;
        let splits = (self.split_sum(x, &half)?, self.split_sum(y, &half)?);
        let (Split::Both(of_x, first), Split::Both(of_y, second)) = splits else {
            return None;
        };
        let parts = [
            self.same_sum(&of_x[0], &of_y[0])?,
            self.same_sum(&of_x[1], &of_y[1])?,
        ];
        let (mut carry, mut found) = (vec![], vec![]);
        for (at, sums) in x.word().iter().zip(y.word()).enumerate() {
            carry.extend(parts.iter().flat_map(|equal| &equal[at]));
            carry.extend(
                [&first, &second]
                    .iter()
                    .flat_map(|adder| &adder.clauses[at]),
            );
            let next = [&first, &second].map(|adder| adder.carry.get(at + 1));
            let next = next.map(|carry| [carry.copied().unwrap_or(Lit::FALSE), Lit::FALSE]);
            let equal;
            (equal, carry) = self.same_place(&carry, [*sums.0, *sums.1], next)?;
            found.push(equal);
        }
        Some(found)
    }

    /// The same for trees whose words were proved equal by the sweep.
    fn same_word(&self, x: &Tree, y: &Tree) -> Option<Vec<Vec<Id>>> {
        let pairs = x.word().iter().zip(y.word());
        let equal = |l: &Lit| {
            self.nets
                .get(l.var())
                .into_iter()
                .flat_map(|net| net.equal)
                .flatten()
        };
        pairs
            .map(|(p, q)| match self.standing(*p) == self.standing(*q) {
                true if p == q => Some(vec![]),
                true => Some(equal(p).chain(equal(q)).collect()),
                false => None,
            })
            .collect()
    }

    /// Splits a tree by a half of its leaves.
    fn split_sum(&mut self, tree: &Rc<Tree>, half: &[Leaf]) -> Option<Split> {
        let inside = tree
            .leaves
            .iter()
            .filter(|leaf| half.contains(leaf))
            .count();
        if inside == 0 || inside == tree.leaves.len() {
            return Some(Split::One(usize::from(inside == 0)));
        }
        let [x, y] = tree.sum_of.as_ref()?;
        let last = &tree.adder;
        let (parts, adder) = match (self.split_sum(x, half)?, self.split_sum(y, half)?) {
            (Split::One(side), Split::One(_)) => (in_order(side, x, y), last.clone()),
            (Split::One(side), Split::Both(parts, first)) => {
                self.join_side(side, x, &parts, [&first, last])?
            }
            (Split::Both(parts, first), Split::One(side)) => {
                self.join_side(side, y, &parts, [&first, last])?
            }
            (Split::Both([x0, x1], of_x), Split::Both([y0, y1], of_y)) => {
                // (x0 + x1) + y is (x0 + y) + x1; and x0 + (y0 + y1) is (y0 + x0) + y1.
                let (n, last) = self.rotate([&x0, &x1, y], [&of_x, last])?;
                let (p, upper) = self.rotate([&y0, &y1, &x0], [&of_y, &n.adder])?;
                let (q, adder) = self.rotate([&y1, &p, &x1], [&upper, &last])?;
                ([p, q], adder)
            }
        };
        Some(Split::Both(parts, adder))
    }

    /// The split of (p0 + p1) + word, where the word belongs to one side.
    fn join_side(
        &mut self,
        side: usize,
        word: &Rc<Tree>,
        parts: &[Rc<Tree>; 2],
        adders: [&Adder; 2],
    ) -> Option<([Rc<Tree>; 2], Adder)> {
        let (same, other) = (&parts[side], &parts[1 - side]);
        let (joined, adder) = self.rotate([same, other, word], adders)?;
        Some((in_order(side, &joined, other), adder))
    }
}

/// Two parts of which the first is on this side.
fn in_order(side: usize, first: &Rc<Tree>, second: &Rc<Tree>) -> [Rc<Tree>; 2] {
    let mut parts = [first.clone(), second.clone()];
    if side == 1 {
        parts.reverse();
    }
    parts
}

/// A half of the leaves by which both trees split cheaply.
fn half_of(x: &Rc<Tree>, y: &Rc<Tree>) -> Option<Vec<Leaf>> {
    let leaves = &x.leaves;
    let place = |leaf: &Leaf| leaves.iter().position(|other| other == leaf);
    let set = |tree: &Tree| {
        let places = tree.leaves.iter().filter_map(place);
        places.fold(0u128, |set, place| set | 1 << place)
    };
    let (mut nodes, mut words) = (vec![], vec![]);
    let mut open = vec![x, y];
    while let Some(tree) = open.pop() {
        let Some(both) = &tree.sum_of else { continue };
        open.extend(both);
        // Words beside each other are added up for nothing.
        if tree.adder.clauses.iter().any(|clauses| !clauses.is_empty()) {
            nodes.push(set(tree));
            words.extend(both.each_ref().map(|word| set(word)));
        }
    }
    let half = best_half(&nodes, &words)?;
    let places = (0..leaves.len()).filter(|place| half >> place & 1 == 1);
    Some(places.map(|place| leaves[place]).collect())
}
