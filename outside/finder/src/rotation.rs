//! The rotation that all relations of sums rest on: (a + b) + c = (a + c) + b.
//!
//! At each weight two carries come in on either side, with α + β = γ + δ as numbers. From this and
//! the three bits there, the sums are equal, and the next carries are related alike: a fixed number
//! of lines for each weight.

use std::rc::Rc;

use crate::gate::{Gate, Lit};
use crate::proof::Id;
use crate::sweep::Sweep;
use crate::words::{Adder, Tree};

/// Cells of three bits and two carries: sum and carry of both, their definitions, and the clauses
/// that relate them to other cells of the same bits.
struct Exchange {
    sums: [Lit; 2],
    carries: [Lit; 2],
    defined: [Vec<Id>; 2],
    found: Vec<Id>,
}

impl Sweep<'_> {
    /// Given a + b and (a + b) + c: the tree of a + c, and the addition of b to it, whose sum is
    /// that of the second.
    pub(crate) fn rotate(
        &mut self,
        [a, b, c]: [&Rc<Tree>; 3],
        [first, second]: [&Adder; 2],
    ) -> Option<(Rc<Tree>, Adder)> {
        let third = self.add_words(a.word(), c.word());
        let mut fourth = self.add_words(&third.sum, b.word());
        let mut relation = vec![];
        for at in 0..second.sum.len() {
            let bits = [a, b, c].map(|tree| tree.word()[at]);
            let given = self.cells_at(at, bits, [first, second, &third, &fourth], relation)?;
            let sums = [fourth.sum[at], second.sum[at]];
            let [p, q, r, s] = [first, second, &third, &fourth].map(|adder| after(adder, at));
            let equal;
            (equal, relation) = self.same_place(&given, sums, [[p, q], [r, s]])?;
            fourth.clauses[at].extend(equal);
        }
        fourth.sum = second.sum.clone();
        Some((Tree::sum(a, c, third), fourth))
    }

    /// The tree of (x + carry) + y, where a list's adder takes all three at once.
    pub(crate) fn with_carry(
        &mut self,
        [x, y, carry]: [&Rc<Tree>; 3],
        listed: &Adder,
    ) -> Option<Rc<Tree>> {
        let first = self.add_words(x.word(), carry.word());
        let mut second = self.add_words(&first.sum, y.word());
        let mut relation = vec![];
        for at in 0..listed.sum.len() {
            let adders = [&first, &second, listed];
            relation.extend(adders.iter().flat_map(|adder| &adder.clauses[at]));
            let sums = [second.sum[at], listed.sum[at]];
            let [p, q, r] = adders.map(|adder| after(adder, at));
            let equal;
            (equal, relation) = self.same_place(&relation, sums, [[p, q], [r, Lit::FALSE]])?;
            second.clauses[at].extend(equal);
        }
        second.sum = listed.sum.clone();
        Some(Tree::sum(&Tree::sum(x, carry, first), y, second))
    }

    /// Clauses that two sums are equal, and that two pairs of carries have as many ones, out of the
    /// given ones.
    pub(crate) fn same_place(
        &mut self,
        given: &[Id],
        [p, q]: [Lit; 2],
        [one, other]: [[Lit; 2]; 2],
    ) -> Option<(Vec<Id>, Vec<Id>)> {
        let equal = equal_clauses(p, q);
        let targets = [equal.clone(), count_clauses(one, other)].concat();
        let mut found = self.clauses_out_of(given, &targets)?;
        let counts = found.split_off(equal.len());
        Some((found, counts))
    }

    /// What the sums and carries of a rotation at one weight follow from. Where there are three
    /// bits, both sides are related by way of cells that take these first: search without them needs
    /// twice as many lines.
    fn cells_at(
        &mut self,
        at: usize,
        [a, b, c]: [Lit; 3],
        [first, second, third, fourth]: [&Adder; 4],
        relation: Vec<Id>,
    ) -> Option<Vec<Id>> {
        if [a, b, c].contains(&Lit::FALSE) {
            let adders = [first, second, third, fourth].into_iter();
            let clauses = adders.flat_map(|adder| &adder.clauses[at]);
            return Some(clauses.chain(&relation).copied().collect());
        }
        let one = self.exchange(at, [a, b, c], [first, second])?;
        let other = self.exchange(at, [a, c, b], [third, fourth])?;
        let mut given = relation;
        for place in 0..2 {
            let defined = one.defined[place].iter().chain(&other.defined[place]);
            let cells: Vec<Id> = given.iter().chain(defined).copied().collect();
            let sums = equal_clauses(one.sums[place], other.sums[place]);
            let carries = equal_clauses(one.carries[place], other.carries[place]);
            given.extend(self.clauses_out_of(&cells, &[sums, carries].concat())?);
        }
        given.extend(one.found.iter().chain(&other.found));
        Some(given)
    }

    /// Of cells (a, b, x), (m, c, y) at one weight, whose sums are m and u: the cells (a, b, c),
    /// (s, x, y), whose second sum is u too, and whose carries have as many ones.
    fn exchange(
        &mut self,
        at: usize,
        [a, b, c]: [Lit; 3],
        [first, second]: [&Adder; 2],
    ) -> Option<Exchange> {
        let (m, x, y) = (first.sum[at], first.carry[at], second.carry[at]);
        let low = self.full_adder(&[a, b, c]);
        let high = self.full_adder(&[low.sum, x, y]);
        let adders = [first, second].map(|adder| &adder.clauses[at]);
        let cells = adders.into_iter().chain([&low.defined, &high.defined]);
        let mut given: Vec<Id> = cells.flatten().copied().collect();
        if x != Lit::FALSE {
            // That both XOR the same so far is a rotation of its own.
            let inner = [(m, c), (low.sum, x)].map(|(p, q)| self.proof.extend(Gate::Xor(p, q)));
            let mut rotated = given.clone();
            rotated.extend(inner.iter().flat_map(|l| self.proof.definition(l.var())));
            given.extend(self.clauses_out_of(&rotated, &equal_clauses(inner[0], inner[1]))?);
        }
        let made = [low.carry, high.carry];
        // Past the last weight, carries do not matter.
        let is_last = at + 1 == first.carry.len();
        let carries = [first, second].map(|adder| after(adder, at));
        let counted = [if is_last { made } else { carries }, made];
        let sums = [high.sum, second.sum[at]];
        let (mut found, counts) = self.same_place(&given, sums, counted)?;
        found.extend(counts);
        Some(Exchange {
            sums: [low.sum, high.sum],
            carries: made,
            defined: [low.defined, high.defined],
            found,
        })
    }
}

/// The carry into the next weight; past the last it does not matter.
fn after(adder: &Adder, at: usize) -> Lit {
    adder.carry.get(at + 1).copied().unwrap_or(Lit::FALSE)
}

/// The clauses of p = q that say something.
fn equal_clauses(p: Lit, q: Lit) -> Vec<Vec<Lit>> {
    said([vec![!p, q], vec![p, !q]])
}

/// The clauses of p + q = r + s as numbers that say something.
fn count_clauses([p, q]: [Lit; 2], [r, s]: [Lit; 2]) -> Vec<Vec<Lit>> {
    said([
        vec![!p, r, s],
        vec![!q, r, s],
        vec![!r, p, q],
        vec![!s, p, q],
        vec![!p, !q, r],
        vec![!p, !q, s],
        vec![!r, !s, p],
        vec![!r, !s, q],
    ])
}

/// The clauses that are no tautologies, without the constant.
fn said<const COUNT: usize>(clauses: [Vec<Lit>; COUNT]) -> Vec<Vec<Lit>> {
    let is_void = |l: &Lit, clause: &[Lit]| *l == Lit::TRUE || clause.contains(&!*l);
    let mut said = clauses.to_vec();
    said.retain(|clause| !clause.iter().any(|l| is_void(l, clause)));
    for clause in &mut said {
        clause.retain(|&l| l != Lit::FALSE);
        clause.sort_unstable();
        clause.dedup();
    }
    said
}
