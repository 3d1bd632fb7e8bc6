//! Words and their additions, in the proof's variables: what a list's adders make, and what
//! extension variables do.

use std::rc::Rc;

use crate::adders::Link;
use crate::gate::{Gate, Lit, Var};
use crate::plans::{Addition, Plan};
use crate::proof::Id;
use crate::sweep::Sweep;

/// A literal for each weight, false where there is none.
pub(crate) type Word = Vec<Lit>;

/// A bit that is added: its weight, and the literal that stands for it.
pub(crate) type Leaf = (usize, Lit);

/// An addition of two words.
#[derive(Clone)]
pub(crate) struct Adder {
    pub(crate) sum: Word,
    /// The carry into each weight.
    pub(crate) carry: Word,
    /// For each weight, clauses that say what its sum is, and its carry into the next.
    pub(crate) clauses: Vec<Vec<Id>>,
}

/// A word, and how it is added up.
pub(crate) struct Tree {
    pub(crate) leaves: Vec<Leaf>,
    pub(crate) sum_of: Option<[Rc<Tree>; 2]>,
    pub(crate) adder: Adder,
}

/// Sum and carry of up to three literals, and the definitions of their variables.
pub(crate) struct FullAdder {
    pub(crate) sum: Lit,
    pub(crate) carry: Lit,
    pub(crate) defined: Vec<Id>,
}

/// Conflicts to see that the last carry of an adder is always false, and how many gates deep. A
/// counter of 15 bits needs all of it.
const OVERFLOW_CONFLICTS: u64 = 2_000;
const OVERFLOW_DEPTHS: [usize; 6] = [1, 2, 4, 6, 10, 20];

impl Tree {
    pub(crate) fn word(&self) -> &Word {
        &self.adder.sum
    }

    /// The tree of a sum.
    pub(crate) fn sum(x: &Rc<Tree>, y: &Rc<Tree>, adder: Adder) -> Rc<Self> {
        let mut leaves = [&x.leaves[..], &y.leaves].concat();
        leaves.sort_unstable();
        let sum_of = Some([x.clone(), y.clone()]);
        Rc::new(Self {
            leaves,
            sum_of,
            adder,
        })
    }
}

impl Adder {
    /// The addition of two words that have no weight in common, which takes no gate.
    fn beside(x: &Word, y: &Word) -> Self {
        let either = |(&p, &q): (&Lit, &Lit)| if p == Lit::FALSE { q } else { p };
        Self {
            sum: x.iter().zip(y).map(either).collect(),
            carry: vec![Lit::FALSE; x.len()],
            clauses: vec![vec![]; x.len()],
        }
    }
}

impl Sweep<'_> {
    /// The tree of a plan, with weights from `low` on.
    pub(crate) fn tree(&mut self, plan: &Plan, low: i32) -> Option<Rc<Tree>> {
        let Some(Addition {
            operands,
            carry,
            links,
        }) = &plan.sum_of
        else {
            let (weight, l) = plan.word[0];
            let leaf = ((weight - low) as usize, self.standing(l));
            let mut word = vec![Lit::FALSE; (1 - low) as usize];
            word[leaf.0] = leaf.1;
            let adder = Adder::beside(&word, &word);
            return Some(Rc::new(Tree {
                leaves: vec![leaf],
                sum_of: None,
                adder,
            }));
        };
        let (x, y) = (
            self.word_of(&operands[0], low)?,
            self.word_of(&operands[1], low)?,
        );
        let adder = self.listed(links, [x.word(), y.word()], low)?;
        match carry {
            None => Some(Tree::sum(&x, &y, adder)),
            Some(carry) => {
                let carry = self.tree(carry, low)?;
                self.with_carry([&x, &y, &carry], &adder)
            }
        }
    }

    /// The tree of parts beside each other.
    fn word_of(&mut self, parts: &[Plan], low: i32) -> Option<Rc<Tree>> {
        let mut word: Option<Rc<Tree>> = None;
        for part in parts {
            let part = self.tree(part, low)?;
            word = Some(match word {
                None => part,
                Some(word) => Tree::sum(&word, &part, Adder::beside(word.word(), part.word())),
            });
        }
        word
    }

    /// The addition of two words that the links of a list make.
    fn listed(&mut self, links: &[(i32, Link)], [x, y]: [&Word; 2], low: i32) -> Option<Adder> {
        let mut adder = Adder::beside(x, y);
        for (weight, link) in links {
            let at = (weight - low) as usize;
            adder.sum[at] = link.sum;
            adder.carry[at] = link.carry_in;
            let mut bits = link.operands.clone();
            bits.push(link.carry_in);
            let mut clauses = vec![];
            if link.sum != link.carry_in {
                clauses.extend(self.cone(link.sum, &bits)?);
            }
            match link.carry_out {
                Some(carry) => clauses.extend(self.cone(carry, &bits)?),
                None if at + 1 < x.len() => clauses.extend(self.no_overflow(&bits)?),
                None => {}
            }
            let equal = link.operands.iter().flat_map(|l| self.nets[l.var()].equal);
            clauses.extend(equal.flatten());
            adder.clauses[at] = clauses;
        }
        Some(adder)
    }

    /// Clauses that say that some bits have no carry.
    fn no_overflow(&mut self, bits: &[Lit]) -> Option<Vec<Id>> {
        let bits: Vec<Lit> = bits
            .iter()
            .copied()
            .filter(|&l| !self.is_false(l))
            .collect();
        let FullAdder {
            carry, mut defined, ..
        } = self.full_adder(&bits);
        if carry == Lit::FALSE {
            return Some(vec![]);
        }
        let roots: Vec<Var> = bits.iter().map(|l| l.var()).collect();
        for depth in OVERFLOW_DEPTHS {
            let window = [self.window(&roots, depth).clauses, defined.clone()].concat();
            if let Ok(id) = self.search(&window, &[!carry], OVERFLOW_CONFLICTS, 0) {
                defined.push(id);
                return Some(defined);
            }
        }
        None
    }

    /// The full adder of some literals by extension variables; a half adder, or nothing, where there
    /// are fewer.
    pub(crate) fn full_adder(&mut self, bits: &[Lit]) -> FullAdder {
        let present: Vec<Lit> = bits.iter().copied().filter(|&l| l != Lit::FALSE).collect();
        let mut defined = vec![];
        let mut gate = |gate: Gate| {
            let l = self.proof.extend(gate);
            defined.extend(self.proof.definition(l.var()));
            l
        };
        let (sum, carry) = match present[..] {
            [] => (Lit::FALSE, Lit::FALSE),
            [a] => (a, Lit::FALSE),
            [a, b] => (gate(Gate::Xor(a, b)), gate(Gate::And(a, b))),
            [a, b, c, ..] => {
                let (sum, carry) = (gate(Gate::Xor(a, b)), gate(Gate::And(a, b)));
                let second = gate(Gate::And(sum, c));
                (gate(Gate::Xor(sum, c)), !gate(Gate::And(!carry, !second)))
            }
        };
        FullAdder {
            sum,
            carry,
            defined,
        }
    }

    /// The sum of two words by extension variables.
    pub(crate) fn add_words(&mut self, x: &Word, y: &Word) -> Adder {
        let mut adder = Adder::beside(x, y);
        let mut carry = Lit::FALSE;
        for at in 0..x.len() {
            let cell = self.full_adder(&[x[at], y[at], carry]);
            (adder.sum[at], adder.carry[at]) = (cell.sum, carry);
            adder.clauses[at] = cell.defined;
            carry = cell.carry;
        }
        adder
    }
}
