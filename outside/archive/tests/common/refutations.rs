//! Refutations of the miters of agreeing lists, by cases on the inputs.
//!
//! Once each input has a value, the clauses of a gate leave it one value; so do those of each z and
//! w, and the last clause is false. From it, each literal over a variable that is no input is
//! resolved away, the highest first: its variable's clauses have one that is false but for the
//! variable's value. What is left holds inputs alone and is false in this case. Two such clauses
//! for both values of an input are resolved on it.

use cec_reference::{evaluate_nets, Literal};

use super::proofs::{Proof, Step};
use super::random::Random;

struct Refuting<'proof> {
    proof: &'proof mut Proof,
    random: &'proof mut Random,
    /// The numbers of the miter's clauses whose highest variable is this one.
    defining: Vec<Vec<usize>>,
    /// Whether steps that the refutation does not need come in between.
    among_others: bool,
}

/// Adds a refutation. None if a clause on the way is too long, or if the lists do not agree; the
/// steps before that are there.
pub fn refute(proof: &mut Proof, random: &mut Random) -> Option<()> {
    refuting(proof, random, false)
}

/// The same with other steps in between.
pub fn refute_among_others(proof: &mut Proof, random: &mut Random) -> Option<()> {
    refuting(proof, random, true)
}

fn refuting(proof: &mut Proof, random: &mut Random, among_others: bool) -> Option<()> {
    let mut defining = vec![Vec::new(); proof.miter_variables.into()];
    for (place, clause) in proof.clauses[..proof.miter - 1].iter().enumerate() {
        let highest = clause.literals().last()?;
        defining[highest.net()].push(place + 1);
    }
    let mut refuting = Refuting {
        proof,
        random,
        defining,
        among_others,
    };
    refuting.split(0, 0).map(|_| ())
}

impl Refuting<'_> {
    /// A clause that is false wherever the first inputs, so many, are as in the pattern. Its number
    /// is that of the last line's clause.
    fn split(&mut self, pattern: u64, split: usize) -> Option<usize> {
        if split == self.proof.left.inputs() {
            return self.contradict(pattern);
        }
        let input = Literal::positive(split as u16 + 1)?;
        let low = self.split(pattern, split + 1)?;
        if !self.proof.clause(low).holds(input) {
            return Some(low);
        }
        let high = self.split(pattern | 1 << split, split + 1)?;
        if !self.proof.clause(high).holds(!input) {
            return Some(high);
        }
        self.take(Step::resolve(low, high, input.variable()))
    }

    /// A clause over inputs that is false on the pattern.
    fn contradict(&mut self, pattern: u64) -> Option<usize> {
        let values = self.values(pattern);
        let mut current = self.proof.miter;
        while let Some(held) = self.highest_no_input(current) {
            let reason = self.reason(held, &values)?;
            let (first, second) = if held.is_complemented() {
                (reason, current)
            } else {
                (current, reason)
            };
            current = self.take(Step::resolve(first, second, held.variable()))?;
        }
        Some(current)
    }

    /// The highest literal of a clause that is over no input.
    fn highest_no_input(&self, clause: usize) -> Option<Literal> {
        let inputs = 1..=self.proof.left.inputs();
        let literals = self.proof.clause(clause).literals().iter().rev();
        let mut others = literals.filter(|held| !inputs.contains(&held.net()));
        others.next().copied()
    }

    /// A clause that says why the literal is false: it holds the complement, and is false but for
    /// it.
    fn reason(&mut self, literal: Literal, values: &[u8]) -> Option<usize> {
        let is_false = |held: &Literal| values[held.net()] == u8::from(held.is_complemented());
        let is_reason = |&number: &usize| {
            let clause = self.proof.clause(number);
            let mut others = clause.literals().iter().filter(|&&held| held != !literal);
            clause.holds(!literal) && others.all(is_false)
        };
        let defining = self.defining[literal.net()].iter().copied();
        let reasons: Vec<usize> = defining.filter(is_reason).collect();
        (!reasons.is_empty()).then(|| self.random.pick(&reasons))
    }

    /// The value of each variable on a pattern on which the lists agree: each z and w is false.
    fn values(&self, pattern: u64) -> Vec<u8> {
        let Proof { left, right, .. } = &*self.proof;
        let mut values = vec![0; left.nets()];
        evaluate_nets(left, pattern, &mut values);
        let mut right_values = vec![0; right.nets()];
        evaluate_nets(right, pattern, &mut right_values);
        values.extend(&right_values[1 + right.inputs()..]);
        values.resize(self.defining.len(), 0);
        values
    }

    fn take(&mut self, step: Step) -> Option<usize> {
        if self.among_others && self.random.one_in(8) {
            self.proof.take_random(self.random);
        }
        self.proof.take(step)
    }
}
