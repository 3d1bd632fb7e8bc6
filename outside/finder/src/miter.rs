//! The miter of two lists as a proof begins with it: variables and clauses in the order of document
//! 01, 'The miter's clauses'.

use cec_reference::{miter_gates, miter_outputs, Literal, Netlist, Operation};

use crate::gate::{Gate, Lit, Var};
use crate::proof::{Id, Proof};

/// The variables that matter by themselves.
pub struct Miter {
    /// How many inputs both lists have.
    pub inputs: usize,
    /// The first right gate.
    pub first_right: Var,
    /// Of each output, the variable that is 1 where the lists differ.
    pub differences: Vec<Var>,
    /// Of each output from the second on, the variable that joins the differences so far, and its
    /// clause (not it, the one before, the difference).
    pub joins: Vec<(Var, Id)>,
    /// The last clause: some output differs.
    pub claim: Id,
}

impl Miter {
    /// The miter of two lists, and a proof that has only its clauses.
    pub fn of(left: &Netlist, right: &Netlist) -> (Self, Proof) {
        let mut proof = Proof::default();
        proof.give(&[Lit::TRUE]);
        for _ in 0..=left.inputs() {
            proof.give_variable(Gate::Leaf);
        }
        for gate in miter_gates(left, right) {
            let [x, y] = gate.operands.map(lit);
            proof.give_variable(match gate.operation {
                Operation::And => Gate::And(x, y),
                Operation::Xor => Gate::Xor(x, y),
            });
        }
        let differences: Vec<Var> = miter_outputs(left, right)
            .map(|shown| shown.map(lit))
            .map(|[x, y]| proof.give_variable(Gate::Xor(x, y)))
            .collect();
        let (joins, claim) = join(&mut proof, &differences);
        proof.end_miter();
        let miter = Self {
            inputs: left.inputs(),
            first_right: left.nets(),
            differences,
            joins,
            claim,
        };
        (miter, proof)
    }
}

/// A literal of the miter, whose numbers have 16 bits.
fn lit(literal: Literal) -> Lit {
    Lit::of(literal.net()) ^ literal.is_complemented()
}

/// Each w is the one before or the next difference; the last is claimed.
fn join(proof: &mut Proof, differences: &[Var]) -> (Vec<(Var, Id)>, Id) {
    let mut joins = vec![];
    let mut before = differences[0];
    for &z in &differences[1..] {
        let w = proof.give_variable(Gate::Leaf);
        let [w_lit, before_lit, z_lit] = [w, before, z].map(Lit::of);
        proof.give(&[w_lit, !before_lit]);
        proof.give(&[w_lit, !z_lit]);
        joins.push((w, proof.give(&[!w_lit, before_lit, z_lit])));
        before = w;
    }
    let claim = proof.give(&[Lit::of(before)]);
    (joins, claim)
}

#[cfg(test)]
mod tests {
    use super::*;
    use cec_reference::{read_lists, sample, Miter as Paper};

    #[test]
    fn the_clauses_are_those_of_the_paper() {
        let (left, right) = read_lists(sample::LISTS.as_bytes()).expect("the paper's pair");
        let (_, proof) = Miter::of(&left, &right);
        let paper = Paper::of(&left, &right);
        assert_eq!(proof.given_clauses(), paper.clauses.len());
        assert_eq!(proof.given_variables(), usize::from(paper.variables));
        for (id, clause) in paper.clauses.iter().enumerate() {
            let literals = clause.literals().iter().map(|l| usize::from(l.number()));
            let given = proof.clause(id).iter().map(|l| l.index());
            assert!(literals.eq(given), "clause {}", id + 1);
        }
    }
}
