//! Proofs that use up all variables.

use super::proofs::{Proof, Step, EXTEND_BY_AND, EXTEND_BY_XOR};
use super::random::Random;

/// The smallest miter: no inputs, no gates, false on both sides. Its variables are 0 and z, and its
/// clauses (¬0), (0, ¬z), (0, ¬0, z), (0, ¬0, z), (¬0, ¬z), (z).
const SMALLEST: &str = "0100000001\n040000\n0100000001\n040000\n";

/// How many extensions use up all variables of that miter.
pub const EXTENSIONS: usize = 16_382;

/// That miter with all variables in use, by this many ANDs and then XORs of random operands.
pub fn all_variables(random: &mut Random, ands: usize) -> Proof {
    let mut proof = Proof::of(SMALLEST.into()).expect("the lists are read");
    for extension in 0..EXTENSIONS {
        let kind = if extension < ands {
            EXTEND_BY_AND
        } else {
            EXTEND_BY_XOR
        };
        let operands = [(); 2].map(|()| random.below(2 * usize::from(proof.variables)) as u16);
        proof.take(Step::extend(kind, operands));
    }
    proof
}

/// Takes (0) from (z) and (0, ¬z), and from it and (¬0) the empty clause.
pub fn refute_smallest(proof: &mut Proof) {
    let zero = proof.take(Step::resolve(6, 2, 1)).expect("it is valid");
    proof.take(Step::resolve(zero, 1, 0)).expect("it is valid");
}
