//! The miter of two lists. Renders document 01, 'The miter's clauses': which variables there are,
//! and the clauses in the paper's order.
//!
//! They say that the inputs are shared and that some output differs; a refutation of them shows
//! that the lists agree.

use crate::clause::{definition, set, Clause};
use crate::frame::Operation;
use crate::literal::Literal;
use crate::netlist::{Gate, Netlist};

/// What a proof starts from.
#[derive(Clone, Debug, PartialEq, Eq)]
pub struct Miter {
    /// The clauses in order; clause 1 stands first.
    pub clauses: Vec<Clause>,
    /// How many variables are in use, which is also the next unused number.
    pub variables: u16,
}

impl Miter {
    /// The miter of two lists with as many inputs and outputs.
    pub fn of(left: &Netlist, right: &Netlist) -> Self {
        let false_net = Literal::default();
        let mut miter = Self {
            clauses: vec![set([!false_net])],
            variables: 1 + count(left.inputs()),
        };
        for gate in gates(left, right) {
            let n = miter.next_variable();
            let clauses = definition(n, gate.operation, gate.operands);
            miter.clauses.extend(clauses);
        }
        let differences = miter.define_differences(left, right);
        let some_difference = miter.define_joins(&differences);
        miter.clauses.push(set([some_difference]));
        miter
    }

    /// The next unused variable, from now on in use.
    fn next_variable(&mut self) -> Literal {
        let next = Literal::positive(self.variables);
        self.variables += 1;
        next.expect("a miter has at most 2,240 variables")
    }

    /// "z(k) is the XOR of left output k and right output k." Gives all z.
    fn define_differences(&mut self, left: &Netlist, right: &Netlist) -> Vec<Literal> {
        let define = |shown| {
            let z = self.next_variable();
            self.clauses.extend(definition(z, Operation::Xor, shown));
            z
        };
        outputs(left, right).map(define).collect()
    }

    /// "w(k) is w(k−1) OR z(k), where w(1) means z(1)." Gives the last w.
    fn define_joins(&mut self, differences: &[Literal]) -> Literal {
        let join = |before: Literal, z: Literal| {
            let w = self.next_variable();
            let clauses = [set([w, !before]), set([w, !z]), set([!w, before, z])];
            self.clauses.extend(clauses);
            w
        };
        let joined = differences.iter().copied().reduce(join);
        joined.expect("a list has an output")
    }
}

/// The gates of both lists over the miter's variables, in the order of these. "Variables: 0 to I
/// shared, left gates, right gates": a left net is its own variable.
pub fn gates<'lists>(
    left: &'lists Netlist,
    right: &'lists Netlist,
) -> impl Iterator<Item = Gate> + 'lists {
    let renumbered = move |gate: &Gate| Gate {
        operands: gate.operands.map(|literal| beside(left, literal)),
        ..*gate
    };
    let right = right.gates().iter().map(renumbered);
    left.gates().iter().copied().chain(right)
}

/// What the left list shows at each output and what the right one, over the miter's variables.
pub fn outputs<'lists>(
    left: &'lists Netlist,
    right: &'lists Netlist,
) -> impl Iterator<Item = [Literal; 2]> + 'lists {
    let pairs = left.outputs().iter().zip(right.outputs());
    pairs.map(|(&shown, &right)| [shown, beside(left, right)])
}

/// A right list's literal over the miter's variables: the constant and the inputs are shared, and
/// the right gates follow the left ones.
fn beside(left: &Netlist, right: Literal) -> Literal {
    if right.net() <= left.inputs() {
        right
    } else {
        Literal(right.number() + 2 * count(left.gates().len()))
    }
}

/// A count of a list that was read, which has far fewer than 16 bits.
fn count(of_list: usize) -> u16 {
    u16::try_from(of_list).expect("a list has at most 1,024 gates")
}

#[cfg(test)]
mod tests;
