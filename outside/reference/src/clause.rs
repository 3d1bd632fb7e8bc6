//! Clauses. Renders document 01: "Clauses are sets of literals"; what it says of resolving in
//! 'Steps'; and the clauses that make a variable the AND or XOR of two literals, of 'The miter's
//! clauses'.
//!
//! A clause is its literals rising, so that equal clauses are equal values, and it is written to
//! the store as it stands. None is longer than eight, and it is kept by value.

use crate::frame::Operation;
use crate::literal::Literal;

/// A set of at most eight literals. It may hold a variable in both signs.
#[derive(Clone, Copy, Debug, Default, PartialEq, Eq)]
pub struct Clause {
    /// Rising up to the length, the first literal of all behind.
    literals: [Literal; Self::MOST_LITERALS],
    length: usize,
}

impl Clause {
    /// "The result has at most 8 literals."
    pub const MOST_LITERALS: usize = 8;

    /// The set of these literals. None if it has more than eight.
    pub fn of(mut literals: impl AsMut<[Literal]>) -> Option<Self> {
        let literals = literals.as_mut();
        literals.sort_unstable();
        let mut clause = Self::default();
        for &literal in &*literals {
            if clause.literals().last() != Some(&literal) {
                clause.push(literal)?;
            }
        }
        Some(clause)
    }

    /// Joins a literal above all others. None if it would be the ninth.
    fn push(&mut self, highest: Literal) -> Option<()> {
        *self.literals.get_mut(self.length)? = highest;
        self.length += 1;
        Some(())
    }

    /// The literals, rising.
    pub fn literals(&self) -> &[Literal] {
        &self.literals[..self.length]
    }

    /// Whether the literal is in the set.
    pub fn holds(&self, literal: Literal) -> bool {
        self.literals().contains(&literal)
    }

    /// Whether it holds no literal: nothing makes it true.
    pub fn is_empty(&self) -> bool {
        self.length == 0
    }

    /// "The result is the first without v, joined with the second without ¬v." Each clause loses
    /// one sign only. None, which is refusal 11, if more than eight literals are left.
    pub fn resolvent(&self, second: &Self, pivot: Literal) -> Option<Self> {
        let mut first = self.without(pivot).peekable();
        let mut second = second.without(!pivot).peekable();
        let mut resolvent = Self::default();
        while let Some(lowest) = lower(first.peek(), second.peek()) {
            first.next_if_eq(&lowest);
            second.next_if_eq(&lowest);
            resolvent.push(lowest)?;
        }
        Some(resolvent)
    }

    /// The literals but for one, rising.
    fn without(&self, literal: Literal) -> impl Iterator<Item = Literal> + '_ {
        let literals = self.literals().iter().copied();
        literals.filter(move |&held| held != literal)
    }

    /// As the store keeps it: "each literal plus one, rising, then zeros".
    pub fn numbers(&self) -> [u16; Self::MOST_LITERALS] {
        let mut numbers = [0; Self::MOST_LITERALS];
        for (number, literal) in numbers.iter_mut().zip(self.literals()) {
            *number = literal.number() + 1;
        }
        numbers
    }
}

/// The lower of two literals, or the only one.
fn lower(one: Option<&Literal>, other: Option<&Literal>) -> Option<Literal> {
    one.into_iter().chain(other).min().copied()
}

/// The clauses for "n = AND of x, y" or "n = XOR", in the paper's order.
pub fn definition(n: Literal, operation: Operation, [x, y]: [Literal; 2]) -> Vec<Clause> {
    match operation {
        Operation::And => vec![set([!n, x]), set([!n, y]), set([n, !x, !y])],
        Operation::Xor => vec![
            set([x, y, !n]),
            set([x, !y, n]),
            set([!x, y, n]),
            set([!x, !y, !n]),
        ],
    }
}

/// The set of a few literals.
pub(crate) fn set<const COUNT: usize>(literals: [Literal; COUNT]) -> Clause {
    const { assert!(COUNT <= Clause::MOST_LITERALS) };
    Clause::of(literals).expect("so few literals are a clause")
}

#[cfg(test)]
mod tests;
