//! Variables, literals and gates of a proof.

use std::ops::{BitXor, Not};

/// A variable: its number. A search may make more of them than a proof may keep.
pub type Var = usize;

/// A variable or its complement: 2 × variable, + 1 if complemented, as on the wire.
#[derive(Clone, Copy, Debug, PartialEq, Eq, PartialOrd, Ord, Hash)]
pub struct Lit(u32);

impl Lit {
    /// Net 0.
    pub const FALSE: Self = Self(0);
    /// The complement of net 0.
    pub const TRUE: Self = Self(1);

    /// The variable uncomplemented.
    pub fn of(variable: Var) -> Self {
        Self(2 * variable as u32)
    }

    /// The variable that it is over.
    pub fn var(self) -> Var {
        self.0 as usize / 2
    }

    /// Whether it is the complement of its variable.
    pub fn is_complemented(self) -> bool {
        self.0 % 2 == 1
    }

    /// A place of its own in a table of literals.
    pub fn index(self) -> usize {
        self.0 as usize
    }
}

impl Not for Lit {
    type Output = Self;

    fn not(self) -> Self {
        Self(self.0 ^ 1)
    }
}

impl BitXor<bool> for Lit {
    type Output = Self;

    fn bitxor(self, turned: bool) -> Self {
        Self(self.0 ^ u32::from(turned))
    }
}

/// What a variable stands for.
#[derive(Clone, Copy, Debug, PartialEq, Eq, Hash)]
pub enum Gate {
    /// Nothing: the constant, an input, or a variable that joins differences in the miter.
    Leaf,
    /// The AND of two literals.
    And(Lit, Lit),
    /// The XOR of two literals.
    Xor(Lit, Lit),
}

impl Gate {
    /// What it reads.
    pub fn operands(self) -> Option<[Lit; 2]> {
        match self {
            Self::Leaf => None,
            Self::And(x, y) | Self::Xor(x, y) => Some([x, y]),
        }
    }

    /// The same operation over other operands.
    pub fn map(self, other: impl Fn(Lit) -> Lit) -> Self {
        match self {
            Self::Leaf => self,
            Self::And(x, y) => Self::And(other(x), other(y)),
            Self::Xor(x, y) => Self::Xor(other(x), other(y)),
        }
    }

    /// Operands in order and an XOR's signs taken off, so that gates that compute the same are
    /// equal; and whether that complements the gate.
    pub fn normal(self) -> (Self, bool) {
        match self {
            Self::Leaf => (self, false),
            Self::And(x, y) => (Self::And(x.min(y), x.max(y)), false),
            Self::Xor(x, y) => {
                let (p, q) = (Lit::of(x.var()), Lit::of(y.var()));
                let turned = x.is_complemented() != y.is_complemented();
                (Self::Xor(p.min(q), p.max(q)), turned)
            }
        }
    }

    /// The clauses of 'n is this gate', in the order of document 01.
    pub fn clauses(self, n: Var) -> Vec<Vec<Lit>> {
        let n = Lit::of(n);
        match self {
            Self::Leaf => vec![],
            Self::And(x, y) => vec![vec![!n, x], vec![!n, y], vec![n, !x, !y]],
            Self::Xor(x, y) => xor_clauses(n, x, y).map(Vec::from).into(),
        }
    }
}

/// The clauses of 'n is x XOR y', in the order of document 01.
pub fn xor_clauses(n: Lit, x: Lit, y: Lit) -> [[Lit; 3]; 4] {
    [[x, y, !n], [x, !y, n], [!x, y, n], [!x, !y, !n]]
}
