//! Literals, over the nets of a list and over the variables of a proof alike. Renders document 01,
//! "A literal is 2 × net + 1 if complemented, + 0 if not" and, of variables, "Literals are formed as
//! for nets."

use std::ops::Not;

/// A net or a variable, or its complement. `!` gives the complement.
#[derive(Clone, Copy, Debug, Default, PartialEq, Eq, PartialOrd, Ord)]
pub struct Literal(pub(crate) u16);

impl Literal {
    /// "Variables go up to 16,383."
    pub const LAST_VARIABLE: u16 = 16_383;

    /// The variable uncomplemented. None past the last variable: twice such a number may not even
    /// have 16 bits.
    pub fn positive(variable: u16) -> Option<Self> {
        (variable <= Self::LAST_VARIABLE).then(|| Self(2 * variable))
    }

    /// The literal as it stands on the wire.
    pub fn number(self) -> u16 {
        self.0
    }

    /// The variable that it is over.
    pub fn variable(self) -> u16 {
        self.0 / 2
    }

    /// The net that it reads.
    pub fn net(self) -> usize {
        self.variable().into()
    }

    /// The complement, or the literal itself.
    pub(crate) fn complemented_if(self, turned: bool) -> Self {
        Self(self.0 ^ u16::from(turned))
    }

    /// Whether it shows the complement of its net or variable.
    pub fn is_complemented(self) -> bool {
        self.0 % 2 == 1
    }
}

impl Not for Literal {
    type Output = Self;

    fn not(self) -> Self {
        self.complemented_if(true)
    }
}

#[cfg(test)]
mod tests {
    use super::*;

    #[test]
    fn a_literal_is_twice_its_net_and_its_sign() {
        let parts = |number: u16| {
            let literal = Literal(number);
            (
                literal.net(),
                literal.is_complemented(),
                (!literal).number(),
            )
        };
        assert_eq!(parts(0), (0, false, 1));
        assert_eq!(parts(1), (0, true, 0));
        assert_eq!(parts(2), (1, false, 3));
        assert_eq!(parts(0xFFFF), (0x7FFF, true, 0xFFFE));
    }

    #[test]
    fn variables_go_up_to_16383() {
        assert_eq!(Literal::positive(0), Some(Literal(0)));
        assert_eq!(Literal::positive(16_383), Some(Literal(32_766)));
        for variable in [16_384, 32_767, 32_768, 32_769, 65_535] {
            assert_eq!(Literal::positive(variable), None);
        }
    }
}
