//! Folded forms. Renders document 01, 'Folded form and the engine': "A form is a sign and a core."
//!
//! Cores that are built alike have one number: the table keeps each pair under its parts, which
//! have numbers already. So two forms are the same if and only if their numbers are.

use std::collections::HashMap;
use std::ops::Not;

use crate::frame::Operation;
use crate::literal::Literal;
use crate::miter::gates;
use crate::netlist::{Gate, Netlist};

/// A core's number, doubled, and 1 more if the sign is there. False is core 0 and input k core k.
#[derive(Clone, Copy, Debug, PartialEq, Eq, PartialOrd, Ord, Hash)]
pub(super) struct Form(u16);

impl Form {
    pub(super) const FALSE: Self = Self(0);

    /// "True is false complemented."
    pub(super) const TRUE: Self = Self(1);

    fn of_core(core: usize) -> Self {
        let core = u16::try_from(core).expect("there are fewer cores than nets");
        Self(2 * core)
    }

    fn core(self) -> usize {
        usize::from(self.0 / 2)
    }

    pub(super) fn is_complemented(self) -> bool {
        self.0 % 2 == 1
    }

    /// The form with its sign taken off.
    fn plain(self) -> Self {
        self.complemented_if(self.is_complemented())
    }

    fn complemented_if(self, turned: bool) -> Self {
        Self(self.0 ^ u16::from(turned))
    }
}

impl Not for Form {
    type Output = Self;

    /// "complementing turns the sign".
    fn not(self) -> Self {
        self.complemented_if(true)
    }
}

/// "AND of two forms; XOR of two different cores, neither false. Pairs are unordered", and rise
/// here. The cores of an XOR stand as forms without sign.
type Pair = (Operation, [Form; 2]);

/// The forms of the miter's nets: the constant, the inputs, the gates of both lists.
pub(super) struct Forms {
    /// By net.
    nets: Vec<Form>,
    /// By core: the literal over the first net with this core that has the core without sign.
    holders: Vec<Literal>,
    pairs: HashMap<Pair, Form>,
}

impl Forms {
    /// "Net 0 has the form false, input k the form input k in both lists, a gate the fold below of
    /// its operands' forms".
    pub(super) fn of(left: &Netlist, right: &Netlist) -> Self {
        let shared = 0..=left.inputs();
        let nets = shared.map(Form::of_core).collect::<Vec<Form>>();
        let holders = nets.iter().map(|form| Literal(form.0)).collect();
        let gate_count = left.gates().len() + right.gates().len();
        let mut forms = Self {
            nets,
            holders,
            pairs: HashMap::with_capacity(gate_count),
        };
        for gate in gates(left, right) {
            forms.add(&gate);
        }
        forms
    }

    /// How many nets there are.
    pub(super) fn nets(&self) -> usize {
        self.nets.len()
    }

    pub(super) fn of_literal(&self, literal: Literal) -> Form {
        self.nets[literal.net()].complemented_if(literal.is_complemented())
    }

    /// The literal of this form over the first net with its core.
    pub(super) fn representative(&self, literal: Literal) -> Literal {
        let form = self.of_literal(literal);
        self.holders[form.core()].complemented_if(form.is_complemented())
    }

    /// Folds the next gate.
    fn add(&mut self, gate: &Gate) {
        let operands = gate.operands.map(|operand| self.of_literal(operand));
        let form = match gate.operation {
            Operation::And => self.and(operands),
            Operation::Xor => self.xor(operands),
        };
        if form.core() == self.holders.len() {
            let own = Form::of_core(self.nets.len());
            let holder = Literal(own.0).complemented_if(form.is_complemented());
            self.holders.push(holder);
        }
        self.nets.push(form);
    }

    /// "either form false gives false; either true gives the other; equal forms give that form;
    /// opposite forms give false; else a new core." False and true come first of all.
    fn and(&mut self, operands: [Form; 2]) -> Form {
        match rising(operands) {
            [Form::FALSE, _] => Form::FALSE,
            [Form::TRUE, other] => other,
            [low, high] if low == high => low,
            [low, high] if low == !high => Form::FALSE,
            pair => self.core((Operation::And, pair)),
        }
    }

    /// "signs are taken off first and combined; a false core gives the other; equal cores give
    /// false; else a new core; the combined sign goes on the result."
    fn xor(&mut self, operands: [Form; 2]) -> Form {
        let [first, second] = operands.map(Form::is_complemented);
        let plain = match rising(operands.map(Form::plain)) {
            [Form::FALSE, other] => other,
            [low, high] if low == high => Form::FALSE,
            pair => self.core((Operation::Xor, pair)),
        };
        plain.complemented_if(first != second)
    }

    /// The core of this pair, which is new if none is built alike.
    fn core(&mut self, pair: Pair) -> Form {
        let new = Form::of_core(self.holders.len());
        *self.pairs.entry(pair).or_insert(new)
    }
}

fn rising([one, other]: [Form; 2]) -> [Form; 2] {
    [one.min(other), one.max(other)]
}
