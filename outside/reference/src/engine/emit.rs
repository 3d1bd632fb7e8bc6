//! The lines of the engine's proof. Document 01 leaves them free; these are chosen so.
//!
//! A net with the core of an earlier net is linked to the first such net: for each of its literals l
//! there is a clause (¬l, r), where r, the representative, is the literal over the first net that
//! has the same form. It is (¬l) where l is false. There is none where l is true: no clause that is
//! used holds such a literal. A gate that is itself the first with its core keeps its clauses, with
//! representatives in place of the operands.
//!
//! So the clauses of each gate are first brought over representatives by the links of its operands.
//! Then they give the gate's own links, or are kept, or are those of an earlier gate, and the two
//! gates imply each other. Behind the gates each z is refuted, and then each w.

use std::slice::ChunksExactMut;

use super::fold::{Form, Forms};
use super::LINE_BYTES;
use crate::frame::{write_frame, Frame, Operation};
use crate::literal::Literal;
use crate::miter::{gates, outputs};
use crate::netlist::Netlist;

/// Writes the proof for two lists whose outputs have the same forms, and gives its lines.
pub(super) fn emit(left: &Netlist, right: &Netlist, forms: &Forms, lines: &mut [u8]) -> usize {
    let miter = miter_clauses(left, right);
    let mut defined = Defined::behind_inputs(left);
    let mut proof = Proof::behind(miter, forms, lines);
    for gate in gates(left, right) {
        let (n, first) = defined.next(clauses(gate.operation));
        match gate.operation {
            Operation::And => proof.link_and(n, gate.operands, first),
            Operation::Xor => proof.link_xor(Xor {
                n,
                operands: gate.operands,
                clauses: [first, first + 1, first + 2, first + 3],
            }),
        }
    }
    let mut refuted = Vec::new();
    for shown in outputs(left, right) {
        let (z, first) = defined.next(clauses(Operation::Xor));
        refuted.push((z, proof.refute_difference(shown, first)));
    }
    let joined = refuted
        .into_iter()
        .reduce(|(before, no_before), (z, no_z)| {
            let (w, first) = defined.next(JOIN_CLAUSES);
            // (¬w, before, z) is the third.
            let only_z = proof.cut(first + 2, no_before, before);
            (w, proof.cut(only_z, no_z, z))
        });
    let (some_difference, none) = joined.expect("a list has an output");
    proof.cut(miter, none, some_difference);
    usize::from(proof.last - miter)
}

/// How many clauses a gate has; a z is an XOR.
fn clauses(operation: Operation) -> u16 {
    match operation {
        Operation::And => 3,
        Operation::Xor => 4,
    }
}

/// How many a w has.
const JOIN_CLAUSES: u16 = 3;

/// How many clauses the miter has, which is also the number of its last.
fn miter_clauses(left: &Netlist, right: &Netlist) -> u16 {
    let of_gates: u16 = gates(left, right).map(|gate| clauses(gate.operation)).sum();
    let outputs = left.outputs().len() as u16;
    let of_outputs = clauses(Operation::Xor) * outputs + JOIN_CLAUSES * (outputs - 1);
    1 + of_gates + of_outputs + 1
}

/// The miter's gates, z and w in order: the next one's variable, and the number of its first clause.
struct Defined {
    variable: u16,
    first: u16,
}

impl Defined {
    /// Clause 1 is "not variable 0".
    fn behind_inputs(list: &Netlist) -> Self {
        Self {
            variable: 1 + list.inputs() as u16,
            first: 2,
        }
    }

    /// The next one, which has so many clauses.
    fn next(&mut self, clauses: u16) -> (Literal, u16) {
        let next = (Literal(2 * self.variable), self.first);
        self.variable += 1;
        self.first += clauses;
        next
    }
}

/// A proof up to some line. Clauses are known by their numbers.
struct Proof<'call> {
    forms: &'call Forms,
    unwritten: ChunksExactMut<'call, u8>,
    /// The number of the last clause.
    last: u16,
    /// By literal: its link, 0 where it is its own representative or is true.
    links: Vec<u16>,
    /// By net: the clauses that a gate has kept, in the paper's order; an AND has three.
    kept: Vec<[u16; 4]>,
}

impl<'call> Proof<'call> {
    /// The proof without lines, behind a miter of so many clauses.
    fn behind(miter: u16, forms: &'call Forms, lines: &'call mut [u8]) -> Self {
        let mut links = vec![0; 2 * forms.nets()];
        // Net 0 is false by the first clause.
        links[0] = 1;
        Self {
            forms,
            unwritten: lines.chunks_exact_mut(LINE_BYTES),
            last: miter,
            links,
            kept: vec![[0; 4]; forms.nets()],
        }
    }

    /// Resolves a clause that holds the literal with one that holds its complement, and gives the
    /// number of the resolvent.
    fn cut(&mut self, holding: u16, opposing: u16, literal: Literal) -> u16 {
        let (first, second) = if literal.is_complemented() {
            (opposing, holding)
        } else {
            (holding, opposing)
        };
        let resolve = Frame::Resolve {
            first,
            second,
            variable: literal.variable(),
        };
        let line = self.unwritten.next().expect("the line bound suffices");
        write_frame(&resolve, line).expect("a resolve has 15 bytes");
        self.last += 1;
        self.last
    }

    /// The clause with the literal's representative in the literal's place; with neither, if it is
    /// false.
    fn replace(&mut self, clause: u16, literal: Literal) -> u16 {
        match self.links[usize::from(literal.number())] {
            0 => clause,
            link => self.cut(clause, link, literal),
        }
    }

    /// The same for two literals. Equal ones are one literal of the clause; and one that the first
    /// brings in is its own representative, and stays.
    fn replace_both(&mut self, clause: u16, [one, other]: [Literal; 2]) -> u16 {
        let replaced = self.replace(clause, one);
        if one == other {
            replaced
        } else {
            self.replace(replaced, other)
        }
    }

    fn set_link(&mut self, literal: Literal, clause: u16) {
        self.links[usize::from(literal.number())] = clause;
    }

    /// Links a literal by a clause that is its link once these others have their representatives;
    /// unless it is true.
    fn link(&mut self, literal: Literal, clause: u16, others: [Literal; 2]) {
        if self.forms.of_literal(literal) != Form::TRUE {
            let link = self.replace_both(clause, others);
            self.set_link(literal, link);
        }
    }

    /// Links n, the AND of two operands, or keeps its clauses: (¬n, x), (¬n, y), (n, ¬x, ¬y).
    fn link_and(&mut self, n: Literal, [x, y]: [Literal; 2], first: u16) {
        let mut sides = [(x, first), (y, first + 1)];
        sides.sort_by_key(|&(operand, _)| self.forms.of_literal(operand));
        let [(x, only_x), (y, only_y)] = sides;
        let from_both = first + 2;
        let [low, high] = [x, y].map(|operand| self.forms.of_literal(operand));
        if low == Form::FALSE {
            self.link(n, only_x, [x, x]);
        } else if low == Form::TRUE || low == high {
            self.link(n, only_y, [y, y]);
            self.link(!n, from_both, [!x, !y]);
        } else {
            let only_x = self.replace(only_x, x);
            let only_y = self.replace(only_y, y);
            if low == !high {
                let link = self.cut(only_x, only_y, self.forms.representative(x));
                self.set_link(n, link);
            } else {
                let from_both = self.replace_both(from_both, [!x, !y]);
                let over = [only_x, only_y, from_both, 0];
                self.keep_or_link(n, [x, y], over, Self::imply_and);
            }
        }
    }

    /// Links n, the XOR of two operands, or keeps its clauses.
    fn link_xor(&mut self, xor: Xor) {
        let Xor {
            n,
            operands: [x, y],
            clauses: [none, not_y, not_x, both],
        } = xor.normal(self.forms);
        let [low, high] = [x, y].map(|operand| self.forms.of_literal(operand));
        if low == Form::FALSE {
            self.link(n, none, [x, y]);
            self.link(!n, not_y, [x, !y]);
        } else if low == high {
            let link = self.cancel([none, both], [x, y]);
            self.set_link(n, link);
        } else {
            let over = [
                self.replace_both(none, [x, y]),
                self.replace_both(not_y, [x, !y]),
                self.replace_both(not_x, [!x, y]),
                self.replace_both(both, [!x, !y]),
            ];
            self.keep_or_link(n, [x, y], over, Self::imply_xor);
        }
    }

    /// The clause (¬n), from (x, y, ¬n) and (¬x, ¬y, ¬n), where x and y have one form that is
    /// neither false nor true.
    fn cancel(&mut self, [none, both]: [u16; 2], [x, y]: [Literal; 2]) -> u16 {
        let holding = self.replace_both(none, [x, y]);
        let opposing = self.replace_both(both, [!x, !y]);
        self.cut(holding, opposing, self.forms.representative(x))
    }

    /// The clause (¬z) of a z that is the XOR of two literals with the same form.
    fn refute_difference(&mut self, [x, y]: [Literal; 2], first: u16) -> u16 {
        let [none, both] = [first, first + 3];
        match self.forms.of_literal(x) {
            Form::FALSE => self.replace_both(none, [x, y]),
            Form::TRUE => self.replace_both(both, [!x, !y]),
            _ => self.cancel([none, both], [x, y]),
        }
    }

    /// Keeps the clauses of n over representatives, or links n to the earlier gate with its core,
    /// which has kept such clauses: the two imply each other.
    fn keep_or_link(
        &mut self,
        n: Literal,
        operands: [Literal; 2],
        over: [u16; 4],
        imply: Implication<'call>,
    ) {
        let earlier = self.forms.representative(n);
        if earlier == n {
            self.kept[n.net()] = over;
            return;
        }
        let kept = self.kept[earlier.net()];
        let representatives = operands.map(|operand| self.forms.representative(operand));
        let forth = imply(self, over, kept, representatives);
        self.set_link(n, forth);
        let back = imply(self, kept, over, representatives);
        self.set_link(!n, back);
    }

    /// The clause (¬n, m) of two ANDs n and m of p and q: from (¬n, p), (¬n, q) and (m, ¬p, ¬q).
    fn imply_and(&mut self, of_n: [u16; 4], of_m: [u16; 4], [p, q]: [Literal; 2]) -> u16 {
        let without_p = self.cut(of_n[0], of_m[2], p);
        self.cut(of_n[1], without_p, q)
    }

    /// The clause (¬n, m) of two XORs n and m of p and q: from (p, q, ¬n) and (p, ¬q, m), and from
    /// (¬p, q, m) and (¬p, ¬q, ¬n).
    fn imply_xor(&mut self, of_n: [u16; 4], of_m: [u16; 4], [p, q]: [Literal; 2]) -> u16 {
        let unless_p = self.cut(of_n[0], of_m[1], q);
        let if_p = self.cut(of_m[2], of_n[3], q);
        self.cut(unless_p, if_p, p)
    }
}

/// How the clauses of a gate n and of a gate m, both over the same two literals, give (¬n, m).
type Implication<'call> = fn(&mut Proof<'call>, [u16; 4], [u16; 4], [Literal; 2]) -> u16;

/// An XOR n of two operands x and y, with the numbers of the clauses (x, y, ¬n), (x, ¬y, n),
/// (¬x, y, n) and (¬x, ¬y, ¬n).
struct Xor {
    n: Literal,
    operands: [Literal; 2],
    clauses: [u16; 4],
}

impl Xor {
    /// The same XOR with the signs of its operands' forms taken off, and their cores rising.
    fn normal(self, forms: &Forms) -> Self {
        let both = self.plain_first(forms).exchanged();
        let both = both.plain_first(forms).exchanged();
        let [first, second] = both.operands.map(|operand| forms.of_literal(operand));
        if first <= second {
            both
        } else {
            both.exchanged()
        }
    }

    /// With a sign of the first operand's form taken off and put on n: ¬n is the XOR of ¬x and y.
    fn plain_first(self, forms: &Forms) -> Self {
        let [x, y] = self.operands;
        if !forms.of_literal(x).is_complemented() {
            return self;
        }
        let [none, not_y, not_x, both] = self.clauses;
        Self {
            n: !self.n,
            operands: [!x, y],
            clauses: [not_x, both, none, not_y],
        }
    }

    fn exchanged(self) -> Self {
        let [x, y] = self.operands;
        let [none, not_y, not_x, both] = self.clauses;
        Self {
            n: self.n,
            operands: [y, x],
            clauses: [none, not_x, not_y, both],
        }
    }
}
