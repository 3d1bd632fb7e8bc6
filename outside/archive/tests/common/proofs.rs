//! Proofs under construction: the clauses so far, as the reference makes them, and the steps. Only
//! valid steps are taken, so that a fault in a text is one that was put there.

use cec_reference::{definition, read_lists, Clause, Literal, Miter, Netlist, Operation};

use super::random::Random;

pub const RESOLVE: u8 = 0x11;
pub const EXTEND_BY_AND: u8 = 0x12;
pub const EXTEND_BY_XOR: u8 = 0x13;

/// How many random pairs of clauses are looked at for one that resolves.
const TRIES: usize = 24;

/// A proof line's kind and fields; an extension has two.
#[derive(Clone, Copy, Debug)]
pub struct Step {
    pub kind: u8,
    pub fields: [u16; 3],
}

impl Step {
    pub fn resolve(first: usize, second: usize, pivot: u16) -> Self {
        Self {
            kind: RESOLVE,
            fields: [number(first), number(second), pivot],
        }
    }

    pub fn extend(kind: u8, [x, y]: [u16; 2]) -> Self {
        Self {
            kind,
            fields: [x, y, 0],
        }
    }

    /// The line with its LF, written out here and not by either side.
    pub fn line(&self) -> Vec<u8> {
        let [a, b, c] = self.fields;
        let line = match self.kind {
            RESOLVE => format!("11{a:04X}{b:04X}{c:04X}\n"),
            kind => format!("{kind:02X}{a:04X}{b:04X}\n"),
        };
        line.into_bytes()
    }
}

/// A clause's number as it stands in a line.
fn number(clause: usize) -> u16 {
    u16::try_from(clause).expect("no proof has more than 65,535 clauses")
}

/// A pair of lists, and valid steps over its miter.
#[derive(Clone)]
pub struct Proof {
    pub left: Netlist,
    pub right: Netlist,
    /// The text of both lists.
    pub lists: Vec<u8>,
    /// How many clauses the miter has, and how many variables.
    pub miter: usize,
    pub miter_variables: u16,
    /// Clause k stands at k − 1.
    pub clauses: Vec<Clause>,
    /// How many variables are in use.
    pub variables: u16,
    /// The steps, each with the number of clauses before it.
    pub steps: Vec<(Step, usize)>,
    /// What its steps show that a checker could get wrong.
    pub shown: Vec<&'static str>,
}

impl Proof {
    /// The proof without steps. None if the lists are refused.
    pub fn of(lists: Vec<u8>) -> Option<Self> {
        let (left, right) = read_lists(&lists).ok()?;
        let Miter { clauses, variables } = Miter::of(&left, &right);
        Some(Self {
            left,
            right,
            lists,
            miter: clauses.len(),
            miter_variables: variables,
            clauses,
            variables,
            steps: Vec::new(),
            shown: Vec::new(),
        })
    }

    pub fn clause(&self, number: usize) -> &Clause {
        &self.clauses[number - 1]
    }

    /// Whether "the last step is a resolve whose clause is empty".
    pub fn is_refutation(&self) -> bool {
        !self.steps.is_empty() && self.clauses.last().is_some_and(Clause::is_empty)
    }

    /// The proof's lines.
    pub fn lines(&self) -> Vec<Vec<u8>> {
        let steps = self.steps.iter();
        steps.map(|(step, _)| step.line()).collect()
    }

    /// The text: both lists, then these lines.
    pub fn text(&self, lines: &[Vec<u8>]) -> Vec<u8> {
        [self.lists.as_slice(), &lines.concat()].concat()
    }

    /// The proof without its last steps, so that so many are left.
    pub fn first_steps(&self, count: usize) -> Self {
        let mut proof = Self::of(self.lists.clone()).expect("the lists were read");
        for &(step, _) in &self.steps[..count] {
            proof.take(step).expect("the step was taken before");
        }
        proof
    }

    /// Takes a step and gives the number of its last clause. None if the step is not valid.
    pub fn take(&mut self, step: Step) -> Option<usize> {
        let before = self.clauses.len();
        let [a, b, pivot] = step.fields;
        match step.kind {
            RESOLVE => {
                let resolvent = self.resolvent(step)?;
                self.note_resolve([a, b], pivot, &resolvent);
                self.clauses.push(resolvent);
            }
            kind => {
                let definition = self.definition(kind, [a, b])?;
                self.note_extend([a, b]);
                self.clauses.extend(definition);
                self.variables += 1;
            }
        }
        self.steps.push((step, before));
        Some(self.clauses.len())
    }

    /// The resolvent of two clauses that are there, on a variable that they hold. None if it is too
    /// long.
    fn resolvent(&self, step: Step) -> Option<Clause> {
        let [first, second, pivot] = step.fields;
        let [first, second] = [first, second].map(|number| self.clause(number.into()));
        let pivot = Literal::positive(pivot)?;
        assert!(first.holds(pivot) && second.holds(!pivot));
        first.resolvent(second, pivot)
    }

    /// The clauses of the next variable. None if that is past the last variable.
    fn definition(&self, kind: u8, operands: [u16; 2]) -> Option<Vec<Clause>> {
        let operation = match kind {
            EXTEND_BY_AND => Operation::And,
            _ => Operation::Xor,
        };
        let operands = operands.map(literal);
        assert!(operands.iter().all(|x| x.variable() < self.variables));
        let t = Literal::positive(self.variables)?;
        Some(definition(t, operation, operands))
    }

    fn note_resolve(&mut self, numbers: [u16; 2], pivot: u16, resolvent: &Clause) {
        let others = numbers.map(|number| self.clause(number.into()).literals().len() - 1);
        let literals = resolvent.literals();
        self.note("one clause as both operands", numbers[0] == numbers[1]);
        let in_both_signs = literals.iter().any(|&held| resolvent.holds(!held));
        self.note("a tautology", in_both_signs);
        let pivot_left = literals.iter().any(|held| held.variable() == pivot);
        self.note("the pivot left in a sign", pivot_left);
        let most = Clause::MOST_LITERALS;
        self.note("eight literals", literals.len() == most);
        let before = others.iter().sum::<usize>();
        self.note("at most eight once equal ones are joined", before > most);
        self.note_step();
        self.note("an empty clause", literals.is_empty());
    }

    fn note_extend(&mut self, operands: [u16; 2]) {
        let [x, y] = operands.map(|operand| operand / 2);
        self.note("an extension over one variable twice", x == y);
        let over_extension = x.max(y) >= self.miter_variables;
        self.note("an extension over an extension", over_extension);
        self.note_step();
    }

    fn note_step(&mut self) {
        let refuted = self.shown.contains(&"an empty clause");
        self.note("a step behind the empty clause", refuted);
    }

    fn note(&mut self, name: &'static str, seen: bool) {
        if seen && !self.shown.contains(&name) {
            self.shown.push(name);
        }
    }

    /// How many variables are in use before the step at this place.
    pub fn variables_before(&self, place: usize) -> u16 {
        let steps = self.steps[..place].iter();
        let extensions = steps.filter(|(step, _)| step.kind != RESOLVE);
        self.miter_variables + number(extensions.count())
    }

    /// How many clauses there are before the step at this place.
    pub fn clauses_before(&self, place: usize) -> usize {
        let at = self.steps.get(place);
        at.map_or(self.clauses.len(), |&(_, clauses)| clauses)
    }

    /// Takes a random step, mostly a resolve: if no pair is found, or its resolvent is too long, an
    /// extension.
    pub fn take_random(&mut self, random: &mut Random) {
        if !random.one_in(5) {
            let pair = self.random_pair(random, self.clauses.len());
            if pair.and_then(|step| self.take(step)).is_some() {
                return;
            }
        }
        self.extend_random(random);
    }

    /// Takes the resolve with the longest resolvent out of a few, or an extension, so that long
    /// clauses are soon there.
    pub fn take_long(&mut self, random: &mut Random) {
        let pairs = (0..TRIES).filter_map(|_| self.random_pair(random, self.clauses.len()));
        let lengths = pairs.filter_map(|step| Some((self.resolvent(step)?.literals().len(), step)));
        let longest = lengths.max_by_key(|&(length, _)| length);
        match longest {
            Some((_, step)) if !random.one_in(4) => self.take(step),
            _ => self.extend_random(random),
        };
    }

    fn extend_random(&mut self, random: &mut Random) -> Option<usize> {
        let kind = random.pick(&[EXTEND_BY_AND, EXTEND_BY_XOR]);
        let operands = [(); 2].map(|()| self.random_operand(random));
        self.take(Step::extend(kind, operands))
    }

    /// A literal over a variable in use, often one of the last.
    fn random_operand(&self, random: &mut Random) -> u16 {
        let any = random.below(self.variables.into());
        let last = usize::from(self.variables) - 1;
        number(2 * random.pick(&[last, any, any]) + random.below(2))
    }

    /// A resolve over the first clauses, so many, whose resolvent may be too long. None if a few
    /// tries find no two clauses that hold a variable in both signs.
    pub fn random_pair(&self, random: &mut Random, clauses: usize) -> Option<Step> {
        let recent = clauses - clauses.min(6);
        let any = |random: &mut Random| {
            let oldest = random.pick(&[0, 0, recent]);
            1 + oldest + random.below(clauses - oldest)
        };
        for _ in 0..TRIES {
            let first = any(random);
            let other = any(random);
            let second = random.pick(&[first, other, other, other]);
            if let Some(pivot) = self.random_pivot(random, first, second) {
                return Some(Step::resolve(first, second, pivot.variable()));
            }
        }
        None
    }

    /// A variable that the first clause holds, and the second complemented.
    fn random_pivot(&self, random: &mut Random, first: usize, second: usize) -> Option<Literal> {
        let [first, second] = [first, second].map(|number| self.clause(number));
        let literals = first.literals();
        let (before, from) = literals.split_at(random.below(literals.len() + 1));
        let mut pivots = from.iter().chain(before).copied();
        pivots.find(|&held| !held.is_complemented() && second.holds(!held))
    }

    /// A resolve over the first clauses, so many, whose resolvent is too long, if a few tries find
    /// one.
    pub fn random_overlong(&self, random: &mut Random, clauses: usize) -> Option<Step> {
        let mut pairs = (0..TRIES).filter_map(|_| self.random_pair(random, clauses));
        pairs.find(|&step| self.resolvent(step).is_none())
    }
}

/// The literal with this number, which is over some variable.
pub fn literal(number: u16) -> Literal {
    let literal = Literal::positive(number / 2).expect("there are not so many variables");
    if number % 2 == 1 {
        !literal
    } else {
        literal
    }
}
