//! The checker of proofs. Renders document 01, 'Steps', with the refusals 8 to 15; and the checking
//! programs' report, with 1.
//!
//! The text is read once from the top. Clauses are kept apart from the store, which is written
//! after acceptance alone, so that a refusal leaves nothing in it.

use crate::clause::{definition, Clause};
use crate::frame::{write_frame, Frame, Operation};
use crate::line::{Line, Lines};
use crate::literal::Literal;
use crate::miter::Miter;
use crate::netlist::read_both;
use crate::refusal::Refusal;

/// A store "holds as many clauses as there are whole eights, at most 65,535".
const MOST_CLAUSES: usize = 65_535;

/// The bytes of a report frame with its LF.
const REPORT_BYTES: usize = 19;

/// The reply to a proof that was accepted: it "counts proof lines and clauses".
#[derive(Clone, Copy, Debug, PartialEq, Eq)]
pub struct Checked {
    /// Number of proof lines.
    pub steps: usize,
    /// Number of clauses, the miter's included.
    pub clauses: usize,
}

/// Checks the proof of a text: left list, right list, then proof lines to the end. "After
/// acceptance [the store] holds every clause in order and zeros behind"; after a refusal all of it
/// is zero.
pub fn check(text: &[u8], store: &mut [u16]) -> Result<Checked, Refusal> {
    store.fill(0);
    let whole_eights = store.len() / Clause::MOST_LITERALS;
    let (steps, clauses) = replay(text, whole_eights.min(MOST_CLAUSES))?;
    let places = store.chunks_exact_mut(Clause::MOST_LITERALS);
    for (place, clause) in places.zip(&clauses) {
        place.copy_from_slice(&clause.numbers());
    }
    Ok(Checked {
        steps,
        clauses: clauses.len(),
    })
}

/// How much a checking program takes. Nothing else tells the programs apart.
#[derive(Clone, Copy, Debug, PartialEq, Eq)]
pub struct Limits {
    /// The bytes of its stream. A longer one is 1.
    pub bytes: usize,
    /// The clauses of its store, the miter's included. More are 8 or 14.
    pub clauses: usize,
}

impl Limits {
    /// The paper's program, `cec_check`: 1 is "over 65,536 bytes", and it "uses a store of 4,096
    /// clauses".
    pub const USUAL: Self = Self {
        bytes: 65_536,
        clauses: 4_096,
    };

    /// The program for longer proofs, `cec_check_large`. No store holds more clauses.
    pub const LARGE: Self = Self {
        bytes: 4_194_304,
        clauses: MOST_CLAUSES,
    };
}

/// What the paper's checking program prints for the bytes of its standard input: one report frame.
pub fn report(stream: &[u8]) -> Vec<u8> {
    report_within(stream, Limits::USUAL)
}

/// What the checking program with these limits prints: one report frame.
pub fn report_within(stream: &[u8], limits: Limits) -> Vec<u8> {
    let frame = match check_stream(stream, limits) {
        Ok(Checked { steps, clauses }) => Frame::Report {
            refusal: 0,
            line: 0,
            steps: field(steps),
            clauses: field(clauses),
        },
        Err(Refusal { number, line }) => Frame::Report {
            refusal: number,
            line,
            steps: 0,
            clauses: 0,
        },
    };
    let mut printed = vec![0; REPORT_BYTES];
    // A proof's line is read once those before it have found space for a clause each.
    write_frame(&frame, &mut printed).expect("far fewer lines are read than a report counts");
    printed
}

fn check_stream(stream: &[u8], limits: Limits) -> Result<Checked, Refusal> {
    if stream.len() > limits.bytes {
        return Err(Refusal::stream());
    }
    let mut store = vec![0; Clause::MOST_LITERALS * limits.clauses];
    check(stream, &mut store)
}

/// A count of the report: each step adds a clause, so both are at most the most clauses.
fn field(count: usize) -> u16 {
    u16::try_from(count).expect("no store holds more clauses")
}

/// Takes all steps, with space for so many clauses. Gives the number of steps and the clauses.
fn replay(text: &[u8], capacity: usize) -> Result<(usize, Vec<Clause>), Refusal> {
    let mut lines = Lines::of(text);
    let (left, right) = read_both(&mut lines)?;
    let mut proof = Proof::of(Miter::of(&left, &right), capacity)?;
    let mut steps = 0;
    // Whether "the last step is a resolve whose clause is empty".
    let mut refuted = false;
    for line in lines {
        refuted = proof.step(&line?)?;
        steps += 1;
    }
    if !refuted {
        return Err(Refusal::unproved());
    }
    Ok((steps, proof.clauses))
}

/// A proof up to some line.
struct Proof {
    /// Clause k stands at k − 1.
    clauses: Vec<Clause>,
    capacity: usize,
    /// "the next unused variable number"
    next_variable: u16,
}

impl Proof {
    /// Before the first line: 8 if the capacity is short of the miter's clauses.
    fn of(miter: Miter, capacity: usize) -> Result<Self, Refusal> {
        if miter.clauses.len() > capacity {
            return Err(Refusal::store());
        }
        Ok(Self {
            clauses: miter.clauses,
            capacity,
            next_variable: miter.variables,
        })
    }

    /// Takes the step of a line, and says whether it is a resolve whose clause is empty.
    fn step(&mut self, line: &Line) -> Result<bool, Refusal> {
        match Frame::of_line(line)? {
            Frame::Resolve {
                first,
                second,
                variable,
            } => self.resolve([first, second], variable, line.number),
            Frame::Extend {
                operation,
                operands,
            } => self
                .extend(operation, operands.map(Literal), line.number)
                .map(|()| false),
            _ => Err(Refusal::frame(line.number)),
        }
    }

    /// "Resolve on v: the first clause holds v, the second ¬v."
    fn resolve(&mut self, numbers: [u16; 2], v: u16, line: u64) -> Result<bool, Refusal> {
        let [first, second] = numbers.map(|number| self.clause(number));
        let (first, second) = first.zip(second).ok_or(Refusal::clause_number(line))?;
        let pivot = Literal::positive(v)
            .filter(|&pivot| first.holds(pivot) && second.holds(!pivot))
            .ok_or(Refusal::pivot(line))?;
        let resolvent = first.resolvent(second, pivot);
        let resolvent = resolvent.ok_or(Refusal::resolvent(line))?;
        self.add(&[resolvent], line)?;
        Ok(resolvent.is_empty())
    }

    /// "the next unused variable number t becomes AND or XOR of two literals over variables in
    /// use; its 3 or 4 clauses are added".
    fn extend(
        &mut self,
        operation: Operation,
        operands: [Literal; 2],
        line: u64,
    ) -> Result<(), Refusal> {
        let in_use = |operand: &Literal| operand.variable() < self.next_variable;
        if !operands.iter().all(in_use) {
            return Err(Refusal::operand(line));
        }
        let t = Literal::positive(self.next_variable).ok_or(Refusal::variables(line))?;
        self.add(&definition(t, operation, operands), line)?;
        self.next_variable += 1;
        Ok(())
    }

    /// The clause with this number, from 1 to the last.
    fn clause(&self, number: u16) -> Option<&Clause> {
        self.clauses.get(usize::from(number).checked_sub(1)?)
    }

    /// Adds all clauses of a step, or none and 14.
    fn add(&mut self, clauses: &[Clause], line: u64) -> Result<(), Refusal> {
        if self.capacity - self.clauses.len() < clauses.len() {
            return Err(Refusal::space(line));
        }
        self.clauses.extend_from_slice(clauses);
        Ok(())
    }
}

#[cfg(test)]
mod tests;
