//! Trimming and renumbering: from the derivations that the last clause rests on to the lines of
//! document 01.

use std::collections::HashMap;

use crate::gate::{Gate, Lit, Var};
use crate::proof::{Id, Origin, Proof, Step};

/// A finished proof.
#[derive(Clone, Debug)]
pub struct Lines {
    /// The lines, each with its LF.
    pub text: String,
    /// How many they are.
    pub count: usize,
    /// The clauses that a store has to hold, the miter's included.
    pub clauses: usize,
    /// The variables, the miter's included.
    pub variables: usize,
}

/// A line to be. Clauses are handles: those of the miter are their ids, and each line's first
/// clause is the next one that is free.
enum Line {
    Extend {
        n: Var,
        first: usize,
    },
    Resolve {
        clauses: [usize; 2],
        pivot: Var,
        first: usize,
    },
}

/// The proof that ends in clause `last`: nothing in it but what `last` rests on.
pub fn trim(proof: &Proof, last: Id) -> Lines {
    let mut draft = Draft {
        proof,
        lines: vec![],
        handles: proof.given_clauses(),
        stored: HashMap::new(),
    };
    let end = draft.draw_up(last);
    let kept = draft.keep(end);
    draft.write(&kept)
}

struct Draft<'p> {
    proof: &'p Proof,
    lines: Vec<Line>,
    handles: usize,
    /// Clauses that a line stores: another line need not store them again.
    stored: HashMap<Vec<Lit>, usize>,
}

impl Draft<'_> {
    /// Lines for all that `last` rests on, in the order in which it was found; the handle of `last`.
    fn draw_up(&mut self, last: Id) -> usize {
        let proof = self.proof;
        let (clauses, variables) = needed(proof, last);
        let mut handle: Vec<usize> = (0..=last).collect();
        for id in proof.given_clauses()..=last {
            match proof.origin(id) {
                Origin::Defines(n) if variables[*n] && proof.definition(*n).start == id => {
                    let first = self.handles;
                    self.lines.push(Line::Extend { n: *n, first });
                    for id in proof.definition(*n).filter(|&id| id <= last) {
                        handle[id] = first + id - proof.definition(*n).start;
                    }
                    self.handles += proof.definition(*n).len();
                }
                Origin::Chain(start, steps) if clauses[id] => {
                    handle[id] = self.resolves(*start, steps, &handle);
                }
                _ => {}
            }
        }
        handle[last]
    }

    /// A line a step, but for clauses that are stored already.
    fn resolves(&mut self, start: Id, steps: &[Step], handle: &[usize]) -> usize {
        let mut running = self.proof.clause(start).to_vec();
        let mut at = handle[start];
        for &(other, on) in steps {
            self.proof.resolve(&mut running, other, on);
            running.sort_unstable();
            at = match self.stored.get(&running) {
                Some(&stored) => stored,
                None => {
                    let (first, pivot) = (self.handles, on.var());
                    let mut clauses = [at, handle[other]];
                    if on.is_complemented() {
                        clauses.reverse();
                    }
                    self.lines.push(Line::Resolve {
                        clauses,
                        pivot,
                        first,
                    });
                    self.handles += 1;
                    self.stored.insert(running.clone(), first);
                    first
                }
            };
        }
        at
    }

    /// Which lines a clause rests on: fewer than were drawn up, where one was stored already.
    fn keep(&self, end: usize) -> Vec<bool> {
        let mut kept = vec![false; self.lines.len()];
        let mut needed = vec![false; self.handles];
        let mut variables = vec![false; self.proof.gates().len()];
        needed[end] = true;
        for (place, line) in self.lines.iter().enumerate().rev() {
            match *line {
                Line::Resolve { clauses, first, .. } if needed[first] => {
                    kept[place] = true;
                    clauses.iter().for_each(|&clause| needed[clause] = true);
                }
                Line::Extend { n, first } => {
                    let all = first..first + self.proof.definition(n).len();
                    if variables[n] || needed[all].contains(&true) {
                        kept[place] = true;
                        let operands = self.proof.gate(n).operands();
                        operands
                            .iter()
                            .flatten()
                            .for_each(|l| variables[l.var()] = true);
                    }
                }
                Line::Resolve { .. } => {}
            }
        }
        kept
    }

    /// The lines that are kept, their clauses and variables numbered without gaps.
    fn write(&self, kept: &[bool]) -> Lines {
        let mut number: Vec<usize> = (1..=self.handles).collect();
        let mut variable: Vec<Var> = (0..self.proof.gates().len()).collect();
        let mut lines = Lines {
            text: String::new(),
            count: 0,
            clauses: self.proof.given_clauses(),
            variables: self.proof.given_variables(),
        };
        for (line, _) in self.lines.iter().zip(kept).filter(|(_, &kept)| kept) {
            let (first, stored) = match *line {
                Line::Resolve {
                    clauses: [a, b],
                    pivot,
                    first,
                } => {
                    let (a, b, pivot) = (number[a], number[b], variable[pivot]);
                    lines
                        .text
                        .push_str(&format!("11{a:04X}{b:04X}{pivot:04X}\n"));
                    (first, 1)
                }
                Line::Extend { n, first } => {
                    lines
                        .text
                        .push_str(&extension(self.proof.gate(n), &variable));
                    variable[n] = lines.variables;
                    lines.variables += 1;
                    (first, self.proof.definition(n).len())
                }
            };
            for number in &mut number[first..first + stored] {
                lines.clauses += 1;
                *number = lines.clauses;
            }
            lines.count += 1;
        }
        lines
    }
}

/// The line of an extension with this gate.
fn extension(gate: Gate, variable: &[Var]) -> String {
    let on_wire = |l: Lit| 2 * variable[l.var()] + usize::from(l.is_complemented());
    let kind = if matches!(gate, Gate::And(..)) {
        12
    } else {
        13
    };
    let [x, y] = gate
        .operands()
        .expect("an extension has a gate")
        .map(on_wire);
    format!("{kind}{x:04X}{y:04X}\n")
}

/// What a clause rests on: which clauses, and which extension variables.
fn needed(proof: &Proof, last: Id) -> (Vec<bool>, Vec<bool>) {
    let mut clauses = vec![false; last + 1];
    let mut variables = vec![false; proof.gates().len()];
    clauses[last] = true;
    for id in (proof.given_clauses()..=last).rev() {
        match proof.origin(id) {
            Origin::Chain(start, steps) if clauses[id] => {
                clauses[*start] = true;
                steps.iter().for_each(|step| clauses[step.0] = true);
            }
            Origin::Defines(n) => variables[*n] |= clauses[id],
            _ => {}
        }
    }
    for n in (proof.given_variables()..variables.len()).rev() {
        if let (true, Some(operands)) = (variables[n], proof.gate(n).operands()) {
            operands.iter().for_each(|l| variables[l.var()] = true);
        }
    }
    (clauses, variables)
}

#[cfg(test)]
mod tests {
    use super::*;

    /// Clauses and variables that the last clause does not rest on leave no number behind.
    #[test]
    fn what_is_not_needed_is_left_out() {
        let mut proof = Proof::default();
        for _ in 0..3 {
            proof.give_variable(Gate::Leaf);
        }
        let [a, b] = [1, 2].map(Lit::of);
        let [both, not_a, not_b] = [vec![a, b], vec![!a], vec![!b]].map(|c| proof.give(&c));
        proof.end_miter();
        proof.extend(Gate::Xor(a, b));
        let joined = proof.extend(Gate::And(!a, !b));
        let unused = proof.chain(both, &[(not_a, a)]);
        let definition: Vec<Id> = proof.definition(joined.var()).collect();
        // (joined, a, b) with (not a) is not needed either.
        let forced = proof.chain(definition[2], &[(not_a, a)]);
        assert!(unused.is_some() && forced.is_some());
        let last = proof.chain(both, &[(not_a, a), (not_b, b)]);
        let lines = trim(&proof, last.expect("narrow"));
        assert_eq!(lines.text, "11000100020001\n11000400030002\n");
        assert_eq!((lines.count, lines.clauses, lines.variables), (2, 5, 3));
    }
}
