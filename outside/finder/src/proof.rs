//! The clauses known so far, each with its derivation.
//!
//! A search makes far more clauses than the last one rests on, so nothing here is in the proof's own
//! numbering yet: `trim` makes the lines.

use std::collections::{HashMap, HashSet};
use std::ops::Range;

use cec_reference::Clause;

use crate::gate::{Gate, Lit, Var};

/// A clause: its place among those known.
pub type Id = usize;

/// A resolve of a running clause: with which clause, and on which literal of the running clause.
pub type Step = (Id, Lit);

/// The most literals that a stored clause may have.
pub const WIDTH: usize = Clause::MOST_LITERALS;

/// Where a clause comes from.
pub enum Origin {
    /// The miter.
    Given,
    /// The definition of an extension variable.
    Defines(Var),
    /// Resolves one after the other, from a first clause on.
    Chain(Id, Box<[Step]>),
}

/// Clauses, variables, and how each came about.
#[derive(Default)]
pub struct Proof {
    clauses: Vec<Box<[Lit]>>,
    origins: Vec<Origin>,
    gates: Vec<Gate>,
    /// Of each variable, the first clause of its definition.
    first: Vec<Id>,
    known: HashMap<Box<[Lit]>, Id>,
    hashed: HashMap<Gate, Lit>,
    given_variables: usize,
    given_clauses: usize,
    /// Whether something that stays in the proof rests on the clause.
    settled: Vec<bool>,
    /// Clauses that new derivations may not rest on.
    hidden: Range<Id>,
}

impl Proof {
    /// Adds a clause of the miter.
    pub fn give(&mut self, clause: &[Lit]) -> Id {
        self.enter(clause.to_vec(), Origin::Given)
    }

    /// Adds a variable of the miter, with the clauses of its gate.
    pub fn give_variable(&mut self, gate: Gate) -> Var {
        let n = self.next_variable(gate);
        for clause in gate.clauses(n) {
            self.give(&clause);
        }
        n
    }

    /// All that was added up to now is the miter.
    pub fn end_miter(&mut self) {
        self.given_clauses = self.clauses.len();
        self.given_variables = self.gates.len();
    }

    fn next_variable(&mut self, gate: Gate) -> Var {
        self.gates.push(gate);
        self.first.push(self.clauses.len());
        self.gates.len() - 1
    }

    fn enter(&mut self, mut clause: Vec<Lit>, origin: Origin) -> Id {
        clause.sort_unstable();
        clause.dedup();
        let id = self.clauses.len();
        let clause = clause.into_boxed_slice();
        self.known.entry(clause.clone()).or_insert(id);
        self.clauses.push(clause);
        self.origins.push(origin);
        id
    }

    /// The literals of a clause, rising.
    pub fn clause(&self, id: Id) -> &[Lit] {
        &self.clauses[id]
    }

    /// How a clause came about.
    pub fn origin(&self, id: Id) -> &Origin {
        &self.origins[id]
    }

    /// Whether a clause holds a variable in both signs, so that it says nothing.
    pub fn is_tautology(&self, id: Id) -> bool {
        self.clause(id).windows(2).any(|pair| pair[0] == !pair[1])
    }

    /// The gate of a variable.
    pub fn gate(&self, n: Var) -> Gate {
        self.gates[n]
    }

    /// The gates of all variables.
    pub fn gates(&self) -> &[Gate] {
        &self.gates
    }

    /// How many clauses there are.
    pub fn clause_count(&self) -> usize {
        self.clauses.len()
    }

    /// How many clauses the miter has.
    pub fn given_clauses(&self) -> usize {
        self.given_clauses
    }

    /// How many variables the miter has.
    pub fn given_variables(&self) -> usize {
        self.given_variables
    }

    /// The clauses that define a variable.
    pub fn definition(&self, n: Var) -> Range<Id> {
        let count = match self.gates[n] {
            Gate::Leaf => 0,
            Gate::And(..) => 3,
            Gate::Xor(..) => 4,
        };
        self.first[n]..self.first[n] + count
    }

    /// The clause that the steps give from `start`, known or new. None if a clause on the way has
    /// more literals than may be stored.
    pub fn chain(&mut self, start: Id, steps: &[Step]) -> Option<Id> {
        if steps.is_empty() {
            return Some(start);
        }
        let mut running = self.clause(start).to_vec();
        for &(other, on) in steps {
            self.resolve(&mut running, other, on);
            if running.len() > WIDTH {
                return None;
            }
        }
        running.sort_unstable();
        if let Some(&id) = self.known.get(running.as_slice()) {
            if !self.hidden.contains(&id) {
                return Some(id);
            }
            self.known.remove(running.as_slice());
        }
        Some(self.enter(running, Origin::Chain(start, steps.into())))
    }

    /// Resolves a running clause, which holds `on`, with a clause that holds its complement.
    pub fn resolve(&self, running: &mut Vec<Lit>, other: Id, on: Lit) {
        let held = running.iter().position(|&l| l == on);
        running.swap_remove(held.expect("the running clause holds the literal"));
        debug_assert!(self.clause(other).contains(&!on));
        for &l in self.clause(other) {
            if l != !on && !running.contains(&l) {
                running.push(l);
            }
        }
    }

    /// The literal of a variable with this gate: a known one, or a new extension.
    pub fn extend(&mut self, gate: Gate) -> Lit {
        let (gate, turned) = gate.normal();
        if let Some(&l) = self.hashed.get(&gate) {
            return l ^ turned;
        }
        let n = self.next_variable(gate);
        for clause in gate.clauses(n) {
            self.enter(clause, Origin::Defines(n));
        }
        self.hashed.insert(gate, Lit::of(n));
        Lit::of(n) ^ turned
    }

    /// Lets extensions with the gate of n be n.
    pub fn offer(&mut self, n: Var) {
        let (gate, turned) = self.gates[n].normal();
        self.hashed.entry(gate).or_insert(Lit::of(n) ^ turned);
    }

    /// How many clauses and variables there are, for `forget`.
    pub fn mark(&self) -> (usize, usize) {
        (self.clauses.len(), self.gates.len())
    }

    /// Takes back all clauses and extensions since `mark`, on which nothing else may rest.
    pub fn forget(&mut self, (clauses, variables): (usize, usize)) {
        for id in clauses..self.clauses.len() {
            if self.known.get(&self.clauses[id]) == Some(&id) {
                self.known.remove(&self.clauses[id]);
            }
        }
        for gate in &self.gates[variables..] {
            self.hashed.remove(gate);
        }
        self.clauses.truncate(clauses);
        self.origins.truncate(clauses);
        self.settled.truncate(clauses);
        self.gates.truncate(variables);
        self.first.truncate(variables);
    }

    /// Lets new derivations not rest on the clauses from `first` on that are there now.
    pub fn hide_from(&mut self, first: Id) {
        self.hidden = first..self.clauses.len();
    }

    /// What the clauses add to the proof: a line for each step that does not stay anyway, and for
    /// each definition.
    pub fn cost(&self, ids: &[Id]) -> usize {
        let mut lines = 0;
        self.walk(ids, |id| match &self.origins[id] {
            Origin::Chain(_, steps) => lines += steps.len(),
            Origin::Defines(_) => lines += 1,
            Origin::Given => {}
        });
        lines
    }

    /// Those of `within` that the clauses rest on, and definitions of extensions.
    pub fn core(&self, ids: &[Id], within: &[Id]) -> Vec<Id> {
        let within: HashSet<Id> = within.iter().copied().collect();
        let (mut seen, mut open, mut core) = (HashSet::new(), ids.to_vec(), vec![]);
        while let Some(id) = open.pop() {
            if !seen.insert(id) {
                continue;
            }
            match &self.origins[id] {
                Origin::Chain(start, steps) if !within.contains(&id) => {
                    open.push(*start);
                    open.extend(steps.iter().map(|step| step.0));
                }
                Origin::Given if !within.contains(&id) => {}
                _ => core.push(id),
            }
        }
        core.sort_unstable();
        core
    }

    /// Notes that the clauses stay, and gives what they rest on that was not noted before.
    pub fn settle(&mut self, ids: &[Id]) -> Vec<Id> {
        let mut new = vec![];
        self.walk(ids, |id| new.push(id));
        self.settled.resize(self.clauses.len(), false);
        for &id in &new {
            self.settled[id] = true;
        }
        new
    }

    /// Visits what the clauses rest on, as far as it is not settled.
    fn walk(&self, ids: &[Id], mut visit: impl FnMut(Id)) {
        let (mut seen, mut open) = (HashSet::new(), ids.to_vec());
        while let Some(id) = open.pop() {
            if self.settled.get(id) == Some(&true) || !seen.insert(id) {
                continue;
            }
            visit(id);
            if let Origin::Chain(start, steps) = &self.origins[id] {
                open.push(*start);
                open.extend(steps.iter().map(|step| step.0));
            }
        }
    }
}
