//! The sweep: nets of both lists proved equal one after the other, from the inputs to the outputs.
//!
//! Nets come in the order of their depth, both lists together. A net that has the gate of another
//! over the same operands is equal to it at once, which is the folding of the engine; else it is
//! tried against the nets that it may be by simulation. A net that was proved equal is replaced in
//! all gates above it, so that what is proved higher up rests on little. At last each difference
//! of outputs is proved false, and the miter's claim is refuted.

use std::collections::HashMap;
use std::rc::Rc;
use std::time::Instant;

use cec_reference::Netlist;

use crate::adders::Cells;
use crate::candidates::Candidates;
use crate::equality::Attempt;
use crate::gate::{Gate, Lit, Var};
use crate::miter::Miter;
use crate::proof::{Id, Proof};
use crate::simulation::Simulation;
use crate::xors::XorOf;
use crate::Watch;

/// What a sweep gave.
pub enum Swept {
    /// The empty clause.
    Refuted(Id),
    /// A pattern on which the lists differ.
    Differs(u64),
    /// The first output, from 1, that is neither proved nor refuted.
    Open(usize),
    /// Nothing: the time is over.
    OutOfTime,
    /// Nothing: there are far more clauses or variables than a proof can have.
    TooLarge,
}

/// What is known of a net.
pub(crate) struct Net {
    /// The literal that stands for it.
    pub(crate) stands: Lit,
    /// The clauses (not it, that literal) and (it, not that literal), as far as they say something.
    pub(crate) equal: [Option<Id>; 2],
    /// Its gate's clauses over nets that stand for themselves, once the sweep has come to it.
    pub(crate) defined: Option<Vec<Id>>,
    pub(crate) depth: usize,
}

/// A sweep under way.
pub struct Sweep<'w> {
    /// All clauses so far.
    pub proof: Proof,
    /// Conflicts so far.
    pub conflicts: u64,
    pub(crate) miter: Miter,
    pub(crate) nets: Vec<Net>,
    pub(crate) simulation: Simulation,
    candidates: Candidates,
    pub(crate) xors: HashMap<Var, Option<XorOf>>,
    pub(crate) cells: Option<Rc<[Cells; 3]>>,
    /// Short clauses learned on the way to equalities, over nets that stand for themselves.
    pub(crate) learned: Vec<Id>,
    pub(crate) seed: u64,
    pub(crate) deadline: Option<Instant>,
    watch: Watch<'w>,
}

/// Conflicts for one equality in the whole cone. One given up makes all above it harder, so the
/// limit is high; for an output, on which all depends, it is higher.
const NET_CONFLICTS: u64 = 20_000;
const OUTPUT_CONFLICTS: u64 = 400_000;

/// Candidates tried for one net.
const MOST_OPEN: usize = 3;

/// Clauses and variables at which a sweep is given up: far more than a trimmed proof can have.
const MOST_CLAUSES: usize = 4_000_000;
const MOST_VARIABLES: usize = 65_536;

/// Literals of a learned clause that later searches use: 2 lines in a hundred fewer on layouts.
const LEARNED: usize = 4;

impl<'w> Sweep<'w> {
    /// The sweep of two lists. Seeds give other proofs.
    pub fn new(
        [left, right]: [&Netlist; 2],
        seed: u64,
        deadline: Option<Instant>,
        watch: Watch<'w>,
    ) -> Self {
        let (miter, proof) = Miter::of(left, right);
        let mut nets: Vec<Net> = vec![];
        for (v, gate) in proof.gates().iter().enumerate() {
            let below = gate
                .operands()
                .map(|both| both.map(|l| nets[l.var()].depth + 1));
            nets.push(Net {
                stands: Lit::of(v),
                equal: [None, None],
                defined: None,
                depth: below.map_or(0, |[x, y]| x.max(y)),
            });
        }
        Self {
            simulation: Simulation::new(miter.inputs, proof.gates()),
            proof,
            conflicts: 0,
            miter,
            nets,
            candidates: Candidates::default(),
            xors: HashMap::new(),
            cells: None,
            learned: vec![],
            seed,
            deadline,
            watch,
        }
    }

    /// Sweeps from the inputs to the outputs.
    pub fn run(&mut self) -> Swept {
        if let Some(pattern) = self.simulation.difference(&self.miter) {
            return Swept::Differs(pattern);
        }
        for v in 0..=self.miter.inputs {
            self.candidates.add(v, &self.simulation);
        }
        let order = self.order();
        let mut gates = HashMap::new();
        for (place, &v) in order.iter().enumerate() {
            (self.watch)(place, order.len());
            self.define(v);
            if !self.find_gate(v, &mut gates) {
                if let Some(pattern) = self.find_candidate(v, NET_CONFLICTS, |_| true) {
                    return Swept::Differs(pattern);
                }
            }
            if self.is_over() {
                return self.ended();
            }
            if self.stands_for_itself(v) {
                self.candidates.add(v, &self.simulation);
                self.offer(v);
            }
        }
        self.refute()
    }

    /// The gates that an output rests on, by depth.
    fn order(&self) -> Vec<Var> {
        let mut reached = vec![false; self.nets.len()];
        let mut order = vec![];
        for v in (0..self.nets.len()).rev() {
            let is_difference = self.miter.differences.contains(&v);
            if let (true, Some(operands)) =
                (reached[v] || is_difference, self.proof.gate(v).operands())
            {
                operands.iter().for_each(|l| reached[l.var()] = true);
                if !is_difference {
                    order.push(v);
                }
            }
        }
        order.sort_by_key(|&v| (self.nets[v].depth, v));
        order
    }

    /// Joins v with an earlier net that has its gate, if there is one.
    fn find_gate(&mut self, v: Var, gates: &mut HashMap<Gate, Lit>) -> bool {
        let gate = self.proof.gate(v).map(|l| self.standing(l));
        let (gate, turned) = gate.normal();
        match gates.get(&gate) {
            Some(&u) => self.join_gates(v, u ^ turned),
            None => {
                gates.insert(gate, Lit::of(v) ^ turned);
                false
            }
        }
    }

    /// Joins v with a net that it may be by simulation and that is admitted. A pattern that tells
    /// them apart is tried on all nets; if the lists differ on it, that is the answer.
    fn find_candidate(&mut self, v: Var, conflicts: u64, admitted: fn(Lit) -> bool) -> Option<u64> {
        let mut open = vec![];
        while open.len() < MOST_OPEN && !self.is_over() {
            let untried = |r: &Lit| admitted(*r) && !open.contains(&r.var());
            let r = self.candidates.of(v, &self.simulation).find(untried)?;
            match self.attempt(v, r, conflicts) {
                Attempt::Equal => {
                    self.settle(v, r);
                    return None;
                }
                Attempt::Open => open.push(r.var()),
                Attempt::Pattern(pattern) => {
                    self.simulation.add_near(self.proof.gates(), pattern);
                    if let Some(pattern) = self.simulation.difference(&self.miter) {
                        return Some(pattern);
                    }
                    self.candidates.split(&self.simulation);
                }
            }
        }
        None
    }

    /// From now on r stands for v. Short clauses that its equality rests on help later searches.
    pub(crate) fn settle(&mut self, v: Var, r: Lit) {
        self.nets[v].stands = r;
        let clauses: Vec<Id> = self.nets[v].equal.iter().flatten().copied().collect();
        for id in self.proof.settle(&clauses) {
            let clause = self.proof.clause(id);
            let stays = |l: &Lit| l.var() < self.nets.len() && self.standing(*l) == *l;
            if clause.len() <= LEARNED && clause.iter().all(stays) {
                self.learned.push(id);
            }
        }
    }

    fn stands_for_itself(&self, v: Var) -> bool {
        self.nets[v].stands == Lit::of(v)
    }

    /// Lets extensions use v where its gate is over nets that stand for themselves.
    fn offer(&mut self, v: Var) {
        let operands = self.proof.gate(v).operands();
        if operands.iter().flatten().all(|&l| self.standing(l) == l) {
            self.proof.offer(v);
        }
    }

    /// Whether the search has to end: for want of time, or since it has become too large.
    pub(crate) fn is_over(&self) -> bool {
        self.is_too_large() || is_past(self.deadline)
    }

    fn is_too_large(&self) -> bool {
        self.proof.clause_count() > MOST_CLAUSES || self.proof.gates().len() > MOST_VARIABLES
    }

    /// Why it had to end.
    fn ended(&self) -> Swept {
        if self.is_too_large() {
            Swept::TooLarge
        } else {
            Swept::OutOfTime
        }
    }

    /// Proves each difference false; then the claim that there is one falls.
    fn refute(&mut self) -> Swept {
        for (place, z) in self.miter.differences.clone().into_iter().enumerate() {
            self.define(z);
            let is_false = |r: Lit| r == Lit::FALSE;
            if let Some(pattern) = self.find_candidate(z, OUTPUT_CONFLICTS, is_false) {
                return Swept::Differs(pattern);
            }
            if self.stands_for_itself(z) {
                return if self.is_over() {
                    self.ended()
                } else {
                    Swept::Open(place + 1)
                };
            }
        }
        let no = |z: Var| (self.nets[z].equal[0].expect("proved false"), Lit::of(z));
        let mut steps = vec![];
        let joins = self.miter.joins.iter().zip(&self.miter.differences[1..]);
        for (&(w, clause), &z) in joins.rev() {
            steps.extend([(clause, Lit::of(w)), no(z)]);
        }
        steps.push(no(self.miter.differences[0]));
        let empty = self.proof.chain(self.miter.claim, &steps);
        Swept::Refuted(empty.expect("two literals"))
    }
}

/// Whether a moment has passed, if there is one.
pub(crate) fn is_past(deadline: Option<Instant>) -> bool {
    deadline.is_some_and(|deadline| Instant::now() > deadline)
}
