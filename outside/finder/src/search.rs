//! Conflict-driven search over some clauses of a proof. What it learns enters the proof with its
//! derivation: `learning` says which clause, `derivation` how it comes about within the width.

use std::time::Instant;

use crate::gate::{Lit, Var};
use crate::order::Order;
use crate::proof::{Id, Proof};
use crate::random::Random;
use crate::sweep::is_past;

/// How a search ended.
pub enum Outcome {
    /// With a clause whose literals are all in the target.
    Proved(Id),
    /// With an assignment under which the clauses hold and the target does not; see `value_of`.
    Model,
    /// Without either, at the limit of its conflicts or of time.
    Unknown,
}

/// A clause as the search has it, the two watched literals first.
pub(crate) struct Row {
    pub(crate) lits: Vec<Lit>,
    pub(crate) id: Id,
}

/// What the search knows of a variable.
pub(crate) struct State {
    pub(crate) level: usize,
    /// The clause that implied it; none for a decision.
    pub(crate) reason: Option<usize>,
    /// Its clause of one literal, where it is fixed for good.
    unit: Option<Id>,
    phase: bool,
    /// Whether it is in the clause being learned, or was resolved away from it.
    pub(crate) seen: bool,
    /// Whether it is resolved away from the clause being learned.
    pub(crate) lost: bool,
}

/// A search. Its variables and literals are numbered by themselves; `global` has the proof's.
pub struct Search<'p> {
    pub(crate) proof: &'p mut Proof,
    local: Vec<Option<usize>>,
    global: Vec<Var>,
    pub(crate) rows: Vec<Row>,
    watches: Vec<Vec<usize>>,
    /// Of each literal: 1 true, -1 false, 0 neither.
    pub(crate) value: Vec<i8>,
    pub(crate) vars: Vec<State>,
    pub(crate) trail: Vec<Lit>,
    /// How long the trail was at each decision.
    pub(crate) levels: Vec<usize>,
    /// How much of the trail was propagated, and how much of level 0 has its clauses.
    head: usize,
    fixed: usize,
    pub(crate) order: Order,
    /// A clause that is false whatever is decided.
    broken: Option<usize>,
    shuffle: Random,
    deadline: Option<Instant>,
    /// Conflicts so far.
    pub conflicts: u64,
}

/// Conflicts before the first restart; a Luby sequence goes on from there.
const RESTART: u64 = 100;

impl<'p> Search<'p> {
    /// Over these clauses; a seed other than 0 shuffles the first decisions.
    pub fn new(proof: &'p mut Proof, clauses: &[Id], seed: u64, deadline: Option<Instant>) -> Self {
        let local = vec![None; proof.gates().len()];
        let mut search = Self {
            proof,
            local,
            global: vec![],
            rows: vec![],
            watches: vec![],
            value: vec![],
            vars: vec![],
            trail: vec![],
            levels: vec![],
            head: 0,
            fixed: 0,
            order: Order::default(),
            broken: None,
            shuffle: Random::of(seed),
            deadline,
            conflicts: 0,
        };
        for &id in clauses {
            if !search.proof.is_tautology(id) {
                search.add(id);
            }
        }
        search
    }

    /// A variable's value in the model; none if no clause has it.
    pub fn value_of(&self, v: Var) -> Option<bool> {
        let local = (*self.local.get(v)?)?;
        Some(self.value[Lit::of(local).index()] > 0)
    }

    /// A literal of the proof in the search's numbering.
    fn local(&mut self, l: Lit) -> Lit {
        if self.local.len() <= l.var() {
            self.local.resize(l.var() + 1, None);
        }
        let n = self.local[l.var()].unwrap_or_else(|| self.add_variable(l.var()));
        Lit::of(n) ^ l.is_complemented()
    }

    /// A literal of the search in the proof's numbering.
    pub(crate) fn global(&self, l: Lit) -> Lit {
        Lit::of(self.global[l.var()]) ^ l.is_complemented()
    }

    fn add_variable(&mut self, v: Var) -> usize {
        let n = self.global.len();
        self.local[v] = Some(n);
        self.global.push(v);
        self.watches.extend([vec![], vec![]]);
        self.value.extend([0, 0]);
        let shuffled = self.shuffle.next();
        self.vars.push(State {
            level: 0,
            reason: None,
            unit: None,
            phase: shuffled & 1 == 1,
            seen: false,
            lost: false,
        });
        // Less than one conflict counts, so that only the first decisions are others.
        self.order
            .add((shuffled >> 40) as f64 / (1u64 << 26) as f64);
        n
    }

    /// Whether a variable of the proof is in the search.
    pub(crate) fn knows(&self, v: Var) -> bool {
        matches!(self.local.get(v), Some(Some(_)))
    }

    /// Adds a clause that was derived, for the next target.
    pub fn keep(&mut self, id: Id) {
        self.back_to(0);
        self.add(id);
    }

    /// Adds a clause of the proof, where nothing is decided.
    pub(crate) fn add(&mut self, id: Id) {
        let literals = self.proof.clause(id).to_vec();
        let mut lits: Vec<Lit> = literals.into_iter().map(|l| self.local(l)).collect();
        lits.sort_by_key(|l| self.value[l.index()] < 0);
        let open = lits.iter().filter(|l| self.value[l.index()] >= 0).count();
        let first = lits.first().copied();
        let at = self.attach(lits, id);
        match first {
            Some(first) if open == 1 && self.value[first.index()] == 0 => {
                self.assign(first, Some(at))
            }
            _ if open == 0 => self.broken = Some(at),
            _ => {}
        }
    }

    pub(crate) fn attach(&mut self, lits: Vec<Lit>, id: Id) -> usize {
        if let [first, second, ..] = lits[..] {
            self.watches[first.index()].push(self.rows.len());
            self.watches[second.index()].push(self.rows.len());
        }
        self.rows.push(Row { lits, id });
        self.rows.len() - 1
    }

    pub(crate) fn assign(&mut self, l: Lit, reason: Option<usize>) {
        self.value[l.index()] = 1;
        self.value[(!l).index()] = -1;
        self.vars[l.var()].level = self.levels.len();
        self.vars[l.var()].reason = reason;
        self.trail.push(l);
    }

    /// Assigns all that is implied; a clause with every literal false, if there is one.
    fn propagate(&mut self) -> Option<usize> {
        while self.head < self.trail.len() {
            let not = !self.trail[self.head];
            self.head += 1;
            let watching = std::mem::take(&mut self.watches[not.index()]);
            let mut conflict = None;
            for (k, &at) in watching.iter().enumerate() {
                if !self.visit(at, not) {
                    continue;
                }
                let first = self.rows[at].lits[0];
                self.watches[not.index()].push(at);
                if self.value[first.index()] < 0 {
                    self.watches[not.index()].extend(&watching[k + 1..]);
                    conflict = Some(at);
                    break;
                }
                if self.value[first.index()] == 0 {
                    self.assign(first, Some(at));
                }
            }
            if conflict.is_some() {
                return conflict;
            }
        }
        None
    }

    /// Looks at a clause one of whose watched literals has become false: whether it is watched there
    /// further on, being true by its first literal or having no other that is not false.
    fn visit(&mut self, at: usize, not: Lit) -> bool {
        let lits = &mut self.rows[at].lits;
        if lits[0] == not {
            lits.swap(0, 1);
        }
        if self.value[lits[0].index()] > 0 {
            return true;
        }
        match (2..lits.len()).find(|&k| self.value[lits[k].index()] >= 0) {
            Some(k) => {
                lits.swap(1, k);
                self.watches[lits[1].index()].push(at);
                false
            }
            None => true,
        }
    }

    pub(crate) fn back_to(&mut self, level: usize) {
        if self.levels.len() <= level {
            return;
        }
        for l in self.trail.split_off(self.levels[level]).into_iter().rev() {
            self.value[l.index()] = 0;
            self.value[(!l).index()] = 0;
            self.vars[l.var()].phase = !l.is_complemented();
            self.vars[l.var()].reason = None;
            self.order.insert(l.var());
        }
        self.levels.truncate(level);
        self.head = self.trail.len();
    }

    /// Gives each literal that holds for good its clause of one literal.
    fn fix(&mut self) {
        while self.fixed < self.trail.len() {
            let l = self.trail[self.fixed];
            self.fixed += 1;
            let reason = &self.rows[self.vars[l.var()].reason.expect("nothing is decided")];
            let others = reason.lits.iter().filter(|&&m| m != l);
            let steps: Vec<_> = others.map(|&m| (self.unit(m), self.global(m))).collect();
            let unit = self.proof.chain(reason.id, &steps);
            self.vars[l.var()].unit = Some(unit.expect("a clause that only shrinks"));
        }
    }

    /// The clause of one literal of a variable that is fixed for good.
    pub(crate) fn unit(&self, l: Lit) -> Id {
        self.vars[l.var()].unit.expect("fixed in order")
    }

    /// Derives a clause within `target`, literals of the proof, by at most so many conflicts.
    pub fn solve(&mut self, target: &[Lit], most_conflicts: u64) -> Outcome {
        self.back_to(0);
        let assumed: Vec<Lit> = target.iter().map(|&l| !self.local(l)).collect();
        let (mut restarts, mut restart) = (1, self.conflicts + RESTART);
        let end = self.conflicts + most_conflicts;
        loop {
            let conflict = self.broken.or_else(|| self.propagate());
            if self.levels.is_empty() {
                self.fix();
            }
            if let Some(at) = conflict {
                self.conflicts += 1;
                if self.levels.len() <= assumed.len() {
                    return self.conclude(at);
                }
                self.learn(at);
                if self.conflicts >= restart {
                    restarts += 1;
                    restart = self.conflicts + RESTART * luby(restarts);
                    self.back_to(0);
                }
            } else if self.conflicts >= end || self.out_of_time() {
                return Outcome::Unknown;
            } else if let Some(&l) = assumed.get(self.levels.len()) {
                if self.value[l.index()] < 0 {
                    return match self.vars[l.var()].reason {
                        Some(at) if self.vars[l.var()].level > 0 => self.conclude(at),
                        _ => Outcome::Proved(self.unit(l)),
                    };
                }
                self.decide(l);
            } else if let Some(v) = self.next_decision() {
                self.decide(Lit::of(v) ^ !self.vars[v].phase);
            } else {
                return Outcome::Model;
            }
        }
    }

    /// Looked at seldom, since to ask for the time takes time.
    fn out_of_time(&self) -> bool {
        self.conflicts % 64 == 63 && is_past(self.deadline)
    }

    /// Opens a level with a literal, which may be true already.
    fn decide(&mut self, l: Lit) {
        self.levels.push(self.trail.len());
        if self.value[l.index()] == 0 {
            self.assign(l, None);
        }
    }

    fn next_decision(&mut self) -> Option<usize> {
        let free = |v: &usize| self.value[Lit::of(*v).index()] == 0;
        std::iter::from_fn(|| self.order.pop()).find(free)
    }

    /// Resolves all that is implied away from a false clause: what is left is in the target.
    fn conclude(&mut self, at: usize) -> Outcome {
        for state in &mut self.vars {
            state.lost = state.reason.is_some();
        }
        let id = self.derive(at).expect("a clause over the target is narrow");
        self.vars.iter_mut().for_each(|state| state.lost = false);
        Outcome::Proved(id)
    }
}

/// 1, 1, 2, 1, 1, 2, 4, ...
fn luby(k: u64) -> u64 {
    let size = (k + 1).next_power_of_two();
    if size == k + 1 {
        size / 2
    } else {
        luby(k + 1 - size / 2)
    }
}

#[cfg(test)]
mod tests {
    use super::*;
    use crate::gate::Gate;
    use crate::proof::WIDTH;

    /// A proof with clauses over so many variables, and their ids.
    fn given(variables: usize, clauses: &[Vec<Lit>]) -> (Proof, Vec<Id>) {
        let mut proof = Proof::default();
        for _ in 0..variables {
            proof.give_variable(Gate::Leaf);
        }
        let ids = clauses.iter().map(|clause| proof.give(clause)).collect();
        proof.end_miter();
        (proof, ids)
    }

    #[test]
    fn targets_are_derived_or_have_a_model() {
        let [a, b, c] = [1, 2, 3].map(Lit::of);
        let (mut proof, ids) = given(4, &[vec![!a, b], vec![!b, c]]);
        let mut search = Search::new(&mut proof, &ids, 0, None);
        assert!(matches!(search.solve(&[!c, a], 10), Outcome::Model));
        assert_eq!(
            [1, 3].map(|v| search.value_of(v)),
            [Some(false), Some(true)]
        );
        let Outcome::Proved(id) = search.solve(&[!a, c], 10) else {
            panic!("a implies c");
        };
        assert_eq!(proof.clause(id), [!a, c]);
    }

    /// Six pigeons have no place in five holes: learned clauses get wide, and are kept within the
    /// width by extension variables.
    #[test]
    fn wide_clauses_are_abbreviated() {
        let (pigeons, holes) = (6, 5);
        let sits = |pigeon: usize, hole: usize| Lit::of(1 + pigeon * holes + hole);
        let mut clauses: Vec<Vec<Lit>> = vec![];
        for pigeon in 0..pigeons {
            clauses.push((0..holes).map(|hole| sits(pigeon, hole)).collect());
            for (other, hole) in (0..pigeon).flat_map(|p| (0..holes).map(move |h| (p, h))) {
                clauses.push(vec![!sits(pigeon, hole), !sits(other, hole)]);
            }
        }
        let (mut proof, ids) = given(1 + pigeons * holes, &clauses);
        let mut search = Search::new(&mut proof, &ids, 0, None);
        let Outcome::Proved(id) = search.solve(&[], 10_000) else {
            panic!("there is no place");
        };
        assert!(proof.clause(id).is_empty());
        assert!(
            proof.gates().len() > proof.given_variables(),
            "an extension"
        );
        assert!((0..proof.clause_count()).all(|id| proof.clause(id).len() <= WIDTH));
    }

    #[test]
    fn restarts_follow_luby() {
        assert_eq!([1, 2, 3, 4, 5, 6, 7, 8].map(luby), [1, 1, 2, 1, 1, 2, 4, 1]);
    }
}
