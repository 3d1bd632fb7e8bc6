//! One equality of two nets: its two clauses, searched in one window after the other.

use crate::gate::{Lit, Var};
use crate::proof::Id;
use crate::search::{Outcome, Search};
use crate::sweep::Sweep;
use crate::windows::{Window, DEPTHS};

/// What an attempt at one equality gave.
pub enum Attempt {
    /// Its clauses.
    Equal,
    /// A pattern on which the nets differ.
    Pattern(u64),
    /// Nothing, within the limits.
    Open,
}

/// A clause of an equality that has no derivation yet: which of the two, and its literals.
type Target = (usize, Vec<Lit>);

/// Conflicts in a window that is not the whole cone.
const WINDOW_CONFLICTS: u64 = 300;

/// Conflicts for a clause that is known to follow from a few others.
const STEP_CONFLICTS: u64 = 200;

/// The window at which XOR trees and sums are turned into each other: what smaller ones show is
/// cheaper without.
const ROUTE_DEPTH: usize = 4;

/// Derivations of one clause that are tried, and how many without gain end the trying.
const TRIES: u64 = 64;
const PATIENCE: u64 = 8;

/// Lines of a clause that is short enough, and of one that is worth more tries.
const SHORT: usize = 7;
const LONG: usize = 66;

impl Sweep<'_> {
    /// Whether v is r, which stands for itself: clauses (not v, r) and (v, not r), of which one is
    /// no clause where r is a constant.
    pub(crate) fn attempt(&mut self, v: Var, r: Lit, conflicts: u64) -> Attempt {
        self.nets[v].equal = [None, None];
        let mut open = targets(v, r);
        let (mut size, mut rotated) = (0, None);
        for depth in DEPTHS {
            if depth == ROUTE_DEPTH {
                rotated = self.xor_route(v, r);
                if let (None, Some(clauses)) = (rotated, self.sum_route(v, r)) {
                    self.nets[v].equal = clauses.map(Some);
                    return Attempt::Equal;
                }
            }
            let window = self.window(&[v, r.var()], depth);
            if window.clauses.len() == size && !window.is_whole {
                continue;
            }
            size = window.clauses.len();
            let must = window.is_whole && rotated.is_none();
            let limit = if must { conflicts } else { WINDOW_CONFLICTS };
            let model = self.close(v, &mut open, &window, limit);
            if open.is_empty() || window.is_whole || self.is_over() {
                return match (rotated, model) {
                    (Some(rotated), _) => self.cheaper(v, rotated, open.is_empty()),
                    _ if open.is_empty() => Attempt::Equal,
                    (None, Some(pattern)) if window.is_whole => Attempt::Pattern(pattern),
                    _ => Attempt::Open,
                };
            }
        }
        Attempt::Open
    }

    /// Takes the clauses made by rotations, where the search found none or dearer ones.
    fn cheaper(&mut self, v: Var, rotated: [Id; 2], is_found: bool) -> Attempt {
        let found: Vec<Id> = self.nets[v].equal.iter().flatten().copied().collect();
        if !is_found || self.proof.cost(&rotated) < self.proof.cost(&found) {
            self.nets[v].equal = rotated.map(Some);
        }
        Attempt::Equal
    }

    /// Searches for each open clause in a window. The pattern of a model, if there was one.
    fn close(
        &mut self,
        v: Var,
        open: &mut Vec<Target>,
        window: &Window,
        limit: u64,
    ) -> Option<u64> {
        let mut model = None;
        open.retain(|(side, target)| {
            let before = self.conflicts;
            match self.search(&window.clauses, target, limit, self.seed) {
                Ok(id) => {
                    let spent = self.conflicts - before;
                    let id = self.shorten(id, &window.clauses, target, spent);
                    self.nets[v].equal[*side] = Some(id);
                    false
                }
                Err(pattern) => {
                    model = model.or(pattern);
                    true
                }
            }
        });
        model
    }

    /// v has the gate of u over what stands for their operands, and is `of_u`.
    pub(crate) fn join_gates(&mut self, v: Var, of_u: Lit) -> bool {
        let defined = |n: Var| self.nets[n].defined.clone().unwrap_or_default();
        let clauses = [defined(v), defined(of_u.var())].concat();
        let stands = self.standing(of_u);
        for (side, target) in targets(v, of_u) {
            if stands ^ (side == 1) == Lit::TRUE {
                continue;
            }
            let Ok(mut id) = self.search(&clauses, &target, WINDOW_CONFLICTS, 0) else {
                return false;
            };
            let l = of_u ^ (side == 1);
            if stands != of_u && self.proof.clause(id).contains(&l) {
                let on = usize::from(l.is_complemented());
                let through = self.nets[l.var()].equal[on].expect("proved equal");
                id = self.proof.chain(id, &[(through, l)]).expect("two literals");
            }
            self.nets[v].equal[side] = Some(id);
        }
        self.settle(v, stands);
        true
    }

    /// A clause within the target out of the given ones; or the pattern of a model, if there is one.
    pub(crate) fn search(
        &mut self,
        clauses: &[Id],
        target: &[Lit],
        limit: u64,
        seed: u64,
    ) -> Result<Id, Option<u64>> {
        let mark = self.proof.mark();
        let mut search = Search::new(&mut self.proof, clauses, seed, self.deadline);
        let outcome = search.solve(target, limit);
        self.conflicts += search.conflicts;
        let model = match outcome {
            Outcome::Proved(id) => return Ok(id),
            Outcome::Model => {
                let set = |n: &Var| search.value_of(*n) == Some(true);
                let inputs = (1..=self.miter.inputs).filter(set);
                Some(inputs.fold(0, |pattern, n| pattern | 1 << (n - 1)))
            }
            Outcome::Unknown => None,
        };
        self.proof.forget(mark);
        Err(model)
    }

    /// Clauses within the targets, one after the other, out of a few given ones: a step of what is
    /// known to hold.
    pub(crate) fn clauses_out_of(
        &mut self,
        clauses: &[Id],
        targets: &[Vec<Lit>],
    ) -> Option<Vec<Id>> {
        if self.is_over() {
            return None;
        }
        let mut search = Search::new(&mut self.proof, clauses, 0, self.deadline);
        let mut found = vec![];
        for target in targets {
            let Outcome::Proved(id) = search.solve(target, STEP_CONFLICTS) else {
                break;
            };
            search.keep(id);
            found.push(id);
        }
        self.conflicts += search.conflicts;
        (found.len() == targets.len()).then_some(found)
    }

    /// Searches for a clause again, with other first decisions and out of only what it rested on:
    /// the derivation that adds least to the proof. One that took many conflicts is tried less. This
    /// takes two thirds of all time, for an eighth fewer lines on layouts.
    fn shorten(&mut self, id: Id, clauses: &[Id], target: &[Lit], spent: u64) -> Id {
        let floor = clauses.iter().max().map_or(0, |&last| last + 1);
        let (mut best, mut cost) = (id, self.proof.cost(&[id]));
        let mut core = self.proof.core(&[id], clauses);
        let mut since = 0;
        for seed in 1..=TRIES {
            let patience = match spent {
                0..=500 if cost >= LONG => 3 * PATIENCE,
                0..=1000 => PATIENCE,
                _ => PATIENCE / 2,
            };
            since += 1;
            if cost < SHORT || id < floor || since > patience || self.is_over() {
                break;
            }
            self.proof.hide_from(floor);
            let mark = self.proof.mark();
            let seed = self.seed * 1000 + seed;
            let Ok(other) = self.search(&core, target, spent + 50, seed) else {
                continue;
            };
            let new = self.proof.cost(&[other]);
            if new < cost {
                (best, cost, since) = (other, new, 0);
                core = self.proof.core(&[other], clauses);
            } else {
                self.proof.forget(mark);
            }
        }
        self.proof.hide_from(self.proof.clause_count());
        best
    }
}

/// The clauses of v = r that say something, without the constant's literal.
fn targets(v: Var, r: Lit) -> Vec<Target> {
    let v = Lit::of(v);
    let both = [[!v, r], [v, !r]].into_iter().enumerate();
    both.filter(|(_, clause)| !clause.contains(&Lit::TRUE))
        .map(|(side, clause)| {
            (
                side,
                clause.into_iter().filter(|&l| l != Lit::FALSE).collect(),
            )
        })
        .collect()
}
