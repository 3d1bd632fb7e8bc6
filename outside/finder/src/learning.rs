//! What a search learns from a conflict: the clause of the first unique implication point, without
//! the literals that the others imply.

use crate::gate::Lit;
use crate::proof::WIDTH;
use crate::search::Search;

/// How deep a literal's reasons are looked through to see that others imply it.
const DEPTH: usize = 30;

impl Search<'_> {
    /// Learns from a clause that is false, and goes back to where the learned one implies something.
    pub(crate) fn learn(&mut self, conflict: usize) {
        let mut touched = vec![];
        let (point, mut kept) = self.first_point(conflict, &mut touched);
        self.order.age();
        self.minimise(&mut kept, &mut touched);
        let narrow = kept.len() < WIDTH - 2;
        let derived = if narrow { self.derive(conflict) } else { None };
        let abbreviated = derived.is_none().then(|| self.abbreviate(conflict, &kept));
        for v in touched {
            self.vars[v].seen = false;
            self.vars[v].lost = false;
        }
        if let Some((id, variables)) = abbreviated {
            self.back_to(0);
            for v in variables {
                if !self.knows(v) {
                    self.proof.definition(v).for_each(|id| self.add(id));
                }
            }
            self.add(id);
            return;
        }
        let id = derived.expect("derived, if not abbreviated");
        let mut lits = vec![!point];
        lits.extend(kept.iter().rev());
        let level = kept.last().map_or(0, |l| self.vars[l.var()].level);
        self.back_to(level);
        let at = self.attach(lits, id);
        self.assign(!point, Some(at));
    }

    /// Resolves back along the trail until one literal of the last level is left: that literal as
    /// the trail has it, and the literals of earlier levels.
    fn first_point(&mut self, conflict: usize, touched: &mut Vec<usize>) -> (Lit, Vec<Lit>) {
        let (mut open, mut from, mut place) = (0, conflict, self.trail.len());
        let mut kept = vec![];
        loop {
            for k in 0..self.rows[from].lits.len() {
                let l = self.rows[from].lits[k];
                let state = &mut self.vars[l.var()];
                if state.seen || self.value[l.index()] > 0 || state.level == 0 {
                    continue;
                }
                state.seen = true;
                touched.push(l.var());
                self.order.bump(l.var());
                if state.level == self.levels.len() {
                    open += 1;
                } else {
                    kept.push(l);
                }
            }
            let seen = |l: &Lit| self.vars[l.var()].seen;
            place = self.trail[..place]
                .iter()
                .rposition(seen)
                .expect("a literal of this level");
            let point = self.trail[place];
            open -= 1;
            if open == 0 {
                return (point, kept);
            }
            let state = &mut self.vars[point.var()];
            state.lost = true;
            from = state
                .reason
                .expect("implied, as a decision is the last of its level");
        }
    }

    /// Takes out literals that others imply; those that stay by level.
    fn minimise(&mut self, kept: &mut Vec<Lit>, touched: &mut Vec<usize>) {
        kept.sort_by_key(|l| self.vars[l.var()].level);
        kept.retain(|l| {
            let mut resolved = vec![];
            let goes = self.is_implied(l.var(), &mut resolved, 0);
            if goes {
                resolved.iter().for_each(|&v| self.vars[v].lost = true);
                touched.extend(resolved);
            }
            !goes
        });
    }

    /// Whether all that v rests on is in the clause; `resolved` gets v and what else has to be
    /// resolved away.
    fn is_implied(&self, v: usize, resolved: &mut Vec<usize>, depth: usize) -> bool {
        let Some(from) = self.vars[v].reason.filter(|_| depth <= DEPTH) else {
            return false;
        };
        let implied = self.rows[from].lits.iter().all(|l| {
            let u = l.var();
            let settled = u == v || self.vars[u].level == 0 || self.vars[u].seen;
            settled || resolved.contains(&u) || self.is_implied(u, resolved, depth + 1)
        });
        if implied {
            resolved.push(v);
        }
        implied
    }
}
