//! Derivations of learned clauses in which no clause is wider than may be stored.
//!
//! (a) In the order of the trail, as the search found it. (b) If that gets too wide, forwards: each
//! implied literal first gets its clause over the literals that stay. (c) If that is still too
//! wide, some literals that stay are replaced by their OR, an extension variable. The search stores
//! no clause of more than width − 2 literals, so (c) always ends: width alone never stops it.

use crate::gate::{Gate, Lit, Var};
use crate::proof::{Id, Proof, WIDTH};
use crate::search::Search;

/// A literal that stays, and the clause that puts another in its place.
type Swap = (Lit, Id);

impl Search<'_> {
    /// Resolves the variables marked as lost away from a clause that is false.
    pub(crate) fn derive(&mut self, at: usize) -> Option<Id> {
        let trail = self.needed(at);
        self.along_trail(at, &trail, &[])
            .or_else(|| self.forwards(at, &trail, &[]))
    }

    /// The clause with one literal, their OR, in the place of as few of `kept` as the width asks
    /// for; and the variables of that OR.
    pub(crate) fn abbreviate(&mut self, at: usize, kept: &[Lit]) -> (Id, Vec<Var>) {
        let trail = self.needed(at);
        let least = (kept.len() + 4).saturating_sub(WIDTH).clamp(2, kept.len());
        for count in (least..kept.len()).step_by(2).chain([kept.len()]) {
            let (swaps, variables) = self.or_of(&kept[..count]);
            let found = self.along_trail(at, &trail, &swaps);
            if let Some(id) = found.or_else(|| self.forwards(at, &trail, &swaps)) {
                return (id, variables);
            }
        }
        unreachable!("clauses over the implication point and one OR are narrow")
    }

    /// The trail's literals that have to be resolved away from a clause, latest first.
    fn needed(&self, at: usize) -> Vec<Lit> {
        let mut held = vec![false; self.value.len()];
        self.rows[at]
            .lits
            .iter()
            .for_each(|l| held[l.index()] = true);
        let mut needed = vec![];
        for &l in self.trail.iter().rev() {
            let state = &self.vars[l.var()];
            if held[(!l).index()] && (state.lost || state.level == 0) {
                needed.push(l);
                let reason = state.reason.filter(|_| state.level > 0);
                let lits = reason.iter().flat_map(|&from| &self.rows[from].lits);
                lits.for_each(|m| held[m.index()] = true);
            }
        }
        needed
    }

    /// (a): each literal of `swaps` is replaced as soon as it comes in.
    fn along_trail(&mut self, at: usize, trail: &[Lit], swaps: &[Swap]) -> Option<Id> {
        let mut steps = self.swapped(at, swaps);
        for &l in trail {
            let state = &self.vars[l.var()];
            match state.reason.filter(|_| state.level > 0) {
                None => steps.push((self.unit(l), self.global(!l))),
                Some(from) => {
                    steps.push((self.rows[from].id, self.global(!l)));
                    steps.extend(self.swapped(from, swaps));
                }
            }
        }
        self.proof.chain(self.rows[at].id, &steps)
    }

    /// The steps that replace the literals of a clause that are in `swaps`.
    fn swapped(&self, at: usize, swaps: &[Swap]) -> Vec<(Id, Lit)> {
        let lits = self.rows[at].lits.iter();
        let swap = |l: &Lit| swaps.iter().find(|swap| swap.0 == *l);
        lits.filter_map(swap)
            .map(|&(l, id)| (id, self.global(l)))
            .collect()
    }

    /// (b), and with `swaps` (c).
    fn forwards(&mut self, at: usize, trail: &[Lit], swaps: &[Swap]) -> Option<Id> {
        let mut flat: Vec<(Lit, Id)> = vec![];
        for &l in trail.iter().rev() {
            let state = &self.vars[l.var()];
            let id = match state.reason.filter(|_| state.level > 0) {
                None => self.unit(l),
                Some(from) => self.flatten(from, &flat, swaps)?,
            };
            flat.push((!l, id));
        }
        self.flatten(at, &flat, swaps)
    }

    /// A clause without the literals that have a clause in `flat`, narrow ones first.
    fn flatten(&mut self, at: usize, flat: &[(Lit, Id)], swaps: &[Swap]) -> Option<Id> {
        let mut steps = self.swapped(at, swaps);
        let mut rest = self.swapped(at, flat);
        rest.sort_by_key(|step| self.proof.clause(step.0).len());
        steps.extend(rest);
        self.proof.chain(self.rows[at].id, &steps)
    }

    /// For each of some literals the clause (not it, their OR); and the variables of the OR.
    fn or_of(&mut self, lits: &[Lit]) -> (Vec<Swap>, Vec<Var>) {
        let global: Vec<Lit> = lits.iter().map(|&l| self.global(l)).collect();
        let mut variables = vec![];
        let (_, ids) = or_tree(self.proof, &global, &mut variables);
        (lits.iter().copied().zip(ids).collect(), variables)
    }
}

/// The OR of at least two literals as a tree over groups of four, with (not l, OR) for each.
fn or_tree(proof: &mut Proof, lits: &[Lit], variables: &mut Vec<Var>) -> (Lit, Vec<Id>) {
    if lits.len() <= 4 {
        return or_chain(proof, lits, variables);
    }
    let groups: Vec<(Lit, Vec<Id>)> = lits
        .chunks(4)
        .map(|group| match *group {
            [l] => (l, vec![]),
            _ => or_chain(proof, group, variables),
        })
        .collect();
    let heads: Vec<Lit> = groups.iter().map(|group| group.0).collect();
    let (top, over) = or_tree(proof, &heads, variables);
    let mut ids = vec![];
    for ((head, inner), over) in groups.into_iter().zip(over) {
        if inner.is_empty() {
            ids.push(over);
        }
        let through = |id| proof.chain(id, &[(over, head)]).expect("two literals");
        ids.extend(inner.into_iter().map(through));
    }
    (top, ids)
}

/// The OR of two to four literals, one after the other.
fn or_chain(proof: &mut Proof, lits: &[Lit], variables: &mut Vec<Var>) -> (Lit, Vec<Id>) {
    let (mut or, mut ids) = (lits[0], vec![]);
    for &l in &lits[1..] {
        let longer = !proof.extend(Gate::And(!or, !l));
        variables.push(longer.var());
        let side = |of: Lit| {
            let holds = |&id: &Id| proof.clause(id).len() == 2 && proof.clause(id).contains(&!of);
            proof
                .definition(longer.var())
                .find(holds)
                .expect("a clause of the definition")
        };
        let (of_or, of_l) = (side(or), side(l));
        for id in &mut ids {
            *id = proof.chain(*id, &[(of_or, or)]).expect("two literals");
        }
        if ids.is_empty() {
            ids.push(of_or);
        }
        ids.push(of_l);
        or = longer;
    }
    (or, ids)
}
