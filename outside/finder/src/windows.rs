//! Windows: the clauses of some gates below two nets, over the nets that stand for others.
//!
//! Most equalities hold by a few gates above nets that are equal already, so small windows are
//! searched first: their proofs are short, and their searches end at once.

use crate::gate::{Lit, Var};
use crate::proof::Id;
use crate::sweep::Sweep;

/// How many gates deep windows are; the last is the whole cone.
pub const DEPTHS: [usize; 7] = [1, 2, 3, 4, 6, 10, usize::MAX];

/// The clauses of a window.
pub struct Window {
    /// Their ids, with short clauses learned before over the same nets.
    pub clauses: Vec<Id>,
    /// Whether it goes down to the inputs everywhere, so that a model is a pattern.
    pub is_whole: bool,
}

impl Sweep<'_> {
    /// The literal that stands for l: an earlier one proved equal, or l itself.
    pub(crate) fn standing(&self, l: Lit) -> Lit {
        match self.nets.get(l.var()) {
            Some(net) => net.stands ^ l.is_complemented(),
            None => l,
        }
    }

    /// Rewrites the gate of v over nets that stand for themselves.
    pub(crate) fn define(&mut self, v: Var) {
        let given = self.proof.definition(v);
        let clauses = given.filter_map(|id| self.substituted(id, v)).collect();
        self.nets[v].defined = Some(clauses);
    }

    /// A clause with each literal but that of v replaced by what stands for it; none if it becomes
    /// a tautology.
    fn substituted(&mut self, id: Id, v: Var) -> Option<Id> {
        let mut steps = vec![];
        for &l in self.proof.clause(id) {
            let by = self.standing(l);
            if l.var() == v || by == l {
                continue;
            }
            if by == Lit::TRUE {
                return None;
            }
            let side = usize::from(l.is_complemented());
            steps.push((self.nets[l.var()].equal[side].expect("proved equal"), l));
        }
        let id = self.proof.chain(id, &steps).expect("at most four literals");
        (!self.proof.is_tautology(id)).then_some(id)
    }

    /// The clauses of the gates below the roots, so many deep.
    pub(crate) fn window(&self, roots: &[Var], depth: usize) -> Window {
        let mut inside = vec![false; self.nets.len()];
        roots.iter().for_each(|&v| inside[v] = true);
        // The miter's first clause says that net 0 is false.
        let (mut edge, mut clauses, mut is_whole) = (roots.to_vec(), vec![0], true);
        for level in 0.. {
            edge.retain(|&v| self.nets[v].defined.is_some());
            if edge.is_empty() || level == depth {
                is_whole = edge.is_empty();
                break;
            }
            let mut below = vec![];
            for &id in edge
                .iter()
                .flat_map(|&v| self.nets[v].defined.iter().flatten())
            {
                clauses.push(id);
                for l in self.proof.clause(id) {
                    if !std::mem::replace(&mut inside[l.var()], true) {
                        below.push(l.var());
                    }
                }
            }
            edge = below;
        }
        let among = |id: &&Id| self.proof.clause(**id).iter().all(|l| inside[l.var()]);
        clauses.extend(self.learned.iter().filter(among));
        Window { clauses, is_whole }
    }
}
