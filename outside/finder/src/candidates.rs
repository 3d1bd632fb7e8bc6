//! Candidates: nets that were the same, or complements, on every pattern tried.

use std::collections::HashMap;

use crate::gate::{Lit, Var};
use crate::simulation::{Signature, Simulation};

/// The nets that stand for themselves, by what they are on the patterns tried.
#[derive(Default)]
pub struct Candidates {
    /// All of them in the order in which they came, and so in that of their depth.
    members: Vec<Var>,
    /// Each with the sign under which it is 0 on the first pattern.
    classes: HashMap<u64, Vec<Lit>>,
}

impl Candidates {
    /// One more net that stands for itself.
    pub fn add(&mut self, v: Var, simulation: &Simulation) {
        self.members.push(v);
        let Signature { hash, turned, .. } = simulation.signature(v);
        let class = self.classes.entry(hash).or_default();
        class.push(Lit::of(v) ^ turned);
    }

    /// The literals that v may be, the earliest first.
    pub fn of(&self, v: Var, simulation: &Simulation) -> impl Iterator<Item = Lit> + '_ {
        let Signature { hash, turned, .. } = simulation.signature(v);
        let class = self.classes.get(&hash).into_iter().flatten();
        class.map(move |&r| r ^ turned)
    }

    /// Splits the classes after more patterns were tried.
    pub fn split(&mut self, simulation: &Simulation) {
        self.classes.clear();
        for v in std::mem::take(&mut self.members) {
            self.add(v, simulation);
        }
    }
}
