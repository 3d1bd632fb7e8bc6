//! How a bit of a list is added up: words, and the ripple adders that made them, by the list's own
//! nets.

use crate::adders::{Cells, Link};
use crate::gate::Lit;
use crate::sweep::Sweep;

/// A word with the adder that made it. Weights count down from 0, that of the bit that is asked for.
pub(crate) struct Plan {
    /// The bits, with their weights.
    pub(crate) word: Vec<(i32, Lit)>,
    /// What they are the sum of; none for a bit that is added as it is.
    pub(crate) sum_of: Option<Addition>,
}

/// An adder of a list.
pub(crate) struct Addition {
    /// Two words, each of parts beside each other.
    pub(crate) operands: [Vec<Plan>; 2],
    /// A bit that comes in as a carry at the lowest weight.
    pub(crate) carry: Option<Box<Plan>>,
    pub(crate) links: Vec<(i32, Link)>,
}

/// Bits of a sum at most; sets of them are bits of a `u128`.
const MOST_LEAVES: usize = 128;

impl Sweep<'_> {
    /// How a bit is added up, if it is; and the leaves with what stands for them, if they are few.
    pub(crate) fn plan_of(&self, l: Lit, cells: &Cells) -> Option<(Plan, Vec<(i32, Lit)>)> {
        let plan = self.plan(l, 0, cells, &mut (4 * MOST_LEAVES))?;
        plan.sum_of.as_ref()?;
        let mut leaves = vec![];
        plan.add_leaves(&mut leaves);
        for leaf in &mut leaves {
            leaf.1 = self.standing(leaf.1);
        }
        leaves.sort_unstable();
        let once = leaves.windows(2).all(|pair| pair[0] != pair[1]);
        (once && leaves.len() <= MOST_LEAVES).then_some((plan, leaves))
    }

    /// How a bit with this weight is added up. None where adders do not fit together, or where more
    /// would have to be looked at than is left.
    fn plan(&self, l: Lit, weight: i32, cells: &Cells, left: &mut usize) -> Option<Plan> {
        *left = left.checked_sub(1)?;
        let Some(links) = self.adder_below(l, cells) else {
            let word = vec![(weight, l)];
            return Some(Plan { word, sum_of: None });
        };
        let low = weight + 1 - links.len() as i32;
        let links: Vec<(i32, Link)> = (low..).zip(links).collect();
        let mut operands = [vec![], vec![]];
        for &(weight, ref link) in links.iter().rev() {
            for &bit in link.operands.iter().filter(|&&l| !self.is_false(l)) {
                // Lower bits of a word are found with its highest.
                let has = |part: &Plan| part.word.contains(&(weight, bit));
                if !operands.iter().flatten().any(has) {
                    place(&mut operands, self.plan(bit, weight, cells, left)?)?;
                }
            }
        }
        let carry = match links[0].1.carry_in {
            Lit::FALSE => None,
            carry => Some(Box::new(self.plan(carry, low, cells, left)?)),
        };
        let addition = Addition {
            operands,
            carry,
            links,
        };
        let word = addition.word(low)?;
        Some(Plan {
            word,
            sum_of: Some(addition),
        })
    }

    /// Whether a net was proved false.
    pub(crate) fn is_false(&self, l: Lit) -> bool {
        self.standing(l) == Lit::FALSE
    }
}

impl Plan {
    /// The lowest weight of all that is added.
    pub(crate) fn lowest(&self) -> i32 {
        let below = self
            .sum_of
            .iter()
            .flat_map(Addition::parts)
            .map(Self::lowest);
        below
            .chain(self.word.iter().map(|bit| bit.0))
            .min()
            .unwrap_or(0)
    }

    /// The bits that are added up.
    fn add_leaves(&self, leaves: &mut Vec<(i32, Lit)>) {
        match &self.sum_of {
            None => leaves.extend(&self.word),
            Some(addition) => addition.parts().for_each(|part| part.add_leaves(leaves)),
        }
    }
}

impl Addition {
    fn parts(&self) -> impl Iterator<Item = &Plan> {
        self.operands.iter().flatten().chain(self.carry.as_deref())
    }

    /// The sum: what the links make, and what stands below them. None if an operand has a bit that
    /// the links leave out.
    fn word(&self, low: i32) -> Option<Vec<(i32, Lit)>> {
        let bits = || self.operands.iter().flatten().flat_map(|part| &part.word);
        let taken = |&(weight, l): &(i32, Lit)| {
            let link = self.links.iter().find(|link| link.0 == weight);
            link.is_none_or(|(_, link)| link.operands.contains(&l))
        };
        let below = bits().copied().filter(|bit| bit.0 < low);
        let sums = self.links.iter().map(|(weight, link)| (*weight, link.sum));
        bits().all(taken).then(|| below.chain(sums).collect())
    }
}

/// Puts a part in an operand that has none of its weights.
fn place(operands: &mut [Vec<Plan>; 2], part: Plan) -> Option<()> {
    let weights: Vec<i32> = part.word.iter().map(|bit| bit.0).collect();
    let meets = |other: &Plan| other.word.iter().any(|bit| weights.contains(&bit.0));
    let free = operands.iter_mut().find(|parts| !parts.iter().any(meets))?;
    free.push(part);
    Some(())
}
