//! Valid texts for each call, and some with a known fault, from which the mutations start.

use super::target::Target;
use crate::common::calls::{kinds, line};
use crate::common::extensions::{all_variables, refute_smallest};
use crate::common::lists::{List, LARGEST};
use crate::common::proof_texts::{self, any_proof};
use crate::common::random::Random;
use crate::common::rewrites::{self, Pair};
use crate::common::{list_texts, samples, texts};
use crate::evidence::proof_of;

/// How many small texts there are for each call.
const SMALL: usize = 512;

/// How often a large text is taken instead.
const LARGE_IN: usize = 1_000;

/// How often a text for another call is taken.
const OTHER_IN: usize = 20;

/// The texts of one call.
struct Texts {
    small: Vec<Vec<u8>>,
    large: Vec<Vec<u8>>,
}

/// The texts of all calls, in the calls' order.
pub struct Corpus([Texts; 4]);

impl Corpus {
    /// How many cases start from one corpus.
    pub const CASES: u64 = 1 << 17;

    /// The corpus of a case, by the seed.
    pub fn of_case(seed: u64, case: u64) -> Self {
        // The complement, so that no case has the same random numbers.
        let mut random = Random::of_case(!seed, case / Self::CASES);
        Self(Target::ALL.map(|target| Texts {
            small: (0..SMALL).map(|_| small(&mut random, target)).collect(),
            large: large(&mut random, target),
        }))
    }

    /// A text for this call, in some cases one for another.
    pub fn pick(&self, random: &mut Random, target: Target) -> &[u8] {
        let target = if random.one_in(OTHER_IN) {
            random.pick(&Target::ALL)
        } else {
            target
        };
        let Texts { small, large } = &self.0[target as usize];
        let texts = if random.one_in(LARGE_IN) {
            large
        } else {
            small
        };
        &texts[random.below(texts.len())]
    }
}

fn small(random: &mut Random, target: Target) -> Vec<u8> {
    let often = !random.one_in(6);
    match target {
        Target::Check => proof_text(random),
        Target::Prove if often => pair(random).text(),
        Target::Prove => list_texts::any(random, 2).1,
        Target::Evaluate if often => {
            let shape = rewrites::any_shape(random);
            List::random(random, shape).text()
        }
        Target::Evaluate => list_texts::any(random, 1).1,
        Target::ReadFrame => {
            let kind = random.pick(&kinds());
            line(random, kind)
        }
    }
}

/// The engine's evidence, a refutation by cases on the inputs, or one of the tests' texts.
fn proof_text(random: &mut Random) -> Vec<u8> {
    if random.one_in(3) {
        return evidence(pair(random).text());
    }
    let proof = any_proof(random);
    if random.one_in(2) {
        return proof.text(&proof.lines());
    }
    proof_texts::any(random, &proof).text
}

fn pair(random: &mut Random) -> Pair {
    let shape = rewrites::any_shape(random);
    Pair::any(random, shape)
}

/// Two lists with the engine's proof behind them, if there is one.
fn evidence(lists: Vec<u8>) -> Vec<u8> {
    let proof = proof_of(&lists);
    [lists, proof].concat()
}

fn large(random: &mut Random, target: Target) -> Vec<Vec<u8>> {
    let guards = [samples::GUARD_OLD, samples::GUARD_NEW].map(samples::text);
    match target {
        Target::Check => {
            let lists = [300, LARGEST.gates].map(|gates| rewrites::large(random, gates).text());
            let lists = lists.into_iter().chain([guards.concat()]);
            let ended = variables_used_up(random).into_iter();
            let ended = ended.chain([clauses_used_up(random)]);
            lists.map(evidence).chain(ended).collect()
        }
        Target::Prove => {
            let linked = ["02", "03"].map(|kind| list_texts::linked(kind).into());
            let pairs = samples::pairs().map(|(_, lists, _)| lists);
            let rewritten = rewrites::large(random, LARGEST.gates).text();
            pairs.chain(linked).chain([rewritten]).collect()
        }
        Target::Evaluate => {
            let samples = samples::ALL.map(|(sample, _)| samples::text(sample));
            [&samples[..], &[List::random(random, LARGEST).text()]].concat()
        }
        Target::ReadFrame => vec![texts::long(random)],
    }
}

/// Lines behind extensions by XOR that use up all variables, with space for one clause more: a
/// variable too many, one that is not there, both, a clause, and one too many.
const ENDS: [&[u8]; 5] = [
    b"1200000000\n",
    b"1100010002FFFF\n",
    b"1300008000\n",
    b"11000600020001\n",
    b"11000600020001\n11000600020001\n",
];

fn variables_used_up(random: &mut Random) -> [Vec<u8>; 5] {
    let proof = all_variables(random, 0);
    let text = proof.text(&proof.lines());
    ENDS.map(|end| [&text, end].concat())
}

/// An accepted proof with all variables and all clauses in use.
fn clauses_used_up(random: &mut Random) -> Vec<u8> {
    let mut proof = all_variables(random, 1);
    refute_smallest(&mut proof);
    proof.text(&proof.lines())
}
