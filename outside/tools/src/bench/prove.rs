//! The engine, on pairs of 64 to 1,024 gates a side with 64 inputs and 64 outputs. The reference's
//! engine does the same folding and emits a proof for the same pairs; its lines are its own.

use std::hint::black_box;

use super::measure::{enough, medians};
use super::pairs::{self, Pairing, DOUBLINGS, EXCHANGED, FEWEST_GATES};
use super::pairs::{LINKED, REWRITTEN, UNRELATED};
use super::table::{Row, Table, MICROSECONDS};
use crate::common::sizes::{Lengths, Sizes};

/// Two lists, and what an engine needs for them.
struct Pair {
    text: Vec<u8>,
    needed: Lengths,
    /// The refusal number that is due.
    refusal: u64,
}

/// What an engine is lent: pairs, and memory of which each has as much as it needs.
struct Lent {
    pairs: Vec<Pair>,
    proof: Vec<u8>,
    work: Vec<u16>,
}

/// Lets an engine that gives a refusal number, or 0, prove all pairs.
fn prove_by(lent: &mut Lent, prove: impl Fn(&[u8], &mut [u8], &mut [u16]) -> u64) {
    for pair in &lent.pairs {
        let proof = &mut lent.proof[..pair.needed.proof];
        let work = &mut lent.work[..pair.needed.work];
        let refusal = prove(black_box(&pair.text), proof, work);
        assert_eq!(refusal, pair.refusal);
    }
}

fn prove_by_archive(lent: &mut Lent) {
    prove_by(lent, |text, proof, work| {
        let [refusal, ..] = cec_archive::prove(text, proof, work);
        refusal
    });
}

fn prove_by_reference(lent: &mut Lent) {
    prove_by(lent, |text, proof, work| {
        let proved = cec_reference::prove(text, proof, work);
        proved.map_or_else(|refusal| refusal.number.into(), |_| 0)
    });
}

pub fn pairs() -> Table {
    let mut table = Table::new("prove", MICROSECONDS);
    for pairing in [EXCHANGED, REWRITTEN, LINKED, UNRELATED] {
        (0..=DOUBLINGS).for_each(|doubling| add(&mut table, pairing, FEWEST_GATES << doubling));
    }
    table
}

fn add(table: &mut Table, pairing: Pairing, gates: usize) {
    let pair = |number| {
        let text = pairs::text(pairing, pairs::shape(gates), number);
        let needed = Sizes::of(&text).expect("the lists are read").needed();
        let refusal = if pairing.0 == UNRELATED.0 { 18 } else { 0 };
        Pair {
            text,
            needed,
            refusal,
        }
    };
    let pairs = enough(pair, |pair| pair.text.len());
    let most = |length: fn(&Lengths) -> usize| {
        let lengths = pairs.iter().map(|pair| length(&pair.needed));
        lengths.max().unwrap_or(0)
    };
    let mut lent = Lent {
        proof: vec![0; most(|needed| needed.proof)],
        work: vec![0; most(|needed| needed.work)],
        pairs,
    };
    table.add(Row {
        series: pairing.0,
        unit: "gates a side",
        size: gates,
        texts: lent.pairs.len(),
        bytes: lent.pairs.iter().map(|pair| pair.text.len()).sum(),
        times: medians([prove_by_archive, prove_by_reference], &mut lent),
    });
}
