//! The checker, on accepted texts from about 1 KB to 1 MB, in two tables.
//!
//! 'Proof lines' are texts whose lists are the eight lines of P12: all else is proof, so that the
//! time is that of proof lines, with the store's clearing. Random resolves begin with short clauses,
//! and so the shortest texts take less for a line than longer ones. 'Whole texts' are two lists, 8
//! to 1,024 gates a side, and the archive's own proof of them: reading, the miter's clauses and the
//! proof each have their share, as in evidence. Where 1,024 gates are not enough, lines of the proof
//! come again.

use std::hint::black_box;

use super::measure::{enough, medians};
use super::pairs::{self, Pairing, EXCHANGED, REWRITTEN};
use super::table::{Row, Table, MICROSECONDS};
use crate::common::lists::{Shape, LARGEST};
use crate::common::proofs::Proof;
use crate::common::random::{seed, Random};
use crate::common::refutations::refute;
use crate::common::sizes::{EIGHT, LINE_BYTES};
use crate::evidence::proof_of;

/// The pair of sample P12, XOR built from three ANDs against an XOR gate.
const LISTS: &[u8] = b"0102000301\n0200020005\n0200030004\n0200070009\n04000B\n\
    0102000101\n0300020004\n040006\n";

/// Lines of the shortest text, and how often they are doubled: 65,535 clauses suffice for the last.
const FEWEST_LINES: usize = 63;
const LINE_DOUBLINGS: u32 = 10;

/// Gates a side of the shortest whole text, how often they are doubled, and how often its bytes are
/// doubled behind that.
const FEWEST_GATES: usize = 8;
const GATE_DOUBLINGS: u32 = 7;
const BYTE_DOUBLINGS: u32 = 2;

/// What the lines before the last refutation are.
type Filling = (&'static str, fn(&mut Proof, &mut Random));

const FILLINGS: [Filling; 2] = [
    ("refutations one behind the other", |proof, random| {
        refute(proof, random).expect("the lists agree");
    }),
    (
        "random resolves, clauses of up to eight literals",
        |proof, random| {
            let pair = proof.random_pair(random, proof.clauses.len());
            pair.and_then(|step| proof.take(step));
        },
    ),
];

/// A text, and how many store numbers suffice for it.
struct Accepted {
    text: Vec<u8>,
    numbers: usize,
}

impl Accepted {
    fn new(text: Vec<u8>) -> Self {
        // A text has fewer clauses than bytes.
        let most = EIGHT * text.len();
        let [refusal, _, _, clauses] = cec_archive::check(&text, &mut vec![0; most]);
        assert_eq!(refusal, 0);
        let numbers = EIGHT * clauses as usize;
        Self { text, numbers }
    }
}

/// What a checker is lent: texts, and a store of which each has as much as it needs.
struct Lent {
    texts: Vec<Accepted>,
    store: Vec<u16>,
}

fn check_by_archive(lent: &mut Lent) {
    for accepted in &lent.texts {
        let store = &mut lent.store[..accepted.numbers];
        let [refusal, ..] = cec_archive::check(black_box(&accepted.text), store);
        assert_eq!(refusal, 0);
    }
}

fn check_by_reference(lent: &mut Lent) {
    for accepted in &lent.texts {
        let store = &mut lent.store[..accepted.numbers];
        let checked = cec_reference::check(black_box(&accepted.text), store);
        assert!(checked.is_ok());
    }
}

pub fn proof_lines() -> Table {
    let mut table = Table::new("check, proof lines", MICROSECONDS);
    for (series, fill) in FILLINGS {
        for doubling in 0..=LINE_DOUBLINGS {
            add(&mut table, series, |number| {
                let proof = filled(FEWEST_LINES << doubling, fill, number);
                Accepted::new(proof.text(&proof.lines()))
            });
        }
    }
    table
}

pub fn whole_texts() -> Table {
    let mut table = Table::new("check, whole texts", MICROSECONDS);
    for pairing in [EXCHANGED, REWRITTEN] {
        for doubling in 0..=GATE_DOUBLINGS + BYTE_DOUBLINGS {
            add(&mut table, pairing.0, |number| {
                Accepted::new(evidence(pairing, doubling, number))
            });
        }
    }
    table
}

/// Measures both on texts of a size. Both leave the same store, of the last text too.
fn add(table: &mut Table, series: &'static str, text: impl Fn(u64) -> Accepted) {
    let texts = enough(text, |accepted| accepted.text.len());
    let most = texts.iter().map(|accepted| accepted.numbers).max();
    let store = vec![0; most.unwrap_or(0)];
    let mut lent = Lent { texts, store };
    let sides: [fn(&mut Lent); 2] = [check_by_archive, check_by_reference];
    let [ours, rust] = sides.map(|check| {
        lent.store.fill(1);
        check(&mut lent);
        lent.store.clone()
    });
    assert!(ours == rust, "the stores differ");
    let texts = lent.texts.len();
    let bytes = lent.texts.iter().map(|accepted| accepted.text.len()).sum();
    table.add(Row {
        series,
        unit: "bytes",
        size: bytes / texts,
        texts,
        bytes,
        times: medians(sides, &mut lent),
    });
}

/// A proof of just so many lines, the last of which refute.
fn filled(lines: usize, fill: fn(&mut Proof, &mut Random), number: u64) -> Proof {
    let mut random = Random::of_case(seed(), number);
    let mut proof = Proof::of(LISTS.to_vec()).expect("the lists are read");
    let mut refutation = proof.clone();
    refute(&mut refutation, &mut Random::of_case(seed(), 0)).expect("the lists agree");
    let filled = lines - refutation.steps.len();
    while proof.steps.len() < filled {
        fill(&mut proof, &mut random);
    }
    let mut proof = proof.first_steps(filled);
    refute(&mut proof, &mut Random::of_case(seed(), 0)).expect("the lists agree");
    assert_eq!(proof.steps.len(), lines);
    proof
}

/// Two lists and their proof: the gates are doubled first, and then the bytes, by lines of the proof
/// again. Those stand behind the whole proof, where the clauses that they name are the same.
fn evidence(pairing: Pairing, doubling: u32, number: u64) -> Vec<u8> {
    let gates = FEWEST_GATES << doubling.min(GATE_DOUBLINGS);
    let lists = pairs::text(pairing, whole_shape(gates), number);
    let proof = proof_of(&lists);
    let once = lists.len() + proof.len();
    let times = 1 << doubling.saturating_sub(GATE_DOUBLINGS);
    let again = (times - 1) * once / LINE_BYTES;
    // The last line is the empty clause, and ends the text too.
    let lines = proof.chunks_exact(LINE_BYTES);
    let last = lines.clone().next_back().expect("a proof has a line");
    let mut text = [lists, proof.clone()].concat();
    if again > 0 {
        lines
            .cycle()
            .take(again - 1)
            .for_each(|line| text.extend(line));
        text.extend(last);
    }
    text
}

/// An output for sixteen gates, so that all of a text doubles with the gates.
fn whole_shape(gates: usize) -> Shape {
    Shape {
        gates,
        outputs: gates.div_ceil(16),
        ..LARGEST
    }
}
