//! The finder on damaged texts, which it refuses just as the engine does, and twice on the same
//! text, to which it gives the same answer.

mod asked;
mod common;

use asked::{fails, Asked, DIFFERS, PROVED, PROVED_BEYOND};
use cec_archive::prove;
use cec_finder::Answer;
use cec_reference::sample::LISTS;
use common::layouts;
use common::list_texts;
use common::lists::Shape;
use common::random::{seed, Random};
use common::relaid::Relaid;
use common::rewrites;
use common::samples;
use common::sizes::{Lengths, Sizes};
use common::sums::{self, Sum};
use common::tally::{outcomes, Tally};
use common::texts;

const DAMAGED: u64 = 100_000;

/// The most bytes of a text that is to be damaged, so that many are quick.
const SHORT: usize = 400;

/// How many lists laid out again are asked about twice.
const TWICE: u64 = 10;

/// The engine's refusal and line, given enough memory.
fn engine(text: &[u8]) -> [u64; 2] {
    let none = Lengths { proof: 0, work: 0 };
    let needed = Sizes::of(text).map_or(none, Sizes::needed);
    let (mut proof, mut work) = (vec![0; needed.proof], vec![0; needed.work]);
    let [refusal, line, _] = prove(text, &mut proof, &mut work);
    [refusal, line]
}

/// A short text of two lists, mostly damaged: lists that have little to do with each other, damaged
/// in numbers, lines and bytes; or lists most of which agree, damaged in bytes.
fn short_text(case: u64) -> (String, Vec<u8>) {
    let mut random = Random::of_case(seed(), case);
    if case.is_multiple_of(2) {
        loop {
            let (about, text) = list_texts::any(&mut random, 2);
            if text.len() <= SHORT {
                return (about, text);
            }
        }
    }
    let shape = Shape {
        inputs: random.below(5),
        gates: random.below(7),
        outputs: 1 + random.below(3),
    };
    let pair = rewrites::Pair::any(&mut random, shape);
    let mut text = pair.text();
    let damages = random.pick(&[0, 1, 1, 2]);
    let names = (0..damages).map(|_| texts::damage(&mut random, &mut text));
    let names: Vec<&str> = names.collect();
    (format!("{}, {}", pair.about, names.join(", ")), text)
}

/// What the engine refuses by its reading, the finder refuses alike; to all else it has an answer.
#[test]
fn damaged_texts_are_refused_alike() {
    let mut tally = Tally::default();
    for case in 0..DAMAGED {
        let (about, text) = short_text(case);
        let [refusal, line] = engine(&text);
        let asked = asked::truly(case, &about, &text);
        let is_due = match &asked {
            Asked::Refused(said) => (2..=7).contains(&refusal) && *said == [refusal, line],
            Asked::Proved { .. } => [0, 18].contains(&refusal),
            Asked::Differs => refusal == 18,
            Asked::Nothing(_) => false,
        };
        if !is_due {
            let fault = format!("{asked:?}, and the engine says {refusal} at {line}");
            fails(case, &about, &text, &fault);
        }
        tally.count(asked.name());
    }
    let refused = outcomes(&[2, 3, 4, 5, 6, 7]);
    let refused = refused
        .into_iter()
        .map(|number| format!("refused: {number}"));
    let wanted: Vec<String> = refused.chain([PROVED, DIFFERS].map(String::from)).collect();
    let possible = [&wanted[..], &[PROVED_BEYOND.into()]].concat();
    tally.finish_within("damaged texts", DAMAGED, &wanted, &possible);
    tally.often("damaged texts", 1_000, &[PROVED, DIFFERS].map(String::from));
}

/// Pairs that are proved, by search and by folding, and pairs that differ.
fn pairs_of_all_sorts() -> Vec<(String, Vec<u8>)> {
    let sample = |pair: [&str; 2]| (pair.join(" and "), pair.map(samples::text).concat());
    let mut pairs = vec![
        sample([samples::ADDER, "adder16-renamed"]),
        sample([samples::GUARD_OLD, samples::GUARD_RESYNTHESISED]),
        sample([samples::GUARD_OLD, samples::GUARD_ONE_PATTERN]),
    ];
    let layouts = layouts::pairs(&layouts::samples()).expect("the samples are read");
    let some = layouts.into_iter().step_by(5);
    pairs.extend(some.map(|pair| (pair.about, pair.text)));
    let sums = [Sum::Ones(4), Sum::Ones(6)]
        .into_iter()
        .flat_map(sums::pairs);
    pairs.extend(sums.map(|pair| (pair.about.clone(), pair.text())));
    pairs.extend((0..TWICE).map(|case| {
        let mut random = Random::of_case(seed(), case);
        let pair = Relaid::any(&mut random, 60);
        (format!("laid out again, case {case}"), pair.text())
    }));
    pairs
}

/// Byte by byte, and whatever was asked in between.
#[test]
fn the_same_text_has_the_same_answer() {
    let pairs = pairs_of_all_sorts();
    let first: Vec<_> = pairs.iter().map(|(_, text)| asked::answer(text)).collect();
    for ((about, text), first) in pairs.iter().zip(&first).rev() {
        let second = asked::answer(text);
        assert!(second == *first, "{about}: {first:?} and {second:?}");
    }
    assert!(pairs.len() > 30);
}

/// The judge is no friend of the finder's: a proof that is cut or counted wrongly is told, and so
/// is a pattern on which the lists agree, or give other words.
#[test]
fn untrue_answers_are_told() {
    let text = LISTS.as_bytes();
    let Ok(Answer::Proof {
        lines,
        count,
        clauses,
    }) = asked::answer(text)
    else {
        panic!("no proof of the paper's pair");
    };
    let proof = |lines: &str, count, clauses| Answer::Proof {
        lines: lines.into(),
        count,
        clauses,
    };
    let cut = &lines[..lines.len() - 15];
    let differs = |pattern, words| Answer::Differs { pattern, words };
    let untrue = [
        proof(cut, count - 1, clauses - 1),
        proof("", 0, 9),
        proof(&lines, count + 1, clauses),
        proof(&lines, count, clauses - 1),
        differs(1, [1, 1]),
        differs(1, [1, 0]),
        differs(0, [0, 0]),
    ];
    for answer in untrue {
        let judged = asked::judged(text, Ok(answer.clone()));
        assert!(judged.is_err(), "{answer:?}: {judged:?}");
    }
    let within = Asked::Proved { within: true };
    assert_eq!(
        asked::judged(text, Ok(proof(&lines, count, clauses))),
        Ok(within)
    );
}
