//! The finder on pairs that agree, most of which the engine has no proof of, and on pairs with one
//! gate changed. The archive's checker accepts each proof, and its evaluator gives different words
//! on each pattern.

mod asked;
mod common;

use std::env;
use std::time::Instant;

use asked::{is_proved, truly, Asked, DIFFERS, PROVED, PROVED_BEYOND};
use cec_reference::read_list;
use common::layouts::{self, KINDS};
use common::mutated::{list_of, mutated, WAYS};
use common::random::{seed, Random};
use common::relaid::Relaid;
use common::samples;
use common::sums::{self, SUMS};
use common::tally::Tally;

/// How many lists are laid out again: usually, and in the long test unless CEC_FINDER_LISTS says.
const RELAID: u64 = 60;
const MANY_RELAID: u64 = 600;

/// How often each list is changed, and how many of them are random lists laid out again.
const MUTATIONS: u64 = 10;
const MUTATED_RELAID: u64 = 20;

/// Asks for a proof of each of these pairs, and counts by kind and by room.
fn all_proved<'about>(
    test: &str,
    pairs: impl Iterator<Item = (&'about str, String, Vec<u8>)>,
) -> [Tally; 2] {
    let [mut kinds, mut rooms] = [(); 2].map(|()| Tally::default());
    let mut worst = (0.0, String::new());
    for (case, (kind, about, text)) in (0..).zip(pairs) {
        let start = Instant::now();
        let within = is_proved(case, &about, &text);
        let seconds = start.elapsed().as_secs_f64();
        if seconds > worst.0 {
            worst = (seconds, about);
        }
        kinds.count(kind.into());
        rooms.count(if within { PROVED } else { PROVED_BEYOND }.into());
    }
    let (seconds, about) = worst;
    eprintln!("{test}: the longest search took {seconds:.2} s ({about})");
    [kinds, rooms]
}

/// Layouts as a synthesis tool makes them. Most evidence is within the checking program's limits.
#[test]
fn layouts_are_proved() {
    let pairs = layouts::pairs(&layouts::samples()).expect("the samples are read");
    let pairs = pairs.into_iter();
    let pairs = pairs.map(|pair| (pair.kind, pair.about, pair.text));
    let [kinds, rooms] = all_proved("layouts", pairs);
    let [_, made @ ..] = KINDS.map(String::from);
    let made: Vec<String> = made.into_iter().filter(|kind| kind != KINDS[2]).collect();
    kinds.finish("layouts", 70, &made);
    let possible = [PROVED, PROVED_BEYOND].map(String::from);
    rooms.finish_within("layouts", 70, &[PROVED.into()], &possible);
    rooms.often("layouts", 60, &[PROVED.into()]);
}

/// The sample lists that agree.
#[test]
fn samples_are_proved() {
    let pairs = [
        ["paper-gate", "paper-wire"],
        [samples::ADDER, "adder16-renamed"],
        [samples::GUARD_OLD, samples::GUARD_NEW],
        [samples::GUARD_OLD, samples::GUARD_RESYNTHESISED],
        [samples::GUARD_RESYNTHESISED, samples::GUARD_NEW],
    ];
    let pairs = pairs.iter().map(|pair| {
        let text = pair.map(samples::text).concat();
        ("samples", pair.join(" and "), text)
    });
    let [_, rooms] = all_proved("samples", pairs);
    rooms.finish("samples", 5, &[PROVED.into()]);
}

/// The one pattern of 2^58 on which the guard and its copy differ.
#[test]
fn the_odd_pattern_is_found() {
    let text = [samples::GUARD_OLD, samples::GUARD_ONE_PATTERN].map(samples::text);
    let text = text.concat();
    assert_eq!(truly(0, "the odd pattern", &text), Asked::Differs);
    let found = asked::answer(&text).expect("the lists are read");
    let cec_finder::Answer::Differs { pattern, .. } = found else {
        panic!("{found:?}");
    };
    assert_eq!(pattern % (1 << 58), samples::ODD_PATTERN);
}

/// So many random lists laid out again.
fn relaid(lists: u64) {
    let pairs = (0..lists).map(|case| {
        let mut random = Random::of_case(seed(), case);
        let gates = 10 + random.below(200);
        let pair = Relaid::any(&mut random, gates);
        let about = format!(
            "{} and {} gates",
            pair.left.gates.len(),
            pair.right.gates.len()
        );
        ("laid out again", about, pair.text())
    });
    let [_, rooms] = all_proved("laid out again", pairs);
    let possible = [PROVED, PROVED_BEYOND].map(String::from);
    rooms.finish_within("laid out again", lists, &[PROVED.into()], &possible);
}

#[test]
fn lists_laid_out_again_are_proved() {
    relaid(RELAID);
}

#[test]
#[ignore = "takes minutes"]
fn many_lists_laid_out_again_are_proved() {
    let named = env::var("CEC_FINDER_LISTS");
    let lists = named.map(|lists| lists.parse().expect("CEC_FINDER_LISTS is a number"));
    relaid(lists.unwrap_or(MANY_RELAID));
}

/// Counters, products and additions in two orders each, up to 64 inputs.
#[test]
fn sums_in_another_order_are_proved() {
    let pairs = SUMS.into_iter().flat_map(sums::pairs);
    let closed = pairs.filter(|pair| !pair.may_be_open());
    let closed = closed.map(|pair| ("sums", pair.about.clone(), pair.text()));
    let [_, rooms] = all_proved("sums", closed);
    let possible = [PROVED, PROVED_BEYOND].map(String::from);
    rooms.finish_within("sums", 50, &possible, &possible);
}

/// One after the other, and what is not proved is told at the end.
#[test]
#[ignore = "takes minutes"]
fn open_sums_are_tried() {
    let mut unproved = Vec::new();
    for pair in SUMS.into_iter().flat_map(sums::pairs) {
        if !pair.may_be_open() {
            continue;
        }
        let start = Instant::now();
        let asked = truly(0, &pair.about, &pair.text());
        let (seconds, name) = (start.elapsed().as_secs_f64(), asked.name());
        eprintln!("{}: {name}, {seconds:.2} s", pair.about);
        if !asked.is_proved() {
            unproved.push(pair.about);
        }
    }
    eprintln!("{} without a proof: {unproved:#?}", unproved.len());
}

/// Pairs of lists of which the right one is to be changed: samples against themselves and against
/// another layout of their part, layouts against themselves, and random lists laid out again, which
/// have gates that hardly matter.
fn to_be_mutated() -> Vec<[Vec<u8>; 2]> {
    let samples = [
        [samples::ADDER, samples::ADDER],
        [samples::GUARD_OLD, samples::GUARD_NEW],
        [samples::GUARD_OLD, samples::GUARD_RESYNTHESISED],
        [samples::GUARD_ONE_PATTERN, samples::GUARD_ONE_PATTERN],
    ];
    let samples = samples.map(|pair| pair.map(samples::text)).into_iter();
    let layouts = layouts::pairs(&layouts::samples()).expect("the samples are read");
    let layouts = layouts.into_iter().filter_map(|pair| {
        let [_, right] = asked::halves(&pair.text)?;
        Some([right.to_vec(), right.to_vec()])
    });
    let relaid = (0..MUTATED_RELAID).map(|case| {
        let pair = Relaid::any(&mut Random::of_case(seed(), case), 60);
        [pair.left.text(), pair.right.text()]
    });
    samples.chain(layouts).chain(relaid).collect()
}

/// One gate changed: a pattern shows it, or there is a proof that it does not matter.
#[test]
fn mutated_lists_are_told_apart() {
    let [mut ways, mut answers] = [(); 2].map(|()| Tally::default());
    for (number, [left, right]) in (0..).zip(to_be_mutated()) {
        let right = list_of(&read_list(&right).expect("a sample is read"));
        for case in MUTATIONS * number..MUTATIONS * (number + 1) {
            let mut random = Random::of_case(seed(), case);
            let (way, right) = mutated(&mut random, &right);
            let text = [left.clone(), right.text()].concat();
            let asked = truly(case, way, &text);
            ways.count(way.into());
            answers.count(asked.name());
        }
    }
    ways.finish("mutations", 90 * MUTATIONS, &WAYS.map(String::from));
    let wanted = [PROVED, DIFFERS].map(String::from);
    let possible = [PROVED, PROVED_BEYOND, DIFFERS].map(String::from);
    answers.finish_within("mutations", 90 * MUTATIONS, &wanted, &possible);
    answers.often("mutations", MUTATIONS, &wanted);
}
