//! The archive's checker against the reference: the whole reply, and every number of the store.
//! Each failure prints the seed, the case and its bytes.

mod common;
mod judge;

use cec_archive::{check, evaluate};
use cec_reference::read_lists;
use cec_reference::sample::PROOF;
use common::extensions::{all_variables, refute_smallest, EXTENSIONS};
use common::lists::{List, LARGEST};
use common::pairs::MOST_INPUTS;
use common::proof_texts::{self, bench, bench_from, proof_behind, ProofText, P5};
use common::proofs::{Proof, Step};
use common::random::{seed, Random};
use common::sizes::{EIGHT, MOST_CLAUSES};
use common::tally::{outcomes, Tally};
use common::{hex, patterns, samples};

/// How many proofs there are, and how many texts are made of each.
const PROOFS: u64 = 50_000;
const TEXTS: u64 = 8;

/// How many texts have lists of any size.
const LIST_CASES: u64 = 60_000;

/// What the steps of whole proofs and a known fault can show.
const SHOWN: [&str; 10] = [
    "one clause as both operands",
    "a tautology",
    "the pivot left in a sign",
    "eight literals",
    "at most eight once equal ones are joined",
    "an empty clause",
    "a step behind the empty clause",
    "an extension over one variable twice",
    "an extension over an extension",
    "a fault behind the empty clause",
];

/// Checks with both, and compares all that they leave. Gives the reply.
fn compare(case: u64, about: &str, text: &[u8], length: usize) -> [u64; 4] {
    let mut random = Random::of_case(seed(), case ^ ((length as u64) << 32));
    judge::check(&mut random, text, length).unwrap_or_else(|fault| {
        let (seed, bytes, text) = (seed(), text.len(), hex(text));
        let about = format!("seed {seed:#X}, case {case} ({about}), {length} store numbers");
        panic!("{fault}: {about}, {bytes} bytes {text}")
    })
}

/// A length around what the text needs, or any if its lists are refused.
fn any_length(random: &mut Random, text: &ProofText) -> usize {
    let any = random.below(400);
    let Some(miter) = text.miter else {
        return random.pick(&[0, 7, 8, any, 8 * any]);
    };
    let between = miter + random.below(text.clauses - miter + 1);
    let (miter, enough) = (EIGHT * miter, EIGHT * text.clauses);
    let less = random.below(miter);
    if random.one_in(2) {
        return random.pick(&[enough, enough + 7, enough + any, enough + 1_000]);
    }
    random.pick(&[
        less,
        0,
        miter - 1,
        miter,
        miter,
        EIGHT * between,
        EIGHT * between + 7,
        enough - EIGHT,
        enough - 1,
        enough,
    ])
}

/// What the length has to do with the reply, for a text whose miter has so many clauses.
fn length_outcome(reply: [u64; 4], text: &ProofText, length: usize) -> Option<String> {
    let (miter, enough) = (EIGHT * text.miter?, EIGHT * text.clauses);
    let outcome = match (reply[0], length) {
        (0, _) if length == enough => "accepted in just enough",
        (0, _) if length < enough + EIGHT => "accepted with less than a clause more",
        (0, _) => "accepted in more",
        (8, 0) => "8 in none",
        (8, _) if length + 1 == miter => "8 in a number too few",
        (8, _) => "8 in too few",
        (14, _) if length == miter => "14 in just enough for the miter",
        (14, _) if length + 1 == enough => "14 in a number too few",
        (14, _) if length + EIGHT == enough => "14 in a clause too few",
        (14, _) => "14 in too few",
        (15, _) if length == miter => "15 in just enough for the miter",
        _ => return None,
    };
    Some(outcome.into())
}

/// Every outcome that `length_outcome` names.
fn length_outcomes() -> [String; 11] {
    [
        "accepted in just enough",
        "accepted with less than a clause more",
        "accepted in more",
        "8 in none",
        "8 in a number too few",
        "8 in too few",
        "14 in just enough for the miter",
        "14 in a number too few",
        "14 in a clause too few",
        "14 in too few",
        "15 in just enough for the miter",
    ]
    .map(String::from)
}

/// What the cases of a test reached.
#[derive(Default)]
struct Reached {
    /// Each refusal number, and acceptance as 0.
    numbers: Tally,
    /// How the store's length mattered.
    lengths: Tally,
    /// The texts whose reply was known in advance, and what their steps showed.
    known: Tally,
    shown: Tally,
    /// Pairs whose proof was accepted and all of whose patterns were tried, by their inputs.
    agreeing: Tally,
    /// The last such pair: the texts of one proof stand one behind the other.
    tried: Vec<u8>,
}

impl Reached {
    /// Compares in some length, holds the reply against what is known, and counts.
    fn compare(&mut self, random: &mut Random, case: u64, text: &ProofText) {
        let length = any_length(random, text);
        let reply = compare(case, &text.about, &text.text, length);
        self.numbers.count(reply[0].to_string());
        if let Some(outcome) = length_outcome(reply, text, length) {
            self.lengths.count(outcome);
        }
        if let Some(expected) = text.expected.filter(|_| length >= EIGHT * text.clauses) {
            let (seed, about) = (seed(), &text.about);
            assert_eq!(
                reply[..2],
                expected,
                "seed {seed:#X}, case {case} ({about})"
            );
            self.known.count(about.clone());
            for &shown in &text.shown {
                self.shown.count(shown.into());
            }
        }
        if reply[0] == 0 {
            self.try_patterns(case, lists_of(&text.text));
        }
    }

    /// Evaluates the lists of an accepted proof on all patterns: they agree.
    fn try_patterns(&mut self, case: u64, lists: &[u8]) {
        let (left, right) = read_lists(lists).expect("the lists were read");
        if left.inputs() > MOST_INPUTS || self.tried == lists {
            return;
        }
        for (pattern, [left_word, right_word]) in patterns::words(&left, &right) {
            assert_eq!(left_word, right_word, "seed {:#X}, case {case}", seed());
            if case.is_multiple_of(16) {
                archive_agrees(lists, pattern, left_word);
            }
        }
        self.agreeing.count(patterns::inputs_of(left.inputs()));
        self.tried = lists.to_vec();
    }
}

/// The lists of an accepted text: what stands before the first proof line.
fn lists_of(text: &[u8]) -> &[u8] {
    let lines = text.split_inclusive(|&byte| byte == b'\n');
    let lists = lines.take_while(|line| !line.starts_with(b"1"));
    &text[..lists.map(<[u8]>::len).sum()]
}

/// Both lists have this word, evaluated by the archive.
fn archive_agrees(lists: &[u8], pattern: u64, word: u64) {
    let header = lists.windows(3).rposition(|bytes| bytes == b"\n01");
    let right = header.expect("there is a right header") + 1;
    for list in [&lists[..right], &lists[right..]] {
        let mut work = [0xA5; 128];
        assert_eq!(evaluate(list, pattern, &mut work), [0, 0, word]);
    }
}

/// The store after acceptance, or all zeros, as the call has to leave it.
fn stored(text: &str, length: usize) -> ([u64; 4], Vec<u16>) {
    let mut store = vec![0xA5A5; length];
    let reply = check(text.as_bytes(), &mut store);
    if reply[0] != 0 {
        assert_eq!(store, vec![0; length], "{text:?}");
    }
    (reply, store)
}

#[track_caller]
fn replies(text: &str, length: usize, reply: [u64; 4]) {
    assert_eq!(stored(text, length).0, reply, "{length} in {text:?}");
}

/// P1, with each number of the store.
#[test]
fn sample_p1_is_accepted() {
    let clauses: [&[u16]; 13] = [
        &[2],
        &[3, 6],
        &[3, 6],
        &[4, 5],
        &[3, 5, 8],
        &[4, 5, 7],
        &[3, 6, 7],
        &[4, 6, 8],
        &[7],
        &[3, 8],
        &[4, 8],
        &[8],
        &[],
    ];
    for length in [104, 105, 111, 112, 2_000] {
        let (reply, store) = stored(&bench(&PROOF), length);
        assert_eq!(reply, [0, 0, 4, 13]);
        let mut wanted = vec![0; length];
        for (place, clause) in wanted.chunks_mut(EIGHT).zip(clauses) {
            place[..clause.len()].copy_from_slice(clause);
        }
        assert_eq!(store, wanted);
    }
}

/// P2 to P4 and P6, and their neighbours.
#[test]
fn samples_p2_to_p6() {
    let enough = 104;
    replies(&bench(&PROOF[..3]), enough, [15, 0, 0, 0]);
    replies(&bench(&[]), enough, [15, 0, 0, 0]);
    replies(&bench_from("11000500020001\n"), enough, [10, 6, 0, 0]);
    for pivot in ["0000", "0003", "0004", "4002", "8002", "C002", "FFFF"] {
        let step = format!("1100050002{pivot}\n");
        replies(&bench_from(&step), enough, [10, 6, 0, 0]);
    }
    for clause in ["0000", "000A", "000B", "0105", "8005", "FFFF"] {
        let first = format!("11{clause}00020002\n");
        replies(&bench_from(&first), enough, [9, 6, 0, 0]);
        let second = format!("110005{clause}0002\n");
        replies(&bench_from(&second), enough, [9, 6, 0, 0]);
    }
    replies(&bench_from("11000900020002\n"), enough, [10, 6, 0, 0]);
    for length in 0..120 {
        let reply = match length / 8 {
            0..=8 => [8, 0, 0, 0],
            clauses @ 9..=12 => [14, clauses as u64 - 3, 0, 0],
            _ => [0, 0, 4, 13],
        };
        replies(&bench(&PROOF), length, reply);
    }
    eprintln!("P2 to P4 and P6: 143 cases");
}

/// An empty clause does not end a proof: every line behind it has to be valid, and the last to be
/// such a resolve again.
#[test]
fn an_empty_clause_does_not_end_the_proof() {
    let bench = bench(&PROOF);
    let enough = 8 * 15;
    replies(&format!("{bench}{}", PROOF[0]), enough, [15, 0, 0, 0]);
    replies(&format!("{bench}1200020004\n"), 8 * 16, [15, 0, 0, 0]);
    let again = format!("{bench}{}{}", PROOF[0], PROOF[3]);
    replies(&again, enough, [0, 0, 6, 15]);
    let faults = [
        ("110009000C000G\n", 2),
        ("110009000C0003", 2),
        ("\n", 3),
        ("040002\n", 3),
        ("210000000000000000\n", 3),
        ("110009000E0003\n", 9),
        ("11000D000D0000\n", 10),
        ("1200080000\n", 12),
        ("1200020004\n", 14),
    ];
    for (line, number) in faults {
        replies(&format!("{bench}{line}"), enough, [number, 10, 0, 0]);
    }
}

/// P5: clause 14 is what clauses 3 and 11 give.
#[test]
fn sample_p5_keeps_the_other_sign() {
    let (reply, store) = stored(P5, 8 * 19);
    assert_eq!(reply, [0, 0, 7, 19]);
    let clause = |number: usize| &store[8 * (number - 1)..8 * number];
    assert_eq!(clause(3), [3, 4, 5, 0, 0, 0, 0, 0]);
    assert_eq!(clause(11), [4, 10, 0, 0, 0, 0, 0, 0]);
    assert_eq!(clause(14), [4, 5, 10, 0, 0, 0, 0, 0]);
}

/// Random proofs of small pairs, each as several texts: whole, ended otherwise, or with a fault.
#[test]
fn proofs_are_checked_alike() {
    let mut reached = Reached::default();
    for number in 0..PROOFS {
        let mut random = Random::of_case(seed(), number);
        let proof = proof_texts::any_proof(&mut random);
        for made in 0..TEXTS {
            let text = proof_texts::any(&mut random, &proof);
            reached.compare(&mut random, TEXTS * number + made, &text);
        }
    }
    // 13 needs thousands of lines, and 5 to 7 are left to the lists of any size.
    let often = outcomes(&[0, 2, 3, 4, 8, 9, 10, 11, 12, 14, 15]);
    let all = [often.clone(), outcomes(&[5, 6, 7])].concat();
    let test = "texts of proofs";
    reached.numbers.finish_within(test, 200_000, &often, &all);
    reached.numbers.often(test, 500, &often);
    let test = "lengths of the store";
    reached.lengths.finish(test, 100_000, &length_outcomes());
    reached.lengths.often(test, 1_000, &length_outcomes());
    let test = "replies known in advance";
    let known = proof_texts::known();
    reached.known.finish(test, 100_000, &known);
    reached.known.often(test, 1_000, &known);
    let test = "shown by them";
    let shown = SHOWN.map(String::from);
    reached.shown.finish(test, 100_000, &shown);
    reached.shown.often(test, 1_000, &shown);
    let inputs: Vec<String> = (0..=MOST_INPUTS).map(patterns::inputs_of).collect();
    reached.agreeing.finish("agreeing pairs", 10_000, &inputs);
}

/// Lines behind lists of any size, most of which are damaged.
#[test]
fn lines_behind_any_lists_are_checked_alike() {
    let mut reached = Reached::default();
    for case in 0..LIST_CASES {
        let mut random = Random::of_case(seed(), case);
        let text = proof_texts::behind_any_lists(&mut random);
        reached.compare(&mut random, case, &text);
    }
    let numbers = outcomes(&[2, 3, 4, 5, 6, 7, 8, 9, 10, 12, 14, 15]);
    // Random steps over most miters refute nothing, and make no long clauses.
    let possible = [numbers.clone(), outcomes(&[0, 11])].concat();
    let test = "lines behind any lists";
    let cases = LIST_CASES;
    reached
        .numbers
        .finish_within(test, cases, &numbers, &possible);
}

/// Every length of the store from none to more than enough.
#[test]
fn every_length_is_answered_alike() {
    let mut tally = Tally::default();
    for case in 0..40 {
        let mut random = Random::of_case(seed(), case);
        let proof = proof_texts::any_proof(&mut random);
        let text = proof.text(&proof.lines());
        for length in 0..EIGHT * (proof.clauses.len() + 3) {
            let [number, ..] = compare(case, "every length", &text, length);
            tally.count(number.to_string());
        }
    }
    tally.finish("every length", 10_000, &outcomes(&[0, 8, 14, 15]));
}

/// A proof cut at every byte, and with every byte in turn at each place.
#[test]
fn every_byte_and_every_cut_is_checked_alike() {
    let mut tally = Tally::default();
    // The extension by AND has one clause less than one by XOR, for which there is no space.
    let text = bench(&[&PROOF.concat(), "1200070006\n", PROOF[3]]).into_bytes();
    let enough = EIGHT * 17;
    for place in 0..text.len() {
        let [number, ..] = compare(place as u64, "cut", &text[..place], enough);
        tally.count(number.to_string());
        for byte in 0..=255 {
            let mut text = text.clone();
            text[place] = byte;
            let [number, ..] = compare(byte.into(), "one byte set", &text, enough);
            tally.count(number.to_string());
        }
    }
    let numbers = outcomes(&[0, 2, 3, 4, 5, 6, 7, 9, 10, 12, 14, 15]);
    let test = "every byte and every cut";
    tally.finish(test, 257 * text.len() as u64, &numbers);
}

/// The largest lists, in stores around the miter's clauses, with a few steps and one fault.
#[test]
fn the_largest_lists_are_checked_alike() {
    let mut tally = Tally::default();
    for case in 0..24 {
        let mut random = Random::of_case(seed(), case);
        let lists = [(); 2].map(|()| List::random(&mut random, LARGEST).text());
        let mut proof = Proof::of(lists.concat()).expect("the lists are read");
        for _ in 0..300 {
            proof.take_random(&mut random);
        }
        let text = proof_texts::any(&mut random, &proof);
        let (miter, enough) = (EIGHT * proof.miter, EIGHT * text.clauses);
        for length in [0, miter - 1, miter, enough - 1, enough, enough + 1_000] {
            let [number, ..] = compare(case, &text.about, &text.text, length);
            tally.count(number.to_string());
        }
    }
    let numbers = outcomes(&[2, 3, 4, 5, 6, 7, 8, 9, 10, 11, 12, 14, 15]);
    let reached = outcomes(&[8, 9, 14, 15]);
    tally.finish_within("the largest lists", 100, &reached, &numbers);
}

/// Compares in stores of the most clauses, and of more numbers than that, and gives the reply.
fn compare_in_most(case: u64, about: &str, text: &[u8]) -> [u64; 4] {
    let most = EIGHT * MOST_CLAUSES;
    let longer = most + EIGHT + 1 + Random::of_case(seed(), case).below(1_000);
    let replies = [most, most + EIGHT, longer].map(|length| compare(case, about, text, length));
    assert_eq!(replies, [replies[0]; 3]);
    replies[0]
}

/// Variables up to 16,383 and clauses up to 65,535. XORs alone leave space for one clause, and an
/// AND in the place of one for two.
#[test]
fn variables_and_clauses_end_alike() {
    let last_line = 4 + EXTENSIONS as u64;
    for case in 0..4 {
        let mut random = Random::of_case(seed(), case);
        let full = all_variables(&mut random, 0);
        let with = |steps: &[&str]| [full.text(&full.lines()), steps.concat().into()].concat();
        let compare = |about: &str, steps: &[&str]| compare_in_most(case, about, &with(steps));
        assert_eq!(compare("all variables", &[]), [15, 0, 0, 0]);
        // The variable 16,384 is neither there to be made nor to be used.
        let one_more = [13, last_line + 1, 0, 0];
        assert_eq!(compare("one more", &["1200020000\n"]), one_more);
        assert_eq!(compare("one more", &["13FFFE7FFF\n"])[0], 12);
        assert_eq!(compare("one more", &["137FFE7FFF\n"]), one_more);
        assert_eq!(compare("used", &["1200008000\n"])[0], 12);
        // With no space left, 13 still comes before 14.
        let fill = "11000600020001\n";
        let no_space = last_line + 2;
        assert_eq!(compare("full", &[fill]), [15, 0, 0, 0]);
        assert_eq!(compare("full", &[fill, fill]), [14, no_space, 0, 0]);
        let one_more = [13, no_space, 0, 0];
        assert_eq!(compare("full", &[fill, "1300000000\n"]), one_more);
        let mut proof = all_variables(&mut random, 1);
        refute_smallest(&mut proof);
        let reply = compare_in_most(case, "refuted", &proof.text(&proof.lines()));
        assert_eq!(reply, [0, 0, 16_384, 65_535]);
    }
}

/// Steps over the last variables: literals up to 32,767, stored as 32,768.
#[test]
fn the_last_variables_are_resolved_alike() {
    for case in 0..8 {
        let mut random = Random::of_case(seed(), case);
        let mut proof = all_variables(&mut random, EXTENSIONS - 1_000);
        // (¬x, y, n) and (¬x, ¬y, ¬n) of the last variable.
        let last = proof.clauses.len();
        let on_last = Step::resolve(last - 1, last, 16_383);
        proof.take(on_last).expect("it is valid");
        for _ in 0..2_000 {
            let pair = proof.random_pair(&mut random, proof.clauses.len());
            pair.and_then(|step| proof.take(step));
        }
        refute_smallest(&mut proof);
        let reply = compare_in_most(case, "last variables", &proof.text(&proof.lines()));
        assert_eq!(reply[0], 0);
    }
    eprintln!("the last variables: 8 cases");
}

/// Resolves alone, up to 65,535 clauses and one more.
#[test]
fn long_proofs_are_checked_alike() {
    for (fill, reply) in [
        (65_522, [0, 0, 65_526, 65_535]),
        (65_523, [14, 65_532, 0, 0]),
    ] {
        let text = proof_behind(fill);
        assert_eq!(compare_in_most(0, "long", text.as_bytes()), reply);
    }
}

/// Each pair of sample lists, with steps over its miter.
#[test]
fn sample_lists_are_checked_alike() {
    let mut tally = Tally::default();
    for (case, (about, lists, _)) in (0..).zip(samples::pairs()) {
        let [number, ..] = compare(case, &about, &lists, EIGHT * MOST_CLAUSES);
        tally.count(number.to_string());
        let Some(mut proof) = Proof::of(lists) else {
            continue;
        };
        let mut random = Random::of_case(seed(), case);
        for _ in 0..500 {
            proof.take_random(&mut random);
        }
        let text = proof.text(&proof.lines());
        let enough = EIGHT * proof.clauses.len();
        for length in [EIGHT, enough - 1, enough, enough + 9] {
            let [number, ..] = compare(case, &about, &text, length);
            tally.count(number.to_string());
        }
    }
    tally.finish("pairs of sample lists", 29, &outcomes(&[6, 8, 14, 15]));
}
