//! The archive's evaluator against the reference: the whole reply, and every byte of the working
//! memory. Each failure prints the seed, the case and its bytes.

mod common;
mod judge;

use cec_archive::evaluate;
use common::lists::{List, Shape, LARGEST};
use common::random::{seed, Random};
use common::tally::Tally;
use common::{expected, hex, list_texts, places, samples};

const CASES: u64 = 200_000;
const SAMPLE_PATTERNS: u64 = 4_000;
const LARGE_CASES: u64 = 500;

/// The working bytes that suffice for every list.
const ENOUGH: usize = 1 + 64 + 1_024;

/// Evaluates with both, and compares all that they leave. Gives the reply.
fn compare(case: u64, about: &str, text: &[u8], pattern: u64, length: usize) -> [u64; 3] {
    let mut random = Random::of_case(seed(), case ^ ((length as u64) << 32));
    judge::evaluate(&mut random, text, pattern, length).unwrap_or_else(|fault| {
        let (seed, bytes, text) = (seed(), text.len(), hex(text));
        let about = format!("seed {seed:#X}, case {case} ({about}), {length} working bytes");
        panic!("{fault}: {about}, pattern {pattern:016X}, {bytes} bytes {text}")
    })
}

/// The word of a list that is evaluated in just enough bytes.
fn word(case: u64, about: &str, text: &[u8], pattern: u64) -> u64 {
    let needed = needed(text).expect("the list is read");
    let [number, line, word] = compare(case, about, text, pattern, needed);
    assert_eq!((number, line), (0, 0), "{about}");
    word
}

/// The working bytes that the text's list needs, if it is read.
fn needed(text: &[u8]) -> Option<usize> {
    let [refusal, _, inputs, gates, _] = expected::list_reading(text);
    (refusal == 0).then_some((1 + inputs + gates) as usize)
}

/// A pattern of one of the sorts that an evaluator could get wrong. Bits from the number of inputs
/// up are often set.
fn any_pattern(random: &mut Random, inputs: usize) -> u64 {
    let bit = 1 << random.below(64);
    let last_input = 1 << inputs.saturating_sub(1);
    let ignored = u64::MAX.checked_shl(inputs as u32).unwrap_or(0);
    let word = random.word();
    random.pick(&[
        word,
        word,
        word | ignored,
        word & !ignored,
        ignored,
        !ignored,
        u64::MAX,
        0,
        bit,
        !bit,
        last_input,
    ])
}

/// A length: around what the list needs, or any if there is no list.
fn any_length(random: &mut Random, needed: Option<usize>) -> usize {
    let any = random.below(2 * ENOUGH);
    match needed {
        Some(needed) => {
            let less = random.below(needed);
            let more = needed + random.below(100);
            random.pick(&[
                0,
                less,
                needed - 1,
                needed,
                needed,
                needed,
                needed + 1,
                more,
                any.max(needed),
            ])
        }
        None => random.pick(&[0, 1, 2, any % 70, ENOUGH, any]),
    }
}

fn outcome(reply: [u64; 3], text: &[u8], length: usize) -> String {
    let needed = needed(text).unwrap_or(usize::MAX);
    let about_length = if length == 0 {
        "in no bytes"
    } else if length + 1 == needed {
        "in a byte too few"
    } else if length < needed {
        "in too few bytes"
    } else if length == needed {
        "in just enough bytes"
    } else {
        "in more bytes"
    };
    match reply {
        [0, ..] => format!("evaluated {about_length}"),
        [17, ..] => format!("17 {about_length}"),
        [number, line, ..] => places::refusal(text, number, line, places::ONE),
    }
}

/// Every outcome of a text that is one list.
fn length_outcomes() -> [String; 5] {
    [
        "evaluated in just enough bytes",
        "evaluated in more bytes",
        "17 in no bytes",
        "17 in a byte too few",
        "17 in too few bytes",
    ]
    .map(String::from)
}

/// Every outcome of any text.
fn outcomes() -> Vec<String> {
    let lengths = length_outcomes().into_iter();
    lengths.chain(places::refusals(places::ONE)).collect()
}

/// Replies written by hand from the paper, so that an error shared by both sides is seen too.
#[test]
fn replies_by_hand() {
    // Inputs a and b; outputs AND, XOR, and both with the first operand complemented.
    let gates = b"0102000404\n0200020004\n0300020004\n0200030004\n0300030004\n\
        040006\n040008\n04000A\n04000C\n";
    let cases: [(&[u8], u64, usize, [u64; 3]); 18] = [
        (gates, 0b00, 7, [0, 0, 0b1000]),
        (gates, 0b01, 7, [0, 0, 0b0010]),
        (gates, 0b10, 7, [0, 0, 0b0110]),
        (gates, 0b11, 7, [0, 0, 0b1001]),
        (gates, !0b11, 7, [0, 0, 0b1000]),
        (gates, u64::MAX, 8, [0, 0, 0b1001]),
        (gates, 0b11, 6, [17, 0, 0]),
        (gates, 0b11, 0, [17, 0, 0]),
        (b"0100000002\n040000\n040001\n", u64::MAX, 1, [0, 0, 0b10]),
        (b"0101000001\n040002\n", 1, 2, [0, 0, 1]),
        (b"0101000001\n040003\n", 2, 2, [0, 0, 1]),
        (b"", 0, 0, [4, 1, 0]),
        (b"0101000001\n040002", 1, 0, [2, 2, 0]),
        (b"0101000001\n0200020002\n", 1, 0, [3, 2, 0]),
        (b"0101000001\n040002\n\n", 1, 1, [3, 3, 0]),
        (b"0101000001\n040002\n0102000001\n", 1, 1, [3, 3, 0]),
        (b"0141000001\n040002\n", 1, 1, [5, 1, 0]),
        (b"0101000001\n040004\n", 1, 1, [7, 2, 0]),
    ];
    for (text, pattern, length, reply) in cases {
        let mut work = vec![0xA5; length];
        let replied = evaluate(text, pattern, &mut work);
        assert_eq!(replied, reply, "{:?}", text.escape_ascii());
        assert_eq!(work, vec![0; length], "{:?}", text.escape_ascii());
    }
    eprintln!("replies by hand: {} cases", cases.len());
}

/// P8 to P10 as the evaluator's text.
#[test]
fn samples_p8_to_p10() {
    let in_enough = |text: &str| {
        let mut work = [0xA5; ENOUGH];
        let reply = evaluate(text.as_bytes(), 0, &mut work);
        assert_eq!(work, [0; ENOUGH]);
        reply
    };
    let gates = |count: usize| "0200010001\n".repeat(count);
    assert_eq!(in_enough("0140000001\n040081\n"), [0, 0, 1]);
    assert_eq!(in_enough("0141000001\n040081\n"), [5, 1, 0]);
    assert_eq!(in_enough("0101000000\n"), [5, 1, 0]);
    let last_of_1024 = format!("0101040001\n{}040802\n", gates(1_024));
    assert_eq!(in_enough(&last_of_1024), [0, 0, 1]);
    let last_of_1025 = format!("0101040101\n{}040804\n", gates(1_025));
    assert_eq!(in_enough(&last_of_1025), [5, 1, 0]);
    assert_eq!(in_enough("0101000101\n0200030003\n040004\n"), [0, 0, 1]);
    assert_eq!(in_enough("0101000101\n0200040003\n040004\n"), [7, 2, 0]);
    assert_eq!(in_enough(""), [4, 1, 0]);
    eprintln!("P8 to P10: 8 cases");
}

#[test]
fn texts_are_evaluated_alike() {
    let mut tally = Tally::default();
    let mut refused = Tally::default();
    let mut shown = [0, 0];
    for case in 0..CASES {
        let mut random = Random::of_case(seed(), case);
        let (about, text) = list_texts::any(&mut random, 1);
        let [refusal, _, inputs, _, outputs] = expected::list_reading(&text);
        let pattern = any_pattern(&mut random, inputs as usize);
        let length = any_length(&mut random, needed(&text));
        let reply = compare(case, &about, &text, pattern, length);
        tally.count(outcome(reply, &text, length));
        if refusal != 0 {
            let work = if length == 0 { "no bytes" } else { "bytes" };
            refused.count(format!("{refusal} with {work}"));
        }
        if reply[0] == 0 && outputs == 64 {
            shown[0] |= !reply[2];
            shown[1] |= reply[2];
        }
    }
    tally.finish("evaluations", 100_000, &outcomes());
    let lengths = ["no bytes", "bytes"];
    let numbers = [2, 3, 4, 5, 7].into_iter();
    let wanted: Vec<String> = numbers
        .flat_map(|number| lengths.map(|work| format!("{number} with {work}")))
        .collect();
    refused.finish("texts refused", 50_000, &wanted);
    assert_eq!(shown, [u64::MAX; 2], "an output was never 0, or never 1");
}

/// Lists of 64 inputs, many gates and 64 outputs, on a few patterns each. Both values are often
/// shown: lists whose outputs were nearly all 0 or all 1 would say little.
#[test]
fn large_lists_are_evaluated_alike() {
    let mut ones = 0;
    for case in 0..LARGE_CASES {
        let mut random = Random::of_case(seed(), case);
        let shape = Shape {
            gates: random.pick(&[100, 1_023, 1_024]),
            ..LARGEST
        };
        let text = List::random(&mut random, shape).text();
        for _ in 0..4 {
            let pattern = any_pattern(&mut random, shape.inputs);
            ones += word(case, "large list", &text, pattern).count_ones();
        }
    }
    eprintln!("large lists: {} cases, {ones} ones", 4 * LARGE_CASES);
    let bits = 4 * 64 * LARGE_CASES as u32;
    assert!(ones > bits / 4 && ones < 3 * bits / 4);
}

/// Every working length from none to more than enough.
#[test]
fn every_working_length_is_answered_alike() {
    let mut tally = Tally::default();
    let lists: [(usize, usize); 5] = [(0, 0), (1, 0), (0, 1), (5, 7), (64, 40)];
    for (case, (inputs, gates)) in (0..).zip(lists) {
        let mut random = Random::of_case(seed(), case);
        let shape = Shape {
            inputs,
            gates,
            outputs: 3,
        };
        let text = List::random(&mut random, shape).text();
        for length in 0..shape.nets() + 70 {
            let reply = compare(case, "every length", &text, random.word(), length);
            tally.count(outcome(reply, &text, length));
        }
    }
    let text = List::random(&mut Random::of_case(seed(), 0), LARGEST).text();
    for length in [0, 64, 65, 255, 256, 1_088, 1_089, 1_090, 65_535, 65_536] {
        let reply = compare(0, "largest", &text, u64::MAX, length);
        tally.count(outcome(reply, &text, length));
    }
    tally.finish("working lengths", 400, &length_outcomes());
}

/// Each output shows one input or its complement: the word is the pattern, rearranged.
#[test]
fn wires_give_the_pattern() {
    let mut cases = 0;
    for inputs in 0..=64 {
        let header = format!("01{inputs:02X}000040\n");
        let outputs = |shown: &dyn Fn(usize) -> usize| {
            let outputs = (1..=64).map(|output| format!("04{:04X}\n", shown(output)));
            header.clone() + &outputs.collect::<String>()
        };
        let same = outputs(&|output| if output > inputs { 0 } else { 2 * output });
        let complemented = outputs(&|output| 1 + if output > inputs { 0 } else { 2 * output });
        let inputs_mask = u64::MAX.checked_shr(64 - inputs as u32).unwrap_or(0);
        let mut random = Random::of_case(seed(), inputs as u64);
        let singles = (0..64).map(|place| 1 << place);
        let mixed: Vec<u64> = (0..16).map(|_| random.word()).collect();
        for pattern in singles.chain(mixed).chain([0, u64::MAX]) {
            let seen = pattern & inputs_mask;
            let shown = word(cases, "wires", same.as_bytes(), pattern);
            assert_eq!(shown, seen, "{inputs} inputs, pattern {pattern:016X}");
            let shown = word(cases, "complements", complemented.as_bytes(), pattern);
            assert_eq!(shown, !seen, "{inputs} inputs, pattern {pattern:016X}");
            cases += 1;
        }
    }
    eprintln!("wires: {cases} patterns");
}

/// Every number of outputs, all of them true.
#[test]
fn bits_past_the_last_output_are_0() {
    for outputs in 1..=64 {
        let text = format!("01000000{outputs:02X}\n{}", "040001\n".repeat(outputs));
        let wanted = u64::MAX >> (64 - outputs);
        assert_eq!(word(0, "all true", text.as_bytes(), u64::MAX), wanted);
    }
    eprintln!("all true: 64 cases");
}

/// A pattern for a sample: any, or one with up to three bits unlike the guard's own.
fn sample_pattern(random: &mut Random) -> u64 {
    if random.one_in(2) {
        return any_pattern(random, 58);
    }
    let flips = random.below(4);
    (0..flips).fold(samples::GUARD_PATTERN, |pattern, _| {
        pattern ^ 1 << random.below(64)
    })
}

/// The adder's inputs are two numbers of 16 bits and a carry; its outputs are their sum.
#[test]
fn the_sample_adder_adds() {
    let text = samples::text(samples::ADDER);
    for case in 0..SAMPLE_PATTERNS {
        let pattern = any_pattern(&mut Random::of_case(seed(), case), 33);
        let sum = (pattern & 0xFFFF) + (pattern >> 16 & 0xFFFF) + (pattern >> 32 & 1);
        let shown = word(case, "adder", &text, pattern);
        assert_eq!(shown, sum, "seed {:#X}, pattern {pattern:016X}", seed());
    }
    eprintln!("adder: {SAMPLE_PATTERNS} patterns");
}

#[test]
fn the_sample_guards_agree() {
    let guards = [
        samples::GUARD_OLD,
        samples::GUARD_NEW,
        samples::GUARD_RESYNTHESISED,
    ];
    let guards = guards.map(samples::text);
    let mut shown = [0, 0];
    for case in 0..SAMPLE_PATTERNS {
        let pattern = sample_pattern(&mut Random::of_case(seed(), case));
        let words = [0, 1, 2].map(|guard| word(case, "guard", &guards[guard], pattern));
        assert_eq!(
            words,
            [words[0]; 3],
            "seed {:#X}, pattern {pattern:016X}",
            seed()
        );
        shown[0] |= !words[0] & 0xFFF;
        shown[1] |= words[0];
    }
    assert_eq!(shown, [0xFFF; 2], "an output was never 0, or never 1");
    eprintln!("guards: {SAMPLE_PATTERNS} patterns");
}

/// On the odd pattern, and on none of those with one or two inputs changed.
#[test]
fn the_altered_guard_differs_on_one_pattern() {
    let old = samples::text(samples::GUARD_OLD);
    let altered = samples::text(samples::GUARD_ONE_PATTERN);
    let differing = |case, pattern| {
        let [old, altered] = [&old, &altered].map(|text| word(case, "guard", text, pattern));
        old ^ altered
    };
    assert_eq!(differing(0, samples::ODD_PATTERN), 0b100);
    let mut cases = 0;
    for first in 0..58 {
        for second in 0..=first {
            let changed = 1 << first | 1 << second;
            cases += 1;
            assert_eq!(differing(cases, samples::ODD_PATTERN ^ changed), 0);
        }
    }
    eprintln!("altered guard: {cases} patterns around the one");
}
