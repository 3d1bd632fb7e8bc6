//! The archive's engine against the reference: refusal and line, every working number, and every
//! byte behind the proof's lines. The lines themselves are free: both checkers have to accept them.
//! Each failure prints the seed, the case and its bytes.

mod common;
mod judge;

use cec_reference::read_lists;
use cec_reference::sample::LISTS;
use common::list_texts::{self, over_two_inputs};
use common::lists::Shape;
use common::pairs::MOST_INPUTS;
use common::random::{seed, Random};
use common::rewrites::{self, Pair, SHOWN};
use common::sizes::{self, Lengths, Sizes};
use common::tally::{outcomes, Tally};
use common::{hex, patterns, places, samples};

const PAIRS: u64 = 200_000;
const LIST_CASES: u64 = 60_000;
const LARGE_CASES: u64 = 100;

/// What the pairs are, and what is said of them. One that is only rewritten is always proved, and
/// one with outputs complemented never.
const VERDICTS: [&str; 8] = [
    "rewritten: proved",
    "outputs complemented: 18",
    "a gate changed: proved",
    "a gate changed: 18",
    "unrelated lists: proved",
    "unrelated lists: 18",
    "lists that agree: proved",
    "lists that agree: 18",
];

fn any_lengths(random: &mut Random, sizes: Option<Sizes>) -> Lengths {
    let [proof, work] = match sizes.map(Sizes::needed) {
        Some(needed) => [needed.proof, needed.work].map(|needed| sizes::around(random, needed)),
        None => [(); 2].map(|()| random.pick(&[0, 1, 47, 420, 2_000])),
    };
    Lengths { proof, work }
}

/// One call, with all that a failure prints.
struct Call<'text> {
    case: u64,
    about: &'text str,
    text: &'text [u8],
    lengths: Lengths,
}

impl Call<'_> {
    fn fails(&self, what: &str) -> ! {
        let (seed, bytes, text) = (seed(), self.text.len(), hex(self.text));
        let (case, about, lengths) = (self.case, self.about, self.lengths);
        panic!("{what}: seed {seed:#X}, case {case} ({about}), {lengths:?}, {bytes} bytes {text}")
    }

    /// Proves with both, and compares all that they leave; the proof is accepted. Gives the reply.
    fn compare(&self) -> [u64; 3] {
        let Lengths { proof, work } = self.lengths;
        let mut random = Random::of_case(seed(), self.case ^ (((proof + work) as u64) << 32));
        let judged = judge::prove(&mut random, self.text, self.lengths);
        judged.unwrap_or_else(|fault| self.fails(&fault))
    }

    /// What the reply has to do with the lengths, or where the refusal falls due.
    fn outcome(&self, reply: [u64; 3]) -> String {
        let Some(sizes) = Sizes::of(self.text) else {
            return places::refusal(self.text, reply[0], reply[1], places::TWO);
        };
        let Lengths { proof, work } = sizes.needed();
        match reply[0] {
            0 if self.lengths == sizes.needed() => "proved in just enough".into(),
            0 => "proved in more".into(),
            16 => format!("16 in {} bytes", shortness(self.lengths.proof, proof)),
            17 => format!("17 in {} numbers", shortness(self.lengths.work, work)),
            number => {
                let output = places::which(reply[1], sizes.outputs as u64, "", "output");
                format!("{number} at {output}")
            }
        }
    }
}

fn shortness(length: usize, needed: usize) -> &'static str {
    match length {
        0 => "no",
        _ if length + 1 == needed => "one too few",
        _ => "too few",
    }
}

/// Every outcome of a text that is two lists.
fn pair_outcomes() -> Vec<String> {
    let outcomes = [
        "proved in just enough",
        "proved in more",
        "16 in no bytes",
        "16 in one too few bytes",
        "16 in too few bytes",
        "17 in no numbers",
        "17 in one too few numbers",
        "17 in too few numbers",
        "18 at the only output",
        "18 at the first output",
        "18 at the middle output",
        "18 at the last output",
    ];
    outcomes.map(String::from).into()
}

/// What the pairs of a test reached.
#[derive(Default)]
struct Reached {
    outcomes: Tally,
    /// What each pair is, and whether it was proved.
    pairs: Tally,
    /// What was done to keep the forms of a pair that was proved.
    shown: Tally,
    /// Pairs that were proved and all of whose patterns were tried, by their inputs.
    agreeing: Tally,
    /// Pairs that agree on all patterns, though their forms differ.
    unproved: Tally,
}

impl Reached {
    fn compare(&mut self, random: &mut Random, case: u64, pair: &Pair) {
        let text = pair.text();
        let sizes = Sizes::of(&text);
        let lengths = any_lengths(random, sizes);
        let call = Call {
            case,
            about: pair.about,
            text: &text,
            lengths,
        };
        let reply = call.compare();
        self.outcomes.count(call.outcome(reply));
        if [16, 17].contains(&reply[0]) {
            return;
        }
        if pair.expected.is_some_and(|known| known != reply[..2]) {
            call.fails(&format!(
                "the reply is {reply:?} and not {:?}",
                pair.expected
            ));
        }
        let verdict = if reply[0] == 0 { "proved" } else { "18" };
        self.pairs.count(format!("{}: {verdict}", pair.about));
        if reply[0] == 0 {
            for &shown in &pair.shown {
                self.shown.count(shown.into());
            }
        }
        self.try_patterns(&call, reply);
    }

    /// Evaluates both lists on all patterns, if they are few. Where they are proved, they agree.
    fn try_patterns(&mut self, call: &Call, reply: [u64; 3]) {
        let (left, right) = read_lists(call.text).expect("the lists were read");
        if left.inputs() > MOST_INPUTS {
            return;
        }
        let agree = patterns::words(&left, &right).all(|(_, [left, right])| left == right);
        match (reply[0], agree) {
            (0, true) => self.agreeing.count(patterns::inputs_of(left.inputs())),
            (0, false) => call.fails("the lists do not agree"),
            (_, true) => self.unproved.count("18, though they agree".into()),
            (_, false) => {}
        }
    }
}

/// The reply, and the lines with which both checkers accepted.
#[track_caller]
fn replies(text: &str, proof: usize, work: usize, reply: [u64; 2]) {
    let lengths = Lengths { proof, work };
    let call = Call {
        case: 0,
        about: "by hand",
        text: text.as_bytes(),
        lengths,
    };
    assert_eq!(call.compare()[..2], reply, "{lengths:?} in {text:?}");
}

/// The two lists in just enough memory.
#[track_caller]
fn replies_in_enough(text: &str, reply: [u64; 2]) {
    let sizes = Sizes::of(text.as_bytes()).expect("the lists are read");
    let Lengths { proof, work } = sizes.needed();
    replies(text, proof, work, reply);
}

/// P7, and its neighbours in working numbers: 16 × (1 + 1 + 1).
#[test]
fn sample_p7() {
    for (proof, work, reply) in [
        (420, 48, [0, 0]),
        (421, 49, [0, 0]),
        (4_000, 4_000, [0, 0]),
        (419, 48, [16, 0]),
        (0, 48, [16, 0]),
        (420, 47, [17, 0]),
        (420, 0, [17, 0]),
        (419, 47, [16, 0]),
        (0, 0, [16, 0]),
    ] {
        replies(LISTS, proof, work, reply);
    }
}

#[test]
fn sample_p11() {
    let and = ["0200020004", "040006"];
    replies_in_enough(&over_two_inputs(&and, &["0200040002", "040006"]), [0, 0]);
    replies_in_enough(&over_two_inputs(&and, &["0200040002", "040007"]), [18, 1]);
    replies_in_enough(&over_two_inputs(&and, &["0200040003", "040006"]), [18, 1]);
    let xor = ["0300020004", "040006"];
    for (gate, output, reply) in [
        ("0300030004", "040007", [0, 0]),
        ("0300030004", "040006", [18, 1]),
        ("0300040003", "040007", [0, 0]),
        ("0300030005", "040006", [0, 0]),
        ("0300050003", "040006", [0, 0]),
        ("0300050003", "040007", [18, 1]),
        ("0200020004", "040006", [18, 1]),
    ] {
        replies_in_enough(&over_two_inputs(&xor, &[gate, output]), reply);
    }
}

#[test]
fn sample_p12() {
    let ands = ["0200020005", "0200030004", "0200070009", "04000B"];
    let xor = ["0300020004", "040006"];
    replies_in_enough(&over_two_inputs(&ands, &xor), [18, 1]);
    replies_in_enough(&over_two_inputs(&xor, &ands), [18, 1]);
    replies_in_enough(&over_two_inputs(&ands, &ands), [0, 0]);
}

/// Each fault of the lists comes before 16, that before 17, and that before 18.
#[test]
fn faults_by_hand() {
    let unlike = "0101000001\n040002\n0101000001\n040003\n";
    replies(unlike, 180, 32, [18, 1]);
    replies(unlike, 180, 31, [17, 0]);
    replies(unlike, 179, 31, [16, 0]);
    let faults = [
        ("0101000001\n040002\n0101000001\n040002", [2, 4]),
        ("0101000001\n040002\n0101000001\n040002\n\n", [3, 5]),
        ("0101000001\n040002\n0101000001\n040002\nG", [2, 5]),
        ("", [4, 1]),
        ("0101000001\n040002\n", [4, 3]),
        ("0101000001\n040002\n0101040101\n", [5, 3]),
        ("0101000001\n040002\n0102000001\n", [6, 3]),
        ("0101000001\n040002\n0101000001\n040004\n", [7, 4]),
    ];
    for (text, reply) in faults {
        for length in [0, 1_000] {
            replies(text, length, length, reply);
        }
    }
}

/// Equal, opposite and constant operands: the form of each gate over one input a is known.
#[test]
fn folds_by_hand() {
    let [constant, input] = [[0, 1], [2, 3]];
    let fold = |kind: u8, x: usize, y: usize| match (kind, x.min(y), x.max(y)) {
        (2, 0, _) => constant[0],
        (2, 1, other) => other,
        (2, x, y) if x == y => x,
        (2, ..) => constant[0],
        (_, x, y) if x / 2 == y / 2 => x ^ y,
        (_, x, y) => input[0] ^ (x % 2) ^ (y % 2),
    };
    for (kind, x, y) in (0..32).map(|n| (2 + n / 16, n as usize / 4 % 4, n as usize % 4)) {
        for output in 0..4 {
            let gate = format!("0101000101\n{kind:02X}{x:04X}{y:04X}\n040004\n");
            let wire = format!("0101000001\n04{output:04X}\n");
            let same = fold(kind, x, y) == output;
            let reply = if same { [0, 0] } else { [18, 1] };
            replies_in_enough(&(gate.clone() + &wire), reply);
            replies_in_enough(&(wire + &gate), reply);
        }
    }
}

/// Random pairs of small lists.
#[test]
fn pairs_are_proved_alike() {
    let mut reached = Reached::default();
    for case in 0..PAIRS {
        let (pair, mut random) = rewrites::small(case);
        reached.compare(&mut random, case, &pair);
    }
    reached.outcomes.finish("pairs", PAIRS, &pair_outcomes());
    reached.outcomes.often("pairs", 500, &pair_outcomes());
    let verdicts = VERDICTS.map(String::from);
    reached.pairs.finish("kinds of pairs", 100_000, &verdicts);
    reached.pairs.often("kinds of pairs", 100, &verdicts);
    let shown = SHOWN.map(String::from);
    reached.shown.finish("proved after", 100_000, &shown);
    reached.shown.often("proved after", 10_000, &shown);
    let inputs: Vec<String> = (0..=MOST_INPUTS).map(patterns::inputs_of).collect();
    reached
        .agreeing
        .finish("proved and agreeing", 50_000, &inputs);
    let unproved = ["18, though they agree".into()];
    reached.unproved.finish("unproved", 100, &unproved);
}

/// Texts of lists of any size, most of which are damaged.
#[test]
fn texts_are_refused_alike() {
    let mut tally = Tally::default();
    for case in 0..LIST_CASES {
        let mut random = Random::of_case(seed(), case);
        let (about, text) = list_texts::any(&mut random, 2);
        let lengths = any_lengths(&mut random, Sizes::of(&text));
        let call = Call {
            case,
            about: &about,
            text: &text,
            lengths,
        };
        let reply = call.compare();
        tally.count(call.outcome(reply));
    }
    let refusals = places::refusals(places::TWO);
    let all = [refusals, pair_outcomes()].concat();
    tally.finish("texts", LIST_CASES, &all);
}

/// Pairs of up to 1,024 gates with 64 outputs: rewritten, and with outputs complemented.
#[test]
fn large_pairs_are_proved_alike() {
    let mut reached = Reached::default();
    for case in 0..LARGE_CASES {
        let mut random = Random::of_case(seed(), case);
        let gates = random.pick(&[600, 1_000, 1_024, 1_024]);
        let mut pair = rewrites::large(&mut random, gates);
        reached.compare(&mut random, case, &pair);
        pair.complement_outputs(&mut random);
        reached.compare(&mut random, case, &pair);
    }
    let verdicts = [VERDICTS[0], VERDICTS[1]].map(String::from);
    reached.pairs.finish("large pairs", LARGE_CASES, &verdicts);
    let shown = SHOWN.map(String::from);
    reached.shown.finish("large ones proved after", 1, &shown);
}

#[test]
fn long_proofs_are_accepted() {
    for kind in ["02", "03"] {
        replies_in_enough(&list_texts::linked(kind), [0, 0]);
    }
}

/// Every length of either memory from none to more than enough.
#[test]
fn every_length_is_answered_alike() {
    let mut tally = Tally::default();
    for case in 0..12 {
        let mut random = Random::of_case(seed(), case);
        let shape = Shape {
            inputs: random.below(4),
            gates: random.below(4),
            outputs: 1 + random.below(3),
        };
        let pair = Pair::any(&mut random, shape);
        let text = pair.text();
        let needed = Sizes::of(&text).expect("the lists are read").needed();
        let proofs = (0..needed.proof + 20).map(|proof| Lengths { proof, ..needed });
        let works = (0..needed.work + 20).map(|work| Lengths { work, ..needed });
        for lengths in proofs.chain(works) {
            let call = Call {
                case,
                about: pair.about,
                text: &text,
                lengths,
            };
            tally.count(call.compare()[0].to_string());
        }
    }
    tally.finish("every length", 10_000, &outcomes(&[0, 16, 17, 18]));
}

/// A pair cut at every byte, and with every byte in turn at each place.
#[test]
fn every_byte_and_every_cut_is_answered_alike() {
    let mut tally = Tally::default();
    let xor = over_two_inputs(&["0300020004", "040006"], &["0300030004", "040007"]);
    let mut compare = |case: u64, text: &[u8]| {
        let lengths = Lengths {
            proof: 660,
            work: 80,
        };
        let call = Call {
            case,
            about: "one byte set, or cut",
            text,
            lengths,
        };
        tally.count(call.compare()[0].to_string());
    };
    for place in 0..xor.len() {
        compare(place as u64, &xor.as_bytes()[..place]);
        for byte in 0..=255 {
            let mut text = xor.clone().into_bytes();
            text[place] = byte;
            compare(byte.into(), &text);
        }
    }
    let numbers = outcomes(&[0, 2, 3, 4, 5, 6, 7, 18]);
    tally.finish("every byte and every cut", 257 * xor.len() as u64, &numbers);
}

/// Each pair of sample lists. Both layouts of the guard have the same forms.
#[test]
fn sample_lists_are_proved_alike() {
    let mut tally = Tally::default();
    for (about, text, alike) in samples::pairs() {
        let sizes = Sizes::of(&text);
        let call = Call {
            case: 0,
            about: &about,
            text: &text,
            lengths: sizes.map_or(Lengths { proof: 9, work: 9 }, Sizes::needed),
        };
        let number = if alike { 0 } else { 6 };
        assert_eq!(call.compare()[0], number, "{about}");
        tally.count(number.to_string());
    }
    tally.finish("pairs of sample lists", 9, &outcomes(&[0, 6]));
}
