//! What each checking program is tried on. The programs have the same rules and print the same
//! report frame; only their limits differ.

use cec_reference::sample::{LISTS, PROOF};

use super::programs::{self, printed};
use super::proof_texts::{self, bench, bench_from, gates, proof_behind, ProofText, P5};
use super::random::{seed, Random};
use super::tally::{outcomes, Tally};
use super::texts::{self, digits};
use super::trials::{refusal, Trial};
use super::{list_texts, samples};

/// The program that makes evidence.
const PROVER: &str = "cec_prove";

/// How many random texts there are of each sort.
const PROOFS: u64 = 1_500;
const LIST_CASES: u64 = 1_000;
const LONG_CASES: u64 = 300;

/// The refusal numbers that random texts meet whatever the limits are, and those that a program
/// with other limits need not give.
pub const RULES: [u64; 12] = [0, 2, 3, 4, 5, 6, 7, 9, 10, 11, 12, 15];
const LIMITS: [u64; 3] = [1, 8, 14];

/// How many digits of a text are changed, one at a time.
const CHANGES: u64 = 8;

/// P1 to P4 byte for byte, and P5 as a text.
pub fn samples_p1_to_p5(trial: &Trial) {
    trial.prints(&bench(&PROOF), "21000000000004000D");
    trial.prints(&bench(&PROOF[..3]), "210F00000000000000");
    trial.prints(&bench_from("11000500020001\n"), "210A00000600000000");
    trial.prints(&bench_from("11000A00020002\n"), "210900000600000000");
    trial.prints(P5, "210000000000070013");
}

/// P6 for the paper's program: its store has space for 4,096 clauses.
pub fn usual_store(trial: &Trial) {
    trial.prints(&proof_behind(4_083), "21000000000FF71000");
    trial.prints(&proof_behind(4_084), "210E000FFD00000000");
    // 6 + 3 × 2 + 4 × 1,021 is 4,096, and 6 + 3 × 1 + 4 × 1,022 one more.
    trial.prints(&gates(2, 1_021), "210F00000000000000");
    trial.prints(&gates(1, 1_022), "210800000000000000");
    trial.prints(&(gates(2, 1_021) + "1200000000\n"), "210E00040400000000");
    trial.prints(&(gates(1, 1_022) + "G"), "210800000000000000");
}

/// Streams around the program's limit of bytes.
pub fn long_streams(trial: &Trial, excesses: &[isize]) {
    let tally = trial.long_streams(excesses, LISTS, PROOF[0]);
    let cases = 8 * excesses.len() as u64;
    tally.finish("long streams", cases, &outcomes(&[1, 2, 3, 14]));
}

/// No byte, each start of the bench sample, and each of its bytes replaced.
pub fn broken_streams(trial: &Trial) {
    let mut tally = Tally::default();
    let text = bench(&PROOF).into_bytes();
    assert_eq!(trial.compare(0, "no byte", b""), 4);
    for place in 0..text.len() {
        let number = trial.compare(place as u64, "cut", &text[..place]);
        tally.count(number.to_string());
        for byte in *b"\0\n\r0f:\xFF" {
            let mut text = text.clone();
            text[place] = byte;
            let number = trial.compare(place as u64, "one byte set", &text);
            tally.count(number.to_string());
        }
    }
    let numbers = outcomes(&[0, 2, 3, 4, 5, 6, 7, 9, 10, 15]);
    tally.finish("broken streams", 800, &numbers);
}

/// What the proving program prints for each pair of sample lists: evidence, which is accepted if
/// there is room, also with a digit changed; or a report, which is no list.
pub fn sample_evidence(trial: &Trial) {
    let mut tally = Tally::default();
    let lists = samples::every();
    let pairs = lists.iter();
    let pairs = pairs.flat_map(|left| lists.iter().map(move |right| [left, right]));
    for (case, [(left, left_list), (right, right_list)]) in (0..).zip(pairs) {
        let about = format!("{left} and {right}");
        let evidence = evidence(&[left_list.as_slice(), right_list].concat());
        let number = trial.compare(case, &about, &evidence);
        tally.count(number.to_string());
        if evidence.starts_with(b"21") {
            assert_eq!(number, 3, "{about}");
            continue;
        }
        assert!(number == 0 || LIMITS.contains(&number), "{about}");
        changed_digits(trial, case, &about, &evidence, &mut tally);
    }
    let often = outcomes(&[0, 3, 9, 10]);
    let possible = outcomes(&[&RULES[..], &LIMITS].concat());
    tally.finish_within("evidence of the samples", 150, &often, &possible);
}

/// What the proving program prints for two lists.
pub fn evidence(lists: &[u8]) -> Vec<u8> {
    printed(programs::run(PROVER, lists)).into_bytes()
}

/// A few times one digit of a text is another one.
pub fn changed_digits(trial: &Trial, case: u64, about: &str, text: &[u8], tally: &mut Tally) {
    let mut random = Random::of_case(seed(), case);
    for change in 0..CHANGES {
        let mut text = text.to_vec();
        let place = random.below(text.len());
        if text[place] != b'\n' {
            text[place] = random.pick(b"0123456789ABCDEF");
        }
        let about = format!("{about}, change {change}");
        tally.count(trial.compare(case, &about, &text).to_string());
    }
}

/// Random texts of proofs, whole and faulty; of lists, with and without lines behind them; and long
/// ones.
fn any_texts() -> impl Iterator<Item = (u64, ProofText)> {
    type Making = fn(&mut Random) -> ProofText;
    let sorts: [(u64, Making); 4] = [
        (PROOFS, |random| {
            let proof = proof_texts::any_proof(random);
            proof_texts::any(random, &proof)
        }),
        (LIST_CASES, proof_texts::behind_any_lists),
        (LIST_CASES, |random| {
            let (about, text) = list_texts::any(random, 2);
            ProofText::unknown(about, text)
        }),
        (LONG_CASES, |random| {
            ProofText::unknown("long", texts::long(random))
        }),
    ];
    sorts.into_iter().flat_map(|(cases, make)| {
        (0..cases).map(move |case| (case, make(&mut Random::of_case(seed(), case))))
    })
}

/// One in so many of all these texts, for a program whose store holds these clauses. Where the reply
/// was known in advance, it is that.
pub fn random_texts(trial: &Trial, clauses: usize, one_in: usize) {
    let mut tally = Tally::default();
    for (case, text) in any_texts().step_by(one_in) {
        let about = &text.about;
        let number = trial.compare(case, about, &text.text);
        let known = text.expected.filter(|_| text.clauses <= clauses);
        assert!(known.is_none_or(|[known, _]| known == number), "{about}");
        tally.count(number.to_string());
    }
    // The long texts are too long for some programs, and few lists or proofs are.
    let [too_long, too_many]: [&[u64]; 2] = if trial.bytes < texts::LONGEST {
        [&[1], &[8, 14]]
    } else {
        [&[], &[]]
    };
    let often = outcomes(&[&RULES, too_long].concat());
    let possible = outcomes(&[&RULES, too_long, too_many].concat());
    let cases = (PROOFS + 2 * LIST_CASES + LONG_CASES) / one_in as u64;
    tally.finish_within("texts for the program", cases, &often, &possible);
}

/// One in four of the same texts, for a program whose due line is that of one with less room: they
/// print the same line wherever the other's does not tell of its limits.
pub fn same_within_less_room(trial: &Trial) {
    let mut tally = Tally::default();
    for (case, text) in any_texts().step_by(4) {
        if LIMITS.contains(&refusal(&(trial.due)(&text.text))) {
            tally.count("beyond its room".into());
            continue;
        }
        let number = trial.compare(case, &text.about, &text.text);
        tally.count(number.to_string());
    }
    let beyond = vec!["beyond its room".into()];
    let often = [outcomes(&[0, 2, 3, 9, 10, 15]), beyond.clone()].concat();
    let possible = [outcomes(&RULES), beyond].concat();
    tally.finish_within(
        "texts beside a program with less room",
        900,
        &often,
        &possible,
    );
}

/// Standard input that comes in pieces, and one that is a file: short, as many clauses as the store
/// holds, as many bytes as a stream may have, and one more.
pub fn pieces_and_files(trial: &Trial, clauses: usize) {
    let streams = [
        (bench(&PROOF).into_bytes(), 1),
        (proof_behind(clauses - 13).into_bytes(), 4_095),
        (digits(trial.bytes, "\n"), 4_097),
        (digits(trial.bytes + 1, "\n"), 10_923),
    ];
    trial.pieces_and_files(&streams, &[0, 1, 3]);
}
