//! What a checking program with the most room is tried on beyond the limits of the paper's program:
//! 65,536 bytes and 4,096 clauses.

use super::checking::{changed_digits, evidence, RULES};
use super::extensions::{all_variables, refute_smallest};
use super::list_texts;
use super::lists::LARGEST;
use super::proof_texts::{gates, proof_behind};
use super::random::{seed, Random};
use super::rewrites;
use super::tally::{outcomes, Tally};
use super::trials::Trial;

/// How many pairs of large lists are proved.
const PAIRS: u64 = 8;

/// Repeated lines: around each limit of the paper's program, and up to all clauses that a store
/// holds.
pub fn repeated_lines(trial: &Trial) {
    let repeated = [4_082, 4_083, 4_084, 4_361, 4_362, 20_000, 65_521, 65_522];
    for lines in repeated {
        let text = proof_behind(lines);
        let number = trial.compare(lines as u64, "repeated lines", text.as_bytes());
        assert_eq!(number, 0, "{lines} lines");
    }
    trial.prints(&proof_behind(4_084), "21000000000FF81001");
    trial.prints(&proof_behind(65_522), "2100000000FFF6FFFF");
    trial.prints(&proof_behind(65_523), "210E00FFFC00000000");
}

/// Miters of 4,096 clauses and one more, which is 8 for the paper's program alone.
pub fn large_miters(trial: &Trial) {
    for lists in [gates(2, 1_021), gates(1, 1_022)] {
        trial.prints(&lists, "210F00000000000000");
        trial.prints(&(lists.clone() + "1200000000\n"), "210F00000000000000");
        trial.prints(&(lists + "G"), "210200040400000000");
    }
}

/// Extensions by XOR use up all variables and leave space for one clause; an AND in the place of one
/// leaves space for two.
pub fn variables_end(trial: &Trial) {
    let mut random = Random::of_case(seed(), 0);
    let full = all_variables(&mut random, 0);
    let full = full.text(&full.lines());
    let fill = "11000600020001\n";
    let behind: [(&[&str], u64); 7] = [
        (&[], 15),
        (&["1200020000\n"], 13),
        (&["137FFE7FFF\n"], 13),
        (&["1200008000\n"], 12),
        (&[fill], 15),
        (&[fill, fill], 14),
        (&[fill, "1300000000\n"], 13),
    ];
    for (case, (steps, number)) in (0..).zip(behind) {
        let text = [&full, steps.concat().as_bytes()].concat();
        let met = trial.compare(case, "all variables", &text);
        assert_eq!(met, number, "{steps:?}");
    }
    let mut proof = all_variables(&mut random, 1);
    refute_smallest(&mut proof);
    let text = proof.text(&proof.lines());
    assert_eq!(trial.compare(0, "refuted", &text), 0);
}

/// Evidence for lists of many gates and for those with the longest proofs, whole and with a digit
/// changed.
pub fn long_evidence(trial: &Trial) {
    let mut tally = Tally::default();
    let pairs = (0..PAIRS).map(|case| {
        let mut random = Random::of_case(seed(), case);
        let gates = random.pick(&[300, 600, 1_000, LARGEST.gates]);
        rewrites::large(&mut random, gates).text()
    });
    let linked = ["02", "03"].map(|kind| list_texts::linked(kind).into_bytes());
    for (case, lists) in (0..).zip(pairs.chain(linked)) {
        let evidence = evidence(&lists);
        let about = "evidence";
        assert_eq!(trial.compare(case, about, &evidence), 0, "case {case}");
        tally.count("0".into());
        changed_digits(trial, case, about, &evidence, &mut tally);
    }
    let often = outcomes(&[0, 3, 9, 10]);
    tally.finish_within("long evidence", 90, &often, &outcomes(&RULES));
}
