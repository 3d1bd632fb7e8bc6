//! The pairs on which the finder is tried are what they are said to be: both lists agree, and most
//! have other folded forms, so that the engine has no proof of them.

mod common;

use std::ops::Range;

use cec_archive::prove;
use cec_reference::{evaluate_nets, output_word, read_list, Netlist};
use common::lists::List;
use common::mutated::{list_of, mutated};
use common::random::{seed, Random};
use common::relaid::{self, Relaid};
use common::sizes::Sizes;
use common::sums::{self, Carry, ORDERS, SUMS};
use common::tally::Tally;

/// How many lists are laid out again, and how many patterns are tried on a pair.
const RELAID: u64 = 500;
const PATTERNS: usize = 64;

/// The gates of the lists that are laid out again.
const GATES: Range<usize> = 10..210;

fn word(list: &Netlist, pattern: u64) -> u64 {
    let mut values = vec![0; list.nets()];
    evaluate_nets(list, pattern, &mut values);
    output_word(list, &values)
}

fn read(list: &List) -> Netlist {
    let text = list.text();
    read_list(&text).unwrap_or_else(|refusal| panic!("{refusal:?}: {list:?}"))
}

/// Patterns of all sorts: random ones, and ones with few zeros and few ones.
fn patterns(random: &mut Random) -> Vec<u64> {
    let sparse = |random: &mut Random| random.word() & random.word() & random.word();
    let one = |random: &mut Random| match random.below(4) {
        0 => sparse(random),
        1 => !sparse(random),
        _ => random.word(),
    };
    let some = (0..PATTERNS).map(|_| one(random));
    some.chain([0, u64::MAX]).collect()
}

/// Whether the engine has a proof.
fn engine_proves(text: &[u8]) -> bool {
    let needed = Sizes::of(text).expect("the lists are read").needed();
    let (mut proof, mut work) = (vec![0; needed.proof], vec![0; needed.work]);
    let [refusal, ..] = prove(text, &mut proof, &mut work);
    assert!([0, 18].contains(&refusal), "{refusal}");
    refusal == 0
}

/// In every order and with every carry the list's word is the sum.
#[test]
fn sums_are_sums() {
    let mut random = Random::of_case(seed(), 0);
    for sum in SUMS {
        for order in ORDERS {
            for carry in [Carry::Or, Carry::Xor, Carry::Either(1)] {
                let list = read(&sum.list(order, carry));
                assert_eq!(list.inputs(), sum.inputs());
                for pattern in patterns(&mut random) {
                    let said = word(&list, pattern);
                    let about = format!("{sum}, {order}, {carry:?}, pattern {pattern:016X}");
                    assert_eq!(said, sum.value(pattern), "{about}");
                }
            }
        }
    }
}

/// The engine has a proof of none of the sums in two orders.
#[test]
fn sums_in_two_orders_have_other_forms() {
    for pair in SUMS.into_iter().flat_map(sums::pairs) {
        let [left, right] = pair.lists.each_ref().map(|list| list.gates.len());
        assert!(!engine_proves(&pair.text()), "{}", pair.about);
        eprintln!("{}: {left} and {right} gates", pair.about);
    }
}

/// A list that is laid out again agrees with the first, every identity is used, and the engine has
/// a proof of few of the pairs.
#[test]
fn lists_laid_out_again_agree() {
    let [mut used, mut forms] = [(); 2].map(|()| Tally::default());
    let mut gates = [0, 0];
    for case in 0..RELAID {
        let mut random = Random::of_case(seed(), case);
        let about = GATES.start + random.below(GATES.len());
        let pair = Relaid::any(&mut random, about);
        let [left, right] = [&pair.left, &pair.right].map(read);
        gates = [
            gates[0] + left.gates().len(),
            gates[1] + right.gates().len(),
        ];
        for pattern in patterns(&mut random) {
            let [left, right] = [&left, &right].map(|list| word(list, pattern));
            assert_eq!(
                left, right,
                "case {case}, pattern {pattern:016X}: {:?}",
                pair.used
            );
        }
        pair.used.iter().for_each(|name| used.count((*name).into()));
        let same = engine_proves(&pair.text());
        forms.count(if same { "same forms" } else { "other forms" }.into());
    }
    let [left, right] = gates.map(|gates| gates as u64 / RELAID);
    eprintln!("{left} and {right} gates on average");
    let names: Vec<String> = relaid::names().into_iter().map(String::from).collect();
    used.finish("identities", RELAID, &names);
    used.often("identities", 10, &names);
    forms.finish_within(
        "laid out again",
        RELAID,
        &["other forms".into()],
        &["other forms".into(), "same forms".into()],
    );
    forms.often("laid out again", RELAID * 9 / 10, &["other forms".into()]);
}

/// A change is a change of one gate, and the list can still be read.
#[test]
fn one_gate_is_mutated() {
    for case in 0..RELAID {
        let mut random = Random::of_case(seed(), case);
        let list = relaid::any_list(&mut random, 30);
        let (way, changed) = mutated(&mut random, &list);
        read(&changed);
        assert_eq!(list_of(&read(&list)).text(), list.text());
        let gates = list.gates.iter().zip(&changed.gates);
        let unlike = gates.filter(|(before, after)| before != after).count();
        assert_eq!((unlike, &list.outputs), (1, &changed.outputs), "{way}");
    }
}
