//! The evaluator, on lists of 64 to 1,024 gates with 64 inputs and 64 outputs.

use std::hint::black_box;

use super::measure::{enough, medians};
use super::pairs::{self, DOUBLINGS, FEWEST_GATES};
use super::table::{Row, Table, MICROSECONDS};
use crate::common::random::{seed, Random};

/// What an evaluator is lent: lists, each with a pattern, and working bytes for each.
struct Lent {
    lists: Vec<(Vec<u8>, u64)>,
    work: Vec<u8>,
}

fn evaluate_by_archive(lent: &mut Lent) {
    for (text, pattern) in &lent.lists {
        let [refusal, ..] = cec_archive::evaluate(black_box(text), *pattern, &mut lent.work);
        assert_eq!(refusal, 0);
    }
}

fn evaluate_by_reference(lent: &mut Lent) {
    for (text, pattern) in &lent.lists {
        let evaluated = cec_reference::evaluate(black_box(text), *pattern, &mut lent.work);
        assert!(evaluated.is_ok());
    }
}

pub fn lists() -> Table {
    let mut table = Table::new("evaluate", MICROSECONDS);
    for doubling in 0..=DOUBLINGS {
        let gates = FEWEST_GATES << doubling;
        let shape = pairs::shape(gates);
        let list = |number| {
            let mut random = Random::of_case(seed(), number);
            (pairs::list(&mut random, shape).text(), random.word())
        };
        let mut lent = Lent {
            lists: enough(list, |(text, _)| text.len()),
            work: vec![0; shape.nets()],
        };
        table.add(Row {
            series: "random lists, 64 outputs",
            unit: "gates",
            size: gates,
            texts: lent.lists.len(),
            bytes: lent.lists.iter().map(|(text, _)| text.len()).sum(),
            times: medians([evaluate_by_archive, evaluate_by_reference], &mut lent),
        });
    }
    table
}
