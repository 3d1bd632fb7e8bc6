//! Reading alone, on pairs of 64 to 1,024 gates a side with 64 inputs and 64 outputs. Both judge
//! every line. The archive's call leaves the counts; the reference keeps the gates too, since all
//! its calls work on lists that were read.

use std::hint::black_box;

use super::measure::{enough, medians};
use super::pairs::{self, DOUBLINGS, FEWEST_GATES, UNRELATED};
use super::table::{Row, Table, MEGABYTES};

fn read_by_archive(texts: &mut Vec<Vec<u8>>) {
    for text in texts {
        let [refusal, ..] = cec_archive::read_lists(black_box(text));
        assert_eq!(refusal, 0);
    }
}

fn read_by_reference(texts: &mut Vec<Vec<u8>>) {
    for text in texts {
        let lists = cec_reference::read_lists(black_box(text));
        assert!(black_box(lists).is_ok());
    }
}

pub fn pairs() -> Table {
    let mut table = Table::new("read two lists", MEGABYTES);
    for doubling in 0..=DOUBLINGS {
        let gates = FEWEST_GATES << doubling;
        let pair = |number| pairs::text(UNRELATED, pairs::shape(gates), number);
        let mut texts = enough(pair, Vec::len);
        table.add(Row {
            series: "random lists, 64 outputs",
            unit: "gates a side",
            size: gates,
            texts: texts.len(),
            bytes: texts.iter().map(Vec::len).sum(),
            times: medians([read_by_archive, read_by_reference], &mut texts),
        });
    }
    table
}
