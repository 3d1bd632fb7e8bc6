//! docs/FORMAT.md against the checker: the paper's pair as it is worked through there, each clause with
//! its number, the reports on its changed texts, and the examples in the table of frames.

use std::fs;
use std::path::Path;

use cec_reference::sample::{LISTS, PROOF};
use cec_reference::{check, read_frame, report};

/// The cells of each row of the table whose head begins so.
fn table(page: &str, head: &str) -> Vec<Vec<String>> {
    let begin = page
        .find(head)
        .unwrap_or_else(|| panic!("{head} stands nowhere"));
    let rows = page[begin..].lines().skip(2);
    let rows = rows.take_while(|line| line.starts_with('|'));
    let cell = |cell: &str| cell.trim().replace('`', "");
    rows.map(|row| row.trim_matches('|').split('|').map(cell).collect())
        .collect()
}

fn page() -> String {
    let file = Path::new(env!("CARGO_MANIFEST_DIR")).join("../../docs/FORMAT.md");
    fs::read_to_string(file).expect("the page is there")
}

fn evidence() -> Vec<String> {
    let text = LISTS.to_string() + &PROOF.concat();
    text.lines().map(String::from).collect()
}

/// The numbers of a cell: 'none', or some with commas between them.
fn numbers(cell: &str) -> Vec<u16> {
    if cell == "none" {
        return vec![];
    }
    let numbers = cell.split(", ").map(|number| number.parse());
    numbers.collect::<Result<_, _>>().expect("they are numbers")
}

#[test]
fn the_lines_are_the_samples() {
    let page = page();
    let rows = table(&page, "| Line | Text | What it says |");
    let lines: Vec<_> = rows.iter().map(|row| row[1].clone()).collect();
    assert_eq!(lines, evidence());
    for (number, row) in (1..).zip(&rows) {
        assert_eq!(row[0], number.to_string());
    }
}

/// Each clause of the miter, and each resolvent with the clauses that it comes from.
#[test]
fn the_clauses_are_the_store() {
    let page = page();
    let text = evidence().join("\n") + "\n";
    let mut store = vec![0; 104];
    assert!(check(text.as_bytes(), &mut store).is_ok());
    let stored = |number: usize| -> Vec<u16> {
        let eight = &store[8 * (number - 1)..8 * number];
        eight
            .iter()
            .copied()
            .filter(|literal| *literal != 0)
            .collect()
    };
    let holds = |number: usize, literals: &str, in_store: &str| {
        assert_eq!(numbers(in_store), stored(number), "clause {number}");
        let literals: Vec<u16> = numbers(literals)
            .iter()
            .map(|literal| literal + 1)
            .collect();
        assert_eq!(literals, stored(number), "clause {number}");
    };
    let miter = table(&page, "| Clause | For | Names |");
    assert_eq!(miter.len(), 9);
    for (number, row) in (1..).zip(&miter) {
        assert_eq!(row[0], number.to_string());
        holds(number, &row[3], &row[4]);
    }
    let steps = table(&page, "| Line | First clause | Second clause |");
    assert_eq!(steps.len(), PROOF.len());
    for ((row, line), clause) in steps.iter().zip(PROOF).zip(10..) {
        let number = |place: usize| usize::from_str_radix(&line[place..place + 4], 16);
        let named = [2, 6, 10].map(|place| number(place).expect("they are digits"));
        assert!(row[1].starts_with(&format!("{}: ", named[0])), "{row:?}");
        assert!(row[2].starts_with(&format!("{}: ", named[1])), "{row:?}");
        assert!(row[3].starts_with(&format!("{}, ", named[2])), "{row:?}");
        assert!(row[4].starts_with(&format!("{clause}: ")), "{row:?}");
        holds(clause, &row[5], &row[6]);
    }
}

/// The changes in the page's order, and the report that stands beside each.
#[test]
fn the_changed_texts_have_their_reports() {
    let page = page();
    let rows = table(&page, "| Change | Report | That is |");
    let whole = evidence();
    let set = |line: usize, text: &str| {
        let mut lines = whole.clone();
        lines[line - 1] = text.into();
        lines
    };
    let texts = [
        whole[..8].to_vec(),
        set(6, "11000500020001"),
        set(6, "11000A00020002"),
        whole.clone(),
        whole[..4].to_vec(),
        set(4, "0102000001"),
    ];
    assert_eq!(rows.len(), texts.len());
    for (row, lines) in rows.iter().zip(texts) {
        let mut text = lines.join("\n") + "\n";
        if row[0].ends_with("without its LF") {
            text.pop();
        }
        let wanted = format!("{}\n", row[1]).into_bytes();
        assert_eq!(report(text.as_bytes()), wanted, "{}", row[0]);
    }
    let accepted = report((whole.join("\n") + "\n").as_bytes());
    let accepted = String::from_utf8(accepted).expect("a report is text");
    assert!(page.contains(&format!("The report is `{}`", accepted.trim())));
}

/// Each example is a frame of its kind, as long as the table says.
#[test]
fn the_examples_are_frames() {
    let page = page();
    let rows = table(&page, "| Kind | Frame | Fields in order");
    assert_eq!(rows.len(), 8);
    for row in rows {
        let (example, _) = row[4].split_once(':').expect("it says what it is");
        assert!(example.starts_with(&row[0]), "{row:?}");
        assert_eq!(example.len().to_string(), row[3], "{row:?}");
        let line = format!("{example}\n");
        assert!(read_frame(line.as_bytes()).is_ok(), "{row:?}");
    }
}
