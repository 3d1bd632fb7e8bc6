//! The samples P1 to P6 and their neighbours, and which of two faults is given.

use super::*;
use crate::sample::{LISTS, PROOF};

/// The bench sample's clauses as the store has to keep them.
const CLAUSES: [[u16; 3]; 13] = [
    [2, 0, 0],
    [3, 6, 0],
    [3, 6, 0],
    [4, 5, 0],
    [3, 5, 8],
    [4, 5, 7],
    [3, 6, 7],
    [4, 6, 8],
    [7, 0, 0],
    [3, 8, 0],
    [4, 8, 0],
    [8, 0, 0],
    [0, 0, 0],
];

/// The smallest lists: no inputs, no gates, false on both sides. Variables 0 and z 1; clauses (¬0),
/// (0, ¬z), (0, ¬0, z), (0, ¬0, z), (¬0, ¬z), (z).
const SMALLEST: &str = "0100000001\n040000\n0100000001\n040000\n";

/// (0) from (z) and (0, ¬z), and from it the empty clause: `first` is the number that (0) gets.
fn refutation(first: usize) -> String {
    format!("11000600020001\n11{first:04X}00010000\n")
}

fn bench() -> String {
    format!("{LISTS}{}", PROOF.concat())
}

/// The reply, with the store looked at after a refusal.
fn reply(text: &str, length: usize) -> Result<Checked, Refusal> {
    let mut store = vec![0xA5A5; length];
    let reply = check(text.as_bytes(), &mut store);
    if reply.is_err() {
        assert_eq!(store, vec![0; length]);
    }
    reply
}

#[track_caller]
fn accepted(text: &str, length: usize, steps: usize, clauses: usize) {
    assert_eq!(reply(text, length), Ok(Checked { steps, clauses }));
}

#[track_caller]
fn refused(text: &str, length: usize, number: u8, line: u64) {
    let start = &text[..text.len().min(200)];
    assert_eq!(
        reply(text, length),
        Err(Refusal { number, line }),
        "{start}"
    );
}

/// Refused in a store with space for every clause.
#[track_caller]
fn faulty(text: &str, number: u8, line: u64) {
    refused(text, 8 * MOST_CLAUSES, number, line);
}

/// These lines as the bench sample's proof.
#[track_caller]
fn faulty_proof(lines: &[&str], number: u8, line: u64) {
    faulty(&format!("{LISTS}{}", lines.concat()), number, line);
}

#[test]
fn p1_the_bench_sample_is_accepted() {
    accepted(&bench(), 104, 4, 13);
    assert_eq!(report(bench().as_bytes()), b"21000000000004000D\n");
}

#[test]
fn p2_without_its_last_line_it_is_15() {
    faulty_proof(&PROOF[..3], 15, 0);
    let text = format!("{LISTS}{}", PROOF[..3].concat());
    assert_eq!(report(text.as_bytes()), b"210F00000000000000\n");
}

#[test]
fn p3_a_pivot_that_is_not_held_is_10() {
    faulty_proof(&["11000500020001\n"], 10, 6);
    // Clause 5 is (a, n, ¬z), clause 2 (a, ¬n): neither the other way round nor over a.
    faulty_proof(&["11000200050002\n"], 10, 6);
    faulty_proof(&["11000500050002\n"], 10, 6);
    // n is variable 2: a literal that wraps at 16 bits, or loses its highest bits, would pass.
    for pivot in ["4002", "8002", "C002", "FFFF"] {
        faulty_proof(&[&format!("1100050002{pivot}\n")], 10, 6);
    }
}

#[test]
fn p4_clause_numbers_go_from_1_to_the_last() {
    for number in ["0000", "000A", "000B", "FFFF"] {
        faulty_proof(&[&format!("11{number}00020002\n")], 9, 6);
        faulty_proof(&[&format!("110005{number}0002\n")], 9, 6);
    }
    faulty_proof(&["11000900020002\n"], 10, 6);
    faulty_proof(&["11000500090002\n"], 10, 6);
    // The step's own clause is not there yet; on the next line it is.
    faulty_proof(&[PROOF[0], "11000B00080002\n"], 9, 7);
    faulty_proof(&[PROOF[0], "11000A00080002\n"], 10, 7);
}

/// Left XOR of a, a against false. Clause 3 is (a, ¬a, n); t 4 is AND of ¬a, n, and clause 11 is
/// (¬a, ¬t). They resolve on a to clause 14, (¬a, n, ¬t).
#[test]
fn p5_a_clause_with_both_signs_keeps_the_other() {
    let text = "0101000101\n0300020002\n040004\n0101000001\n040000\n\
        1200030004\n110003000B0001\n11000A00060003\n11000F00010000\n\
        11001000020002\n11001000050002\n11001100120001\n";
    let mut store = vec![0xA5A5; 8 * 19];
    let (steps, clauses) = (7, 19);
    assert_eq!(
        check(text.as_bytes(), &mut store),
        Ok(Checked { steps, clauses })
    );
    let clause = |number: usize| &store[8 * (number - 1)..8 * number];
    assert_eq!(clause(3), [3, 4, 5, 0, 0, 0, 0, 0]);
    assert_eq!(clause(11), [4, 10, 0, 0, 0, 0, 0, 0]);
    assert_eq!(clause(14), [4, 5, 10, 0, 0, 0, 0, 0]);
    assert_eq!(clause(19), [0; 8]);
}

/// P6, and every other length.
#[test]
fn p6_the_store_holds_whole_eights() {
    for length in 0..200 {
        match length / 8 {
            0..=8 => refused(&bench(), length, 8, 0),
            clauses @ 9..=12 => refused(&bench(), length, 14, clauses as u64 - 3),
            _ => accepted(&bench(), length, 4, 13),
        }
    }
}

#[test]
fn the_store_holds_every_clause_and_zeros_behind() {
    for length in [104, 105, 111, 112, 1_000, 8 * 65_535, 8 * 65_536 + 3] {
        let mut store = vec![0xA5A5; length];
        assert!(check(bench().as_bytes(), &mut store).is_ok());
        let (clauses, behind) = store.split_at(104);
        for (stored, wanted) in clauses.chunks(8).zip(CLAUSES) {
            assert_eq!(stored, [&wanted[..], &[0; 5]].concat());
        }
        assert!(behind.iter().all(|&number| number == 0));
    }
}

#[test]
fn the_last_step_is_an_empty_resolve() {
    faulty_proof(&[], 15, 0);
    let bench = bench();
    // A valid line behind the empty clause, and the empty clause once more behind that.
    faulty(&format!("{bench}{}", PROOF[0]), 15, 0);
    faulty(&format!("{bench}1200020002\n"), 15, 0);
    let again = format!("{bench}{}{}", PROOF[0], PROOF[3]);
    accepted(&again, 8 * 15, 6, 15);
    // A faulty line behind it.
    faulty(&format!("{bench}\n"), 3, 10);
    faulty(&format!("{bench}G\n"), 2, 10);
    faulty(&format!("{bench}110009000C0003"), 2, 10);
    faulty(&format!("{bench}11000900000003\n"), 9, 10);
    faulty(&format!("{bench}11000D000D0000\n"), 10, 10);
    faulty(&format!("{bench}1200080000\n"), 12, 10);
    refused(&format!("{bench}{}", PROOF[3]), 104, 14, 10);
}

#[test]
fn only_steps_are_due_in_a_proof() {
    let lines = [
        "0101000001",
        "0200020002",
        "0300020002",
        "040002",
        "21000000000004000D",
        "14",
        "",
        "1",
        "110005000200020",
        "1100050002000",
        "12000200020",
        "120002000",
        "110005000200020000",
    ];
    for line in lines {
        faulty_proof(&[line, "\n"], 3, 6);
        faulty_proof(&[PROOF[0], line, "\n", PROOF[1]], 3, 7);
    }
    faulty_proof(&["1100050002000a\n"], 2, 6);
    faulty_proof(&["11000500020002\r\n"], 2, 6);
}

#[test]
fn lists_come_before_the_store_and_the_store_before_the_proof() {
    for length in [0, 71] {
        refused("", length, 4, 1);
        refused(&LISTS[..LISTS.len() - 7], length, 4, 5);
        refused(&LISTS[..LISTS.len() - 1], length, 2, 5);
        refused(&LISTS.replace("\n0101", "\n0102"), length, 6, 4);
        refused(LISTS, length, 8, 0);
        refused(&format!("{LISTS}G"), length, 8, 0);
        refused(&bench(), length, 8, 0);
    }
    refused(LISTS, 72, 15, 0);
    refused(&format!("{LISTS}G"), 72, 2, 6);
    refused(&bench(), 72, 14, 6);
}

/// On one line: 9, 10, 11 and then 14; 12, 13 and then 14.
#[test]
fn of_two_faults_of_a_step_the_smaller_is_given() {
    refused(&format!("{LISTS}11000000020009\n"), 72, 9, 6);
    refused(&format!("{LISTS}11000500020009\n"), 72, 10, 6);
    refused(&format!("{LISTS}1200080002\n"), 72, 12, 6);
    refused(&format!("{LISTS}1200020002\n"), 72, 14, 6);
}

/// Variables 0 to 3 are in use, and 4 after an extension.
#[test]
fn an_extension_is_over_variables_in_use() {
    for literal in ["0008", "0009", "000A", "8000", "FFFF"] {
        faulty_proof(&[&format!("12{literal}0000\n")], 12, 6);
        faulty_proof(&[&format!("120000{literal}\n")], 12, 6);
        faulty_proof(&[&format!("13{literal}0000\n")], 12, 6);
        faulty_proof(&[&format!("130000{literal}\n")], 12, 6);
    }
    faulty_proof(&["1200070007\n"], 15, 0);
    faulty_proof(&["1200070007\n", "1300090008\n"], 15, 0);
    faulty_proof(&["1200070007\n", "13000A0008\n"], 12, 7);
}

/// 14 asks for space for all 3 or 4 clauses.
#[test]
fn an_extension_is_added_whole_or_not() {
    for (kind, clauses) in [("12", 3), ("13", 4)] {
        let text = format!("{LISTS}{kind}00020006\n");
        for more in 0..clauses {
            refused(&text, 8 * (9 + more), 14, 6);
        }
        refused(&text, 8 * (9 + clauses), 15, 0);
        accepted(
            &format!("{LISTS}{kind}00020006\n{}", proof_behind(clauses)),
            8 * (13 + clauses),
            5,
            13 + clauses,
        );
    }
}

/// The bench sample's proof behind so many clauses more.
fn proof_behind(clauses: usize) -> String {
    let [first, second, third] = [10, 11, 12].map(|number| number + clauses);
    format!(
        "{}{}11{first:04X}{second:04X}0001\n110009{third:04X}0003\n",
        PROOF[0], PROOF[1]
    )
}

/// From (a, n, ¬z) on, each XOR of the two variables before it puts its own in the last one's
/// place and adds a literal, up to (a, n, z, t 4, t 5, t 6, t 7, ¬t 9).
#[test]
fn a_resolvent_of_nine_literals_is_11() {
    let mut text = String::from(LISTS);
    let mut clauses = 9;
    let mut chain = 5;
    for t in 4..=9 {
        let (before, first) = (t - 1, clauses + 1);
        text += &format!("13{:04X}{:04X}\n", 2 * before, 2 * (before - 1));
        text += &format!("11{first:04X}{chain:04X}{before:04X}\n");
        clauses += 5;
        chain = clauses;
    }
    faulty(&text, 15, 0);
    // t 10 = XOR of t 9 and a, which is there already; or and ¬t 7, which would be the ninth.
    let step = format!("11{:04X}{chain:04X}0009\n", clauses + 1);
    faulty(&format!("{text}1300120002\n{step}"), 15, 0);
    let nine = format!("{text}130012000F\n{step}");
    faulty(&nine, 11, 19);
    // 11 comes before 14.
    refused(&nine, 8 * (clauses + 4), 11, 19);
}

/// Extensions up to variable 16,383, which is 16,382 of them behind 0 and z. XORs alone leave
/// space for one clause, of 65,535.
#[test]
fn variables_end_at_16383_and_clauses_at_65535() {
    let xors = "1300020000\n".repeat(16_382);
    let first_line = 5;
    let full = format!("{SMALLEST}{xors}");
    let one_more = first_line + 16_382;
    for length in [8 * 65_535, 8 * 65_536, 8 * 65_536 + 100] {
        refused(&full, length, 15, 0);
        refused(&format!("{full}1300020000\n"), length, 13, one_more);
        refused(&format!("{full}1300028000\n"), length, 12, one_more);
        let text = format!("{full}{}", refutation(65_535));
        refused(&text, length, 14, one_more + 1);
        // 13 before 14, now that no space is left.
        let text = format!("{full}11000600020001\n1200000000\n");
        refused(&text, length, 13, one_more + 1);
        // An AND in an XOR's place makes space for the last clause of all, number 65,535.
        let text = format!("{SMALLEST}1200020000\n{}", &full[SMALLEST.len() + 11..]);
        let text = format!("{text}{}", refutation(65_534));
        accepted(&text, length, 16_384, 65_535);
    }
    refused(&full, 8 * 65_534 - 1, 14, one_more - 1);
    refused(&full, 8 * 65_534, 15, 0);
}

/// The last variable's clauses, resolved on it.
#[test]
fn variable_16383_is_resolved_on() {
    let ands = "1200020000\n".repeat(16_382);
    let last = 6 + 3 * 16_382;
    // (t, ¬z, ¬0) with (¬t, z) on t 16,383.
    let step = format!("11{last:04X}{:04X}3FFF\n", last - 2);
    let text = format!("{SMALLEST}{ands}{step}{}", refutation(last + 2));
    let mut store = vec![0; 8 * MOST_CLAUSES];
    let (steps, clauses) = (16_385, last + 3);
    assert_eq!(
        check(text.as_bytes(), &mut store),
        Ok(Checked { steps, clauses })
    );
    let clause = |number: usize| &store[8 * (number - 1)..8 * number];
    assert_eq!(clause(last), [2, 4, 32_767, 0, 0, 0, 0, 0]);
    assert_eq!(clause(last - 2), [3, 32_768, 0, 0, 0, 0, 0, 0]);
    assert_eq!(clause(last + 1), [2, 3, 4, 0, 0, 0, 0, 0]);
}

/// The bench sample and digits behind it, so many bytes in all.
fn digits(count: usize) -> Vec<u8> {
    let mut text = bench().into_bytes();
    text.resize(count, b'0');
    text
}

/// The bench sample with so many steps more: 13 clauses and as many more.
fn fill(steps: usize) -> Vec<u8> {
    let text = format!("{LISTS}{}{}", PROOF[0].repeat(steps), proof_behind(steps));
    text.into_bytes()
}

/// 65,536 bytes are read, one more is 1; 4,096 clauses fit.
#[test]
fn the_program_has_limits() {
    assert_eq!(report(b""), b"210400000100000000\n");
    assert_eq!(report(&digits(65_536)), b"210200000A00000000\n");
    assert_eq!(report(&digits(65_537)), b"210100000000000000\n");
    assert_eq!(report(&fill(4_083)), b"21000000000FF71000\n");
    // Line 5 + 4,084 + 4 finds no space.
    assert_eq!(report(&fill(4_084)), b"210E000FFD00000000\n");
}

/// 4,194,304 bytes are read, one more is 1; 65,535 clauses fit.
#[test]
fn the_large_program_has_limits_of_its_own() {
    let report = |text: &[u8]| report_within(text, Limits::LARGE);
    assert_eq!(report(b""), b"210400000100000000\n");
    assert_eq!(report(&digits(65_537)), b"210200000A00000000\n");
    assert_eq!(report(&digits(4_194_304)), b"210200000A00000000\n");
    assert_eq!(report(&digits(4_194_305)), b"210100000000000000\n");
    assert_eq!(report(&fill(4_084)), b"21000000000FF81001\n");
    assert_eq!(report(&fill(65_522)), b"2100000000FFF6FFFF\n");
    // Line 5 + 65,523 + 4 finds no space.
    assert_eq!(report(&fill(65_523)), b"210E00FFFC00000000\n");
}

#[test]
fn the_samples_against_themselves_are_15() {
    let adder = include_str!("../../../../samples/adder16.txt");
    faulty(&adder.repeat(2), 15, 0);
}
