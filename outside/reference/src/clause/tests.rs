//! Cases written by hand from the paper, and every small pair of clauses against sets as bits.

use super::*;

fn clause(numbers: &[u16]) -> Clause {
    of(numbers.iter().copied()).expect("at most eight literals")
}

fn of(numbers: impl Iterator<Item = u16>) -> Option<Clause> {
    Clause::of(numbers.map(Literal).collect::<Vec<_>>())
}

fn numbers(clause: &Clause) -> Vec<u16> {
    clause.literals().iter().map(|held| held.number()).collect()
}

#[track_caller]
fn resolves(first: &[u16], second: &[u16], pivot: u16, wanted: Option<&[u16]>) {
    let resolvent = clause(first).resolvent(&clause(second), Literal(pivot));
    let resolvent = resolvent.map(|clause| numbers(&clause));
    assert_eq!(resolvent, wanted.map(<[u16]>::to_vec));
}

#[test]
fn a_clause_is_a_set_kept_rising() {
    assert_eq!(numbers(&clause(&[5, 2, 5, 3, 2])), [2, 3, 5]);
    assert_eq!(clause(&[5, 2, 5, 3, 2]), clause(&[3, 5, 2]));
    assert!(clause(&[]).is_empty());
    assert!(!clause(&[0]).is_empty());
    assert!(clause(&[0, 7]).holds(Literal(0)));
    // Behind the literals of a clause nothing is held.
    assert!(!clause(&[3]).holds(Literal(0)));
    assert_eq!(of(0..9), None);
    let eight_often = (0..80).map(|number| number % 8);
    assert_eq!(of(eight_often), Some(clause(&[0, 1, 2, 3, 4, 5, 6, 7])));
}

#[test]
fn the_store_keeps_each_literal_plus_one() {
    assert_eq!(clause(&[]).numbers(), [0; 8]);
    assert_eq!(clause(&[0]).numbers(), [1, 0, 0, 0, 0, 0, 0, 0]);
    let last = [32_767, 0, 1, 9, 8, 7, 6, 32_766];
    assert_eq!(clause(&last).numbers(), [1, 2, 7, 8, 9, 10, 32_767, 32_768]);
}

/// P5, and what dropping both signs would have made of it.
#[test]
fn p5_each_clause_loses_one_sign_only() {
    let (v, not_v, c, d) = (4, 5, 8, 11);
    resolves(&[v, not_v, c], &[not_v, d], v, Some(&[not_v, c, d]));
    resolves(&[v, c], &[v, not_v, d], v, Some(&[v, c, d]));
    // One clause may serve as both, and stays what it was.
    resolves(&[v, not_v], &[v, not_v], v, Some(&[v, not_v]));
    resolves(&[v, not_v, c], &[v, not_v, c], v, Some(&[v, not_v, c]));
}

#[test]
fn a_resolvent_has_at_most_eight_literals() {
    resolves(&[2], &[3], 2, Some(&[]));
    resolves(&[2, 8, 11], &[3, 8, 11], 2, Some(&[8, 11]));
    let first = [2, 10, 12, 14, 16];
    resolves(
        &first,
        &[3, 20, 22, 24, 26],
        2,
        Some(&[10, 12, 14, 16, 20, 22, 24, 26]),
    );
    resolves(&first, &[3, 20, 22, 24, 26, 28], 2, None);
    // Fourteen before equal ones are joined.
    let first = [2, 10, 12, 14, 16, 18, 20, 22];
    let same = [3, 10, 12, 14, 16, 18, 20, 22];
    resolves(&first, &same, 2, Some(&[10, 12, 14, 16, 18, 20, 22]));
    let one_more = [3, 10, 12, 14, 16, 18, 20, 23];
    resolves(
        &first,
        &one_more,
        2,
        Some(&[10, 12, 14, 16, 18, 20, 22, 23]),
    );
    let two_more = [3, 10, 12, 14, 16, 18, 21, 23];
    resolves(&first, &two_more, 2, None);
}

/// All pairs of clauses over five variables, as bits: bit l is literal l.
#[test]
fn resolvents_are_those_of_sets_of_bits() {
    let clause_of = |set: u32| of((0..10).filter(|literal| set >> literal & 1 == 1));
    let clauses: Vec<(u32, Clause)> = (0..1 << 10)
        .filter_map(|set| Some((set, clause_of(set)?)))
        .collect();
    let mut too_long = 0;
    for (first_set, first) in &clauses {
        for (second_set, second) in &clauses {
            let v = (first_set ^ second_set) % 5;
            let set = first_set & !(1 << (2 * v)) | second_set & !(2 << (2 * v));
            let pivot = Literal(2 * v as u16);
            assert_eq!(first.resolvent(second, pivot), clause_of(set));
            too_long += usize::from(set.count_ones() > 8);
        }
    }
    // 1,024 less the eleven sets of nine and ten literals.
    assert_eq!(clauses.len(), 1_013);
    assert!(too_long > 10_000, "{too_long}");
}

#[test]
fn definitions_stand_in_the_papers_order() {
    let define = |operation, x, y| -> Vec<Vec<u16>> {
        let clauses = definition(Literal(8), operation, [x, y].map(Literal));
        clauses.iter().map(numbers).collect()
    };
    use Operation::{And, Xor};
    assert_eq!(define(And, 2, 5), [vec![2, 9], vec![5, 9], vec![3, 4, 8]]);
    assert_eq!(
        define(Xor, 2, 5),
        [vec![2, 5, 9], vec![2, 4, 8], vec![3, 5, 8], vec![3, 4, 9]]
    );
    // Operands that coincide, plain and complemented.
    assert_eq!(define(And, 2, 2), [vec![2, 9], vec![2, 9], vec![3, 8]]);
    assert_eq!(define(And, 2, 3), [vec![2, 9], vec![3, 9], vec![2, 3, 8]]);
    assert_eq!(
        define(Xor, 2, 2),
        [vec![2, 9], vec![2, 3, 8], vec![2, 3, 8], vec![3, 9]]
    );
    assert_eq!(
        define(Xor, 3, 2),
        [vec![2, 3, 9], vec![3, 8], vec![2, 8], vec![2, 3, 9]]
    );
}
