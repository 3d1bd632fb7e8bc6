//! The samples P7, P11 and P12 and their neighbours, which of two faults is given, and forms and
//! proofs of many small lists against forms that are trees.

use std::rc::Rc;

use super::*;
use crate::checker::{check, Checked};
use crate::clause::Clause;
use crate::frame::Operation;
use crate::literal::Literal;
use crate::miter::gates;
use crate::sample::LISTS;

const ADDER: &str = include_str!("../../../../samples/adder16.txt");
const GUARD_OLD: &str = include_str!("../../../../samples/guard-old.txt");
const GUARD_NEW: &str = include_str!("../../../../samples/guard-new.txt");

/// The reply in buffers of these lengths, full of garbage. The working numbers end as zeros, the
/// proof ends in zeros, and after a refusal it is nothing else.
fn reply(text: &str, proof_bytes: usize, work: usize) -> (Result<usize, Refusal>, Vec<u8>) {
    let mut proof = vec![0xA5; proof_bytes];
    let mut work = vec![0xA5A5; work];
    let reply = prove(text.as_bytes(), &mut proof, &mut work);
    assert!(work.iter().all(|&number| number == 0));
    let behind = LINE_BYTES * reply.unwrap_or(0);
    assert!(proof[behind..].iter().all(|&byte| byte == 0));
    proof.truncate(behind);
    (reply, proof)
}

/// The same in just enough, where the text is two lists.
fn reply_in_enough(text: &str) -> (Result<usize, Refusal>, Vec<u8>) {
    let (left, right) = read_lists(text.as_bytes()).expect("the lists are read");
    let bytes = LINE_BYTES * line_bound(&left, &right);
    reply(text, bytes, working_numbers(&left, &right))
}

/// A proof is given, and it is accepted. Gives its number of lines.
#[track_caller]
fn proved(text: &str) -> usize {
    let (reply, proof) = reply_in_enough(text);
    let lines = reply.expect("the forms are the same");
    let whole = [text.as_bytes(), &proof].concat();
    let mut store = vec![0; Clause::MOST_LITERALS * 65_535];
    let checked = check(&whole, &mut store);
    let steps = checked.map(|Checked { steps, .. }| steps);
    assert_eq!(steps, Ok(lines), "{}", whole.escape_ascii());
    lines
}

#[track_caller]
fn differs(text: &str, output: u64) {
    assert_eq!(reply_in_enough(text).0, Err(Refusal::forms(output)));
}

/// Two lists of two inputs a and b and one output, each given by its gates.
fn over_two_inputs(left: &[&str], right: &[&str]) -> String {
    let list = |lines: &[&str]| format!("0102{:04X}01\n{}\n", lines.len() - 1, lines.join("\n"));
    list(left) + &list(right)
}

#[test]
fn p7_proof_bytes_below_15_times_the_bound_are_16() {
    let work = 16 * 3;
    assert!(reply(LISTS, 420, work).0.is_ok());
    assert!(reply(LISTS, 1_000, work + 100).0.is_ok());
    for bytes in [0, 1, 15, 60, 419] {
        assert_eq!(reply(LISTS, bytes, work).0, Err(Refusal::proof_bytes()));
    }
    for work in [0, 1, 16, 32, 47] {
        assert_eq!(reply(LISTS, 420, work).0, Err(Refusal::working_memory()));
        assert_eq!(reply(LISTS, 419, work).0, Err(Refusal::proof_bytes()));
    }
}

#[test]
fn p11_pairs_are_unordered_and_signs_leave_an_xor() {
    let and = over_two_inputs(&["0200020004", "040006"], &["0200040002", "040006"]);
    proved(&and);
    let xor =
        |right: &str, output: &str| over_two_inputs(&["0300020004", "040006"], &[right, output]);
    proved(&xor("0300030004", "040007"));
    proved(&xor("0300040003", "040007"));
    proved(&xor("0300030005", "040006"));
    differs(&xor("0300030004", "040006"), 1);
    differs(&xor("0300030005", "040007"), 1);
    differs(&xor("0200020004", "040006"), 1);
}

#[test]
fn p12_an_xor_of_ands_has_another_form() {
    let ands = ["0200020005", "0200030004", "0200070009", "04000B"];
    differs(&over_two_inputs(&ands, &["0300020004", "040006"]), 1);
    proved(&over_two_inputs(&ands, &ands));
}

/// 2 to 7, then 16, then 17, then 18.
#[test]
fn of_two_faults_the_earlier_place_is_given() {
    let unlike = "0101000001\n040002\n0101000001\n040003\n";
    assert_eq!(reply(unlike, 180, 32).0, Err(Refusal::forms(1)));
    assert_eq!(reply(unlike, 180, 31).0, Err(Refusal::working_memory()));
    assert_eq!(reply(unlike, 179, 31).0, Err(Refusal::proof_bytes()));
    let behind = format!("{unlike}\n");
    assert_eq!(reply(&behind, 179, 31).0, Err(Refusal::frame(5)));
    assert_eq!(reply("", 0, 0).0, Err(Refusal::end(1)));
    let faults = [
        ("0101000001\n04000G\n", Refusal::line_bytes(2)),
        ("0101000001\n040002\n", Refusal::end(3)),
        ("0141000001\n", Refusal::header(1)),
        ("0101000001\n040002\n0102000001\n", Refusal::right_header(3)),
        ("0101000001\n040004\n", Refusal::literal(2)),
    ];
    for (text, refusal) in faults {
        assert_eq!(reply(text, 1_000, 1_000).0, Err(refusal));
        assert_eq!(reply(text, 0, 0).0, Err(refusal));
    }
}

/// "the first such output, from 1".
#[test]
fn the_first_output_that_differs_is_given() {
    let list = |complemented: &[usize]| {
        let sign = |output: usize| usize::from(complemented.contains(&output));
        let outputs = (1..=64).map(|output| format!("04{:04X}\n", 2 * output + sign(output)));
        format!("0140000040\n{}", outputs.collect::<String>())
    };
    proved(&(list(&[]) + &list(&[])));
    for first in 1..=64 {
        differs(&(list(&[first, 64]) + &list(&[])), first as u64);
    }
}

#[test]
fn sample_lists_are_proved() {
    proved(&ADDER.repeat(2));
    proved(&GUARD_OLD.repeat(2));
    proved(&format!("{GUARD_OLD}{GUARD_NEW}"));
    proved(&format!("{GUARD_NEW}{GUARD_OLD}"));
}

/// The gate against each literal over the input: just one has the form.
#[track_caller]
fn folds_to(gate: &str, form: u16) {
    let gate = format!("0101000101\n{gate}\n040004\n");
    for output in 0..4 {
        let wire = format!("0101000001\n04{output:04X}\n");
        let texts = [gate.clone() + &wire, wire + &gate];
        if output == form {
            texts.iter().for_each(|text| assert!(proved(text) > 0));
        } else {
            texts.iter().for_each(|text| differs(text, 1));
        }
    }
}

/// AND and XOR of equal, opposite and constant operands.
#[test]
fn folds_of_one_input() {
    let folds = [
        ("0200020000", 0),
        ("0200000003", 0),
        ("0200020001", 2),
        ("0200010003", 3),
        ("0200020002", 2),
        ("0200030003", 3),
        ("0200020003", 0),
        ("0200010001", 1),
        ("0200000001", 0),
        ("0300020000", 2),
        ("0300020001", 3),
        ("0300010003", 2),
        ("0300020002", 0),
        ("0300020003", 1),
        ("0300030002", 1),
        ("0300000000", 0),
        ("0300000001", 1),
        ("0300010001", 0),
    ];
    for (gate, form) in folds {
        folds_to(gate, form);
    }
}

/// The largest lists: each gate is the XOR of the two nets before it, on the right with its
/// operands exchanged and behind a link.
#[test]
fn the_largest_lists_are_proved() {
    let list = |gate: &dyn Fn(usize) -> String| {
        let gates: String = (65..1_089).map(gate).collect();
        let outputs: String = (1_025..1_089)
            .map(|n| format!("04{:04X}\n", 2 * n))
            .collect();
        format!("0140040040\n{gates}{outputs}")
    };
    let left = list(&|own| format!("03{:04X}{:04X}\n", 2 * own - 4, 2 * own - 2));
    let right = list(&|own| format!("03{:04X}{:04X}\n", 2 * own - 2, 2 * own - 4));
    let lines = proved(&(left.clone() + &right));
    assert!(lines > 14 * 1_000, "{lines} lines");
    let ands = right.replace("\n03", "\n02");
    differs(&(left + &ands), 1);
}

/// A form as the paper builds it: a sign and a core, which is a tree.
#[derive(Clone)]
struct Tree {
    complemented: bool,
    core: Rc<Core>,
}

enum Core {
    False,
    Input(usize),
    And([Tree; 2]),
    Xor([Rc<Core>; 2]),
}

impl Tree {
    fn of(core: Core) -> Self {
        Self {
            complemented: false,
            core: Rc::new(core),
        }
    }

    fn complemented_if(&self, turned: bool) -> Self {
        Self {
            complemented: self.complemented != turned,
            core: Rc::clone(&self.core),
        }
    }

    fn is_constant(&self, value: bool) -> bool {
        matches!(*self.core, Core::False) && self.complemented == value
    }

    /// "Two forms are the same if sign and core are".
    fn same(&self, other: &Self) -> bool {
        self.complemented == other.complemented && same_core(&self.core, &other.core)
    }

    fn and(one: &Self, other: &Self) -> Self {
        if one.is_constant(false) || other.is_constant(false) {
            return Self::of(Core::False);
        }
        if one.is_constant(true) {
            return other.clone();
        }
        if other.is_constant(true) || one.same(other) {
            return one.clone();
        }
        if one.same(&other.complemented_if(true)) {
            return Self::of(Core::False);
        }
        Self::of(Core::And([one.clone(), other.clone()]))
    }

    fn xor(one: &Self, other: &Self) -> Self {
        let cores = [one, other].map(|form| Rc::clone(&form.core));
        let plain = match cores.each_ref().map(Rc::as_ref) {
            [Core::False, _] => other.complemented_if(other.complemented),
            [_, Core::False] => one.complemented_if(one.complemented),
            [a, b] if same_core(a, b) => Self::of(Core::False),
            _ => Self::of(Core::Xor(cores)),
        };
        plain.complemented_if(one.complemented != other.complemented)
    }
}

/// "cores compared by how they are built", where "Pairs are unordered".
fn same_core(one: &Core, other: &Core) -> bool {
    match (one, other) {
        (Core::False, Core::False) => true,
        (Core::Input(one), Core::Input(other)) => one == other,
        (Core::And([a, b]), Core::And([c, d])) => a.same(c) && b.same(d) || a.same(d) && b.same(c),
        (Core::Xor([a, b]), Core::Xor([c, d])) => {
            same_core(a, c) && same_core(b, d) || same_core(a, d) && same_core(b, c)
        }
        _ => false,
    }
}

/// The form of each of the miter's nets.
fn trees(left: &Netlist, right: &Netlist) -> Vec<Tree> {
    let inputs = (1..=left.inputs()).map(|input| Tree::of(Core::Input(input)));
    let mut trees: Vec<Tree> = [Tree::of(Core::False)].into_iter().chain(inputs).collect();
    for gate in gates(left, right) {
        let [one, other] = gate.operands.map(|literal| tree(&trees, literal));
        trees.push(match gate.operation {
            Operation::And => Tree::and(&one, &other),
            Operation::Xor => Tree::xor(&one, &other),
        });
    }
    trees
}

fn tree(trees: &[Tree], literal: Literal) -> Tree {
    trees[literal.net()].complemented_if(literal.is_complemented())
}

/// Two inputs and three gates; out of so many lists the one with this number.
const SMALL_LISTS: usize = 72 * 128 * 200;

fn small_gates(mut number: usize) -> String {
    let mut gates = String::new();
    for literals in [6, 8, 10] {
        let kind = 2 + number % 2;
        let x = number / 2 % literals;
        let y = number / 2 / literals % literals;
        gates += &format!("{kind:02X}{x:04X}{y:04X}\n");
        number /= 2 * literals * literals;
    }
    gates
}

/// Two lists with these gates and these outputs.
fn small_pair(gates: &[String; 2], outputs: &[[usize; 2]]) -> String {
    let list = |side: usize| {
        let shown = outputs.iter().map(|pair| format!("04{:04X}\n", pair[side]));
        let shown: String = shown.collect();
        format!("01020003{:02X}\n{}{shown}", outputs.len(), gates[side])
    };
    list(0) + &list(1)
}

/// Pairs of small lists, spread over all of them.
fn small_pairs(count: usize) -> impl Iterator<Item = [String; 2]> {
    (0..count).map(|pair| {
        let left = pair * 1_000_003 % SMALL_LISTS;
        let right = (pair * 777_767_777 + left * (pair % 2)) % SMALL_LISTS;
        [left, right].map(small_gates)
    })
}

/// Forms have the same number if and only if they are the same as trees.
#[test]
fn forms_are_the_same_as_trees() {
    let mut cases = [0, 0];
    for gates in small_pairs(40_000) {
        let text = small_pair(&gates, &[[0, 0]]);
        let (left, right) = read_lists(text.as_bytes()).expect("the lists are read");
        let (forms, trees) = (Forms::of(&left, &right), trees(&left, &right));
        let literals = (0..2 * trees.len() as u16).map(Literal);
        for one in literals.clone() {
            for other in literals.clone() {
                let same = tree(&trees, one).same(&tree(&trees, other));
                let same_number = forms.of_literal(one) == forms.of_literal(other);
                assert_eq!(same_number, same, "{one:?} and {other:?} in {text}");
                cases[usize::from(same)] += 1;
            }
        }
    }
    assert!(cases.iter().all(|&cases| cases > 1_000_000), "{cases:?}");
}

/// Every output that can be shown to agree, in one proof; and behind them one that differs.
#[test]
fn small_lists_are_proved() {
    let mut most = 0;
    for gates in small_pairs(4_000) {
        let text = small_pair(&gates, &[[0, 0]]);
        let (left, right) = read_lists(text.as_bytes()).expect("the lists are read");
        let trees = trees(&left, &right);
        // A right gate's literal is above that of the left gates.
        let beside = |literal: usize| literal + if literal < 6 { 0 } else { 6 };
        let same = |[one, other]: &[usize; 2]| {
            let [one, other] = [*one, beside(*other)].map(|literal| Literal(literal as u16));
            tree(&trees, one).same(&tree(&trees, other))
        };
        let pairs = (0..12).flat_map(|one| (0..12).map(move |other| [one, other]));
        let (mut outputs, unlike): (Vec<_>, Vec<_>) = pairs.partition(same);
        outputs.truncate(63);
        let lines = proved(&small_pair(&gates, &outputs));
        most = most.max(lines);
        outputs.push(unlike[lines % unlike.len()]);
        differs(&small_pair(&gates, &outputs), outputs.len() as u64);
    }
    assert!(most > 150, "{most} lines");
}
