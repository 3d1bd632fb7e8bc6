//! Texts of proofs: whole ones, ones that end otherwise, and ones with a fault at some line.

use cec_reference::sample::{LISTS, PROOF};
use cec_reference::Literal;

use super::calls::line;
use super::pairs;
use super::proofs::{Proof, Step, EXTEND_BY_AND, EXTEND_BY_XOR, RESOLVE};
use super::random::Random;
use super::refutations::refute_among_others;
use super::{list_texts, texts};

/// P5 as a text. The left list is XOR of a, a, and the right one false; clause 3 is (a, ¬a, n).
/// The extension t is AND of ¬a, n, and clause 11 is (¬a, ¬t). On a they resolve to (¬a, n, ¬t).
pub const P5: &str = "0101000101\n0300020002\n040004\n0101000001\n040000\n\
    1200030004\n110003000B0001\n11000A00060003\n11000F00010000\n\
    11001000020002\n11001000050002\n11001100120001\n";

/// The bench sample with these lines as its proof.
pub fn bench(proof: &[&str]) -> String {
    format!("{LISTS}{}", proof.concat())
}

/// The bench sample with another first step, and its other three steps behind it.
pub fn bench_from(first: &str) -> String {
    bench(&[first, PROOF[1], PROOF[2], PROOF[3]])
}

/// The bench sample's proof behind so many lines that repeat its first: 13 clauses and as many more.
pub fn proof_behind(lines: usize) -> String {
    let [first, second, third] = [10, 11, 12].map(|number| number + lines);
    bench(&[
        &PROOF[0].repeat(lines),
        PROOF[0],
        PROOF[1],
        &format!("11{first:04X}{second:04X}0001\n"),
        &format!("110009{third:04X}0003\n"),
    ])
}

/// Two lists of which the left has these gates: with so many ANDs and XORs the miter has
/// 6 + 3 × ANDs + 4 × XORs clauses.
pub fn gates(ands: usize, xors: usize) -> String {
    let count = ands + xors;
    let [ands, xors] = ["0200000000\n".repeat(ands), "0300000000\n".repeat(xors)];
    format!("0100{count:04X}01\n{ands}{xors}040000\n0100000001\n040000\n")
}

/// A text for the checker.
pub struct ProofText {
    /// What it is, or what was done to it.
    pub about: String,
    pub text: Vec<u8>,
    /// How many clauses the miter has; none if the lists are refused.
    pub miter: Option<usize>,
    /// How many clauses suffice for every valid line.
    pub clauses: usize,
    /// Refusal and line, or zeros, in a store that suffices; none where it takes a checker to say.
    pub expected: Option<[u64; 2]>,
    /// What the steps of a proof without fault show, or a known fault.
    pub shown: Vec<&'static str>,
}

impl ProofText {
    /// A text of which nothing is known in advance.
    pub fn unknown(about: impl Into<String>, text: Vec<u8>) -> Self {
        Self {
            about: about.into(),
            text,
            miter: None,
            clauses: 0,
            expected: None,
            shown: Vec::new(),
        }
    }
}

/// A way to make a text of a proof, under the name that the tests count. None if the proof lacks
/// what it needs.
type Making = (&'static str, fn(&mut Random, &Proof) -> Option<ProofText>);

/// A fault of one field, with its refusal, made of a resolve that is valid there.
type ResolveFault = (&'static str, u64, fn(&mut Random, &Place) -> [u16; 3]);

/// The proof as it is, or ended otherwise.
const ENDINGS: [Making; 6] = [
    ("a refutation", |_, proof| {
        proof.is_refutation().then(|| whole(proof))
    }),
    ("steps that refute nothing", |_, proof| {
        let refutes_nothing = !proof.steps.is_empty() && !proof.is_refutation();
        refutes_nothing.then(|| whole(proof))
    }),
    ("no line", |_, proof| Some(whole(&proof.first_steps(0)))),
    ("no last line", |_, proof| {
        let count = proof.steps.len().checked_sub(1)?;
        Some(whole(&proof.first_steps(count)))
    }),
    ("a step behind the empty clause", |random, proof| {
        let mut behind = proof.is_refutation().then(|| proof.clone())?;
        behind.take_random(random);
        Some(whole(&behind))
    }),
    (
        "a step behind it, then the empty clause again",
        |random, proof| {
            let mut behind = proof.is_refutation().then(|| proof.clone())?;
            let (last, _) = *behind.steps.last()?;
            behind.take_random(random);
            behind.take(last)?;
            Some(whole(&behind))
        },
    ),
];

/// A fault in a resolve: at each, the refusals before its own are not due.
const RESOLVE_FAULTS: [ResolveFault; 10] = [
    ("first clause 0", 9, |_, at| [0, at.second, at.pivot]),
    ("second clause 0", 9, |_, at| [at.first, 0, at.pivot]),
    ("first clause one past the last", 9, |_, at| {
        [at.clauses + 1, at.second, at.pivot]
    }),
    ("second clause one past the last", 9, |_, at| {
        [at.first, at.clauses + 1, at.pivot]
    }),
    ("a clause far past the last", 9, |random, at| {
        let far = random.pick(&[u16::MAX, 0x8000 | at.first, at.clauses + 0x100]);
        random.pick(&[[far, at.second, at.pivot], [at.first, far, at.pivot]])
    }),
    ("clause 0 and no pivot", 9, |_, at| {
        [0, 0, at.pivot | 0x8000]
    }),
    ("a pivot 16,384 higher", 10, |_, at| {
        [at.first, at.second, at.pivot | 0x4000]
    }),
    ("a pivot 32,768 higher", 10, |_, at| {
        [at.first, at.second, at.pivot | 0x8000]
    }),
    ("a pivot 49,152 higher", 10, |_, at| {
        [at.first, at.second, at.pivot | 0xC000]
    }),
    ("a pivot not in use", 10, |_, at| {
        [at.first, at.second, at.variables]
    }),
];

/// Other faults of a step, of a line's frame and of its bytes.
const FAULTS: [Making; 10] = [
    ("a pivot in use that is not held", |random, proof| {
        let at = Place::any(random, proof)?;
        let pivot = random.below(at.variables.into()) as u16;
        unheld(proof, &at, [at.first, at.second, pivot])
    }),
    ("clauses exchanged", |random, proof| {
        let at = Place::any(random, proof)?;
        unheld(proof, &at, [at.second, at.first, at.pivot])
    }),
    ("an operand one past those in use", |random, proof| {
        let place = any_place(random, proof);
        let operand = 2 * proof.variables_before(place) + random.below(2) as u16;
        Some(extend_fault(random, proof, place, operand))
    }),
    ("an operand far past those in use", |random, proof| {
        let place = any_place(random, proof);
        let in_use = 2 * proof.variables_before(place);
        let operand = random.pick(&[0x8000, 0xFFFF, 0x8000 + in_use, in_use + 0x100]);
        Some(extend_fault(random, proof, place, operand))
    }),
    ("a kind not due", |random, proof| {
        let kind = random.pick(&[0x01, 0x02, 0x03, 0x04, 0x21]);
        let line = line(random, kind);
        Some(faulty(proof, any_place(random, proof), line, 3))
    }),
    ("an empty line", |random, proof| {
        Some(faulty(proof, any_place(random, proof), b"\n".to_vec(), 3))
    }),
    ("a digit too many", |random, proof| {
        line_fault(random, proof, 3, |_, line| line.insert(2, b'0'))
    }),
    ("a digit too few", |random, proof| {
        line_fault(random, proof, 3, |_, line| {
            line.remove(2);
        })
    }),
    ("a byte that is no digit", |random, proof| {
        line_fault(random, proof, 2, |random, line| {
            let place = random.below(line.len() - 1);
            line[place] = random.pick(b"/:@G`a \r\0\xFF");
        })
    }),
    ("no LF at the end", |random, proof| {
        let place = proof.steps.len().checked_sub(1)?;
        let mut line = proof.steps[place].0.line();
        line.truncate(1 + random.below(line.len() - 1));
        Some(faulty(proof, place, line, 2))
    }),
];

/// A resolvent that is too long, apart from the others because few proofs have one.
const OVERLONG: [Making; 1] = [("nine literals or more", |random, proof| {
    let any = random.below(proof.steps.len() + 1);
    let place = random.pick(&[any, proof.steps.len()]);
    let step = proof.random_overlong(random, proof.clauses_before(place))?;
    Some(faulty(proof, place, step.line(), 11))
})];

/// Changes whose refusal, if there is one, it takes a checker to say.
const CHANGES: [Making; 7] = [
    ("any resolve", |random, proof| {
        let place = any_place(random, proof);
        let clauses = proof.clauses_before(place);
        let [first, second] = [(); 2].map(|()| random.below(clauses + 2));
        let pivot = random.below(proof.variables.into()) as u16;
        let step = Step::resolve(first, second, pivot);
        Some(changed(proof, with_line(proof, place, step.line())))
    }),
    ("a line damaged", |random, proof| {
        let mut lines = proof.lines();
        let place = random.below(lines.len().max(1));
        texts::damage(random, lines.get_mut(place)?);
        Some(changed(proof, lines))
    }),
    ("a digit changed", |random, proof| {
        let mut lines = proof.lines();
        let place = random.below(lines.len().max(1));
        let line = lines.get_mut(place)?;
        let digit = random.below(line.len() - 1);
        line[digit] = random.pick(b"0123456789ABCDEF");
        Some(changed(proof, lines))
    }),
    ("the text damaged", |random, proof| {
        let mut damaged = changed(proof, proof.lines());
        texts::damage(random, &mut damaged.text);
        Some(damaged)
    }),
    ("a line left out", |random, proof| {
        let mut lines = proof.lines();
        let place = random.below(lines.len().max(1));
        (place < lines.len()).then(|| lines.remove(place))?;
        Some(changed(proof, lines))
    }),
    ("a line doubled", |random, proof| {
        let mut lines = proof.lines();
        let place = random.below(lines.len().max(1));
        lines.insert(place, lines.get(place)?.clone());
        Some(changed(proof, lines))
    }),
    ("two lines exchanged", |random, proof| {
        let mut lines = proof.lines();
        let count = lines.len().max(1);
        let [one, other] = [(); 2].map(|()| random.below(count));
        lines.get(one.max(other))?;
        lines.swap(one, other);
        Some(changed(proof, lines))
    }),
];

/// The names of the texts whose reply is known in advance.
pub fn known() -> Vec<String> {
    let makings = ENDINGS.iter().chain(&FAULTS).chain(&OVERLONG);
    let names = makings.map(|&(name, _)| name);
    let resolve_faults = RESOLVE_FAULTS.iter().map(|&(name, ..)| name);
    names.chain(resolve_faults).map(String::from).collect()
}

/// A proof of an agreeing pair, mostly complete; or steps over a pair that does not agree.
pub fn any_proof(random: &mut Random) -> Proof {
    let [left, mut right] = pairs::agreeing(random);
    let agree = !random.one_in(8);
    if !agree {
        right.outputs[0] ^= 1;
    }
    let lists = [left.text(), right.text()].concat();
    let mut proof = Proof::of(lists).expect("the lists are read");
    for _ in 0..random.pick(&[0, 1, 3, 20]) {
        proof.take_random(random);
    }
    for _ in 0..random.pick(&[0, 0, 0, 20]) {
        proof.take_long(random);
    }
    if agree {
        // Where a clause gets too long, the steps before it are left.
        let _ = refute_among_others(&mut proof, random);
    }
    proof
}

/// A text made of the proof: a third as it is or ended otherwise, a half with a known fault.
pub fn any(random: &mut Random, proof: &Proof) -> ProofText {
    loop {
        let (name, made) = match random.below(12) {
            0..4 => made_by(random, proof, &ENDINGS),
            4..6 => made_by(random, proof, &FAULTS),
            6..9 => resolve_fault(random, proof),
            9 => made_by(random, proof, &OVERLONG),
            _ => made_by(random, proof, &CHANGES),
        };
        if let Some(text) = made {
            let about = name.into();
            return ProofText { about, ..text };
        }
    }
}

/// A few lines behind two lists of any size, which are damaged in most cases.
pub fn behind_any_lists(random: &mut Random) -> ProofText {
    let (about, lists) = list_texts::any(random, 2);
    let Some(mut proof) = Proof::of(lists.clone()) else {
        let kinds = [RESOLVE, EXTEND_BY_AND, EXTEND_BY_XOR];
        let lines = (0..random.below(4)).map(|_| {
            let kind = random.pick(&kinds);
            line(random, kind)
        });
        let lines: Vec<Vec<u8>> = lines.collect();
        return ProofText::unknown(about, [lists, lines.concat()].concat());
    };
    for _ in 0..random.below(12) {
        proof.take_random(random);
    }
    any(random, &proof)
}

fn made_by(
    random: &mut Random,
    proof: &Proof,
    makings: &[Making],
) -> (&'static str, Option<ProofText>) {
    let (name, make) = random.pick(makings);
    (name, make(random, proof))
}

/// The proof's text: accepted if it is a refutation, else 15.
fn whole(proof: &Proof) -> ProofText {
    let number = if proof.is_refutation() { 0 } else { 15 };
    ProofText {
        expected: Some([number, 0]),
        shown: proof.shown.clone(),
        ..changed(proof, proof.lines())
    }
}

/// The proof's lists with other lines behind.
fn changed(proof: &Proof, lines: Vec<Vec<u8>>) -> ProofText {
    ProofText {
        miter: Some(proof.miter),
        clauses: proof.clauses.len(),
        ..ProofText::unknown("", proof.text(&lines))
    }
}

/// The proof with a line in the stead of that at a place, or behind the last; it is refused there.
fn faulty(proof: &Proof, place: usize, line: Vec<u8>, number: u64) -> ProofText {
    let list_lines = proof.lists.iter().filter(|&&byte| byte == b'\n').count();
    let at = (list_lines + place + 1) as u64;
    let behind = proof.is_refutation() && place == proof.steps.len();
    let shown = behind.then_some("a fault behind the empty clause");
    ProofText {
        expected: Some([number, at]),
        shown: shown.into_iter().collect(),
        ..changed(proof, with_line(proof, place, line))
    }
}

fn with_line(proof: &Proof, place: usize, line: Vec<u8>) -> Vec<Vec<u8>> {
    let mut lines = proof.lines();
    let replaced = place..lines.len().min(place + 1);
    lines.splice(replaced, [line]);
    lines
}

/// The place of a step, or behind the last.
fn any_place(random: &mut Random, proof: &Proof) -> usize {
    let any = random.below(proof.steps.len() + 1);
    random.pick(&[any, any, proof.steps.len()])
}

/// A place in a proof, and a valid resolve there, but that its resolvent may be too long.
struct Place {
    step: usize,
    first: u16,
    second: u16,
    pivot: u16,
    /// How many clauses and variables there are.
    clauses: u16,
    variables: u16,
}

impl Place {
    fn any(random: &mut Random, proof: &Proof) -> Option<Self> {
        let step = any_place(random, proof);
        let clauses = proof.clauses_before(step);
        let own = proof.steps.get(step).map(|&(step, _)| step);
        let own = own.filter(|step| step.kind == RESOLVE);
        let resolve = own.or_else(|| proof.random_pair(random, clauses))?;
        let [first, second, pivot] = resolve.fields;
        Some(Self {
            step,
            first,
            second,
            pivot,
            clauses: clauses as u16,
            variables: proof.variables_before(step),
        })
    }
}

fn resolve_fault(random: &mut Random, proof: &Proof) -> (&'static str, Option<ProofText>) {
    let (name, number, fault) = random.pick(&RESOLVE_FAULTS);
    let text = Place::any(random, proof).map(|at| {
        let fields = fault(random, &at);
        resolve_instead(proof, &at, fields, number)
    });
    (name, text)
}

/// A resolve on a variable that is not held as it has to be. None if it is.
fn unheld(proof: &Proof, at: &Place, fields: [u16; 3]) -> Option<ProofText> {
    let [first, second, pivot] = fields;
    let [first, second] = [first, second].map(|number| proof.clause(number.into()));
    let pivot = Literal::positive(pivot)?;
    let held = first.holds(pivot) && second.holds(!pivot);
    (!held).then(|| resolve_instead(proof, at, fields, 10))
}

fn resolve_instead(proof: &Proof, at: &Place, fields: [u16; 3], number: u64) -> ProofText {
    let kind = RESOLVE;
    let line = Step { kind, fields }.line();
    faulty(proof, at.step, line, number)
}

/// An extension with this operand, which is 12, and another that may be too.
fn extend_fault(random: &mut Random, proof: &Proof, place: usize, operand: u16) -> ProofText {
    let other = random.pick(&[0, 2, 3, operand, operand ^ 1]);
    let operands = random.pick(&[[operand, other], [other, operand]]);
    let kind = random.pick(&[EXTEND_BY_AND, EXTEND_BY_XOR]);
    let line = Step::extend(kind, operands).line();
    faulty(proof, place, line, 12)
}

/// A line of the proof, changed so that it is refused whatever it says. None if there is no line.
fn line_fault(
    random: &mut Random,
    proof: &Proof,
    number: u64,
    change: fn(&mut Random, &mut Vec<u8>),
) -> Option<ProofText> {
    let place = random.below(proof.steps.len().max(1));
    let mut line = proof.steps.get(place)?.0.line();
    change(random, &mut line);
    Some(faulty(proof, place, line, number))
}
