//! Both sides answer a call, and what they leave is compared: the whole reply, and all lent memory.
//! The archive is lent garbage between guards. An error says what differs.

// Each test uses a part of it.
#![allow(dead_code)]

use crate::common::expected;
use crate::common::garbage::{self, Lent};
use crate::common::list_texts::with_bytes_behind;
use crate::common::random::Random;
use crate::common::sizes::{Lengths, Sizes, EIGHT, LINE_BYTES, MOST_CLAUSES};

/// The reply, on which both agree.
pub type Judged<const COUNT: usize> = Result<[u64; COUNT], String>;

/// Reads a lone line.
pub fn read_frame(random: &mut Random, text: &[u8]) -> Judged<7> {
    let behind = with_bytes_behind(random.word(), text);
    let reply = cec_archive::read_frame(&behind[..text.len()]);
    agree("the reply", reply, expected::reading(text))
}

/// Evaluates a list in so many working bytes.
pub fn evaluate(random: &mut Random, text: &[u8], pattern: u64, length: usize) -> Judged<3> {
    let mut work = Lent::new(random, length, garbage::bytes);
    let mut wanted = vec![1; length];
    let behind = with_bytes_behind(random.word(), text);
    let reply = cec_archive::evaluate(&behind[..text.len()], pattern, work.lent());
    let reference = expected::evaluating(text, pattern, &mut wanted);
    agree("the reply", reply, reference)?;
    equal("working byte", work.left()?, &wanted)?;
    Ok(reply)
}

/// Checks a proof in so many store numbers.
pub fn check(random: &mut Random, text: &[u8], length: usize) -> Judged<4> {
    let mut store = Lent::new(random, length, garbage::numbers);
    let mut wanted = vec![1; length];
    let behind = with_bytes_behind(random.word(), text);
    let reply = cec_archive::check(&behind[..text.len()], store.lent());
    let reference = expected::checking(text, &mut wanted);
    agree("the reply", reply, reference)?;
    equal("store number", store.left()?, &wanted)?;
    Ok(reply)
}

/// Proves two lists in this memory. The lines are free: both checkers accept them.
pub fn prove(random: &mut Random, text: &[u8], lengths: Lengths) -> Judged<3> {
    let mut proof = Lent::new(random, lengths.proof, garbage::bytes);
    let mut work = Lent::new(random, lengths.work, garbage::numbers);
    let behind = with_bytes_behind(random.word(), text);
    let reply = cec_archive::prove(&behind[..text.len()], proof.lent(), work.lent());
    let [refusal, line, lines] = reply;
    let wanted = expected::proving(text, lengths.proof, lengths.work);
    agree("the reply", [refusal, line], wanted)?;
    let bytes = (lines as usize).saturating_mul(LINE_BYTES);
    let written = proof.left()?.split_at_checked(bytes);
    let (written, unused) = written.ok_or(format!("{lines} lines are too many"))?;
    zeros("proof byte behind the lines", unused)?;
    zeros("working number", work.left()?)?;
    match refusal {
        0 => accept(random, text, written, lines)?,
        _ => agree("the number of lines", [lines], [0]).map(|_| ())?,
    }
    Ok(reply)
}

/// Both checkers accept these lines and count them as steps. What is accepted in a store is accepted
/// in a longer one; so the longest is lent to long proofs and now and then.
fn accept(random: &mut Random, text: &[u8], proof: &[u8], lines: u64) -> Result<(), String> {
    let sizes = Sizes::of(text).ok_or("the lists are refused")?;
    if lines > sizes.line_bound() as u64 {
        return Err(format!("{lines} lines are past the bound"));
    }
    let longest = lines > 1_000 || random.one_in(32);
    let enough = sizes.most_clauses() + lines as usize;
    let clauses = if longest { MOST_CLAUSES } else { enough };
    let evidence = [text, proof].concat();
    let reply = check(random, &evidence, EIGHT * clauses)?;
    agree("the proof's reply", [reply[0], reply[2]], [0, lines]).map(|_| ())
}

fn agree<const COUNT: usize>(
    what: &str,
    archive: [u64; COUNT],
    reference: [u64; COUNT],
) -> Judged<COUNT> {
    if archive == reference {
        return Ok(archive);
    }
    Err(format!("{what} is {archive:?} and not {reference:?}"))
}

fn equal<T: PartialEq>(what: &str, left: &[T], wanted: &[T]) -> Result<(), String> {
    if left == wanted {
        return Ok(());
    }
    let place = left
        .iter()
        .zip(wanted)
        .position(|(left, want)| left != want);
    Err(format!("{what} {place:?} differs"))
}

fn zeros<T: Default + PartialEq>(what: &str, left: &[T]) -> Result<(), String> {
    let zero = T::default();
    match left.iter().position(|number| *number != zero) {
        Some(place) => Err(format!("{what} {place} is not zero")),
        None => Ok(()),
    }
}
