//! What the comparisons share: random numbers, cases made from them, replies by the reference, runs
//! of programs, and counts of what the cases reached. Nothing in it calls the archive, so that the
//! reference's own tests have it too.

// Each test uses a part of it.
#![allow(dead_code)]

pub mod calls;
pub mod checking;
pub mod drawing;
pub mod expected;
pub mod extensions;
pub mod garbage;
pub mod large_texts;
pub mod layouts;
pub mod list_texts;
pub mod lists;
pub mod mutated;
pub mod pairs;
pub mod patterns;
pub mod places;
pub mod programs;
pub mod proof_texts;
pub mod proofs;
pub mod random;
pub mod refutations;
pub mod relaid;
pub mod rewrites;
pub mod samples;
pub mod sizes;
pub mod sums;
pub mod tally;
pub mod texts;
pub mod trials;

/// Bytes in hexadecimal. Of a long text only both ends; the seed and the case's number give all.
pub fn hex(bytes: &[u8]) -> String {
    const SHOWN: usize = 128;
    let digits = |bytes: &[u8]| bytes.iter().map(|b| format!("{b:02X}")).collect::<String>();
    if bytes.len() <= 2 * SHOWN {
        return digits(bytes);
    }
    let (head, tail) = (&bytes[..SHOWN], &bytes[bytes.len() - SHOWN..]);
    format!("{}...{}", digits(head), digits(tail))
}
