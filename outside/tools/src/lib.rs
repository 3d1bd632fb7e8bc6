//! What the programs `bench` and `fuzz` run: the archive beside the reference, in one process.

// Texts, lists and proofs are made, and replies compared, as for the tests.
#[path = "../../archive/tests/common/mod.rs"]
mod common;
#[path = "../../archive/tests/judge/mod.rs"]
mod judge;

mod evidence;

pub mod bench;
pub mod fuzz;
