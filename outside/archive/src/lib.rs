//! Safe calls into the static library `libcec_abi.a`. What each number and byte means afterwards
//! stands in `include/cec.h`; the declarations here repeat that header, a module for each part of
//! it. Who uses the calls of one module does not need the library to have those of another.

mod checker;
mod engine;
mod evaluator;
mod frames;
mod lists;

pub use checker::check;
pub use engine::prove;
pub use evaluator::evaluate;
pub use frames::{read_frame, write_frame};
pub use lists::{read_list, read_lists};

/// A reply is filled with this before each call, so that a number left unwritten is seen.
const UNWRITTEN: u64 = 0xA5A5_A5A5_A5A5_A5A5;
