//! Document 01 in plain Rust, written from the paper alone.
//!
//! The tests compare the static library with this crate, so it is written to be read against the
//! paper. The measurements do too, so it takes each text in one pass. One module holds one subject:
//!
//! - `refusal`: number and line of a fault;
//! - `line`: a text cut into lines, with refusal 2;
//! - `frame`: the table of frames, the reader of a lone line and the writer, with 3 and 16;
//! - `literal`: a net or a variable with its sign;
//! - `netlist`: a gate list, and the reader of one list and of two, with 3 to 7;
//! - `evaluator`: the values of a list's nets and outputs on a pattern, with 17;
//! - `clause`: a set of literals, the resolvent of two, and the clauses of an AND or XOR;
//! - `miter`: the variables and clauses that a proof starts from;
//! - `checker`: the steps of a proof, with 8 to 15, and the checking programs' report, with 1;
//! - `engine`: folded forms, and the proof that two lists with the same forms agree, with 16 to 18;
//! - `sample`: the lists and the proof of the paper's bench samples.
//!
//! The program `reference_check` prints the report on its standard input; cargo alone builds it.

#![forbid(unsafe_code)]

mod checker;
mod clause;
mod engine;
mod evaluator;
mod frame;
mod line;
mod literal;
mod miter;
mod netlist;
mod refusal;
pub mod sample;

pub use checker::{check, report, report_within, Checked, Limits};
pub use clause::{definition, Clause};
pub use engine::prove;
pub use evaluator::{evaluate, evaluate_nets, output_word};
pub use frame::{field_bytes, read_frame, write_frame, Frame, Operation};
pub use literal::Literal;
pub use miter::{gates as miter_gates, outputs as miter_outputs, Miter};
pub use netlist::{read_list, read_lists, Gate, Netlist};
pub use refusal::Refusal;
