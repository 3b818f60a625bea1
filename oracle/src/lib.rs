//! The oracle: what a call of the driver is to answer, told by the unchanged Rust over a mock bus and pins, and by
//! the sheet where document 02 wants it.
pub mod airtime;
pub mod call;
pub mod chip;
pub mod driver;
pub mod hex_texts;
pub mod intel_hex;
pub mod library;
#[cfg(feature = "library")]
pub mod linked;
pub mod maker;
pub mod random;
pub mod reader;
pub mod rules;
pub mod run;
pub mod sheet;
pub mod text;
pub mod texts;

pub use call::{Argument, Board, Call, Numbers, Operation, Outcome, Source, Variant};
pub use run::{run, run_into};
pub use text::{answer, parse, print, print_call};
