//! The literal decoder of document 01 and of cards 1 to 7 of document 02, a second opinion for the
//! tests.
//!
//! Each function is one passage of a document, done the slow way it is said: all rows are
//! searched for a bit's checks, all pairs of rows are compared, words are lists of bits. The
//! passage stands in quotation marks above it.

// The document's own arithmetic is kept.
#![allow(clippy::manual_div_ceil, clippy::manual_is_multiple_of)]

mod answer;
mod changed;
pub mod firmware;
mod index;
mod iterative;
mod matrix;
mod numbers;
mod one_step;
mod program;
mod quantiser;
mod refusal;
mod session;
mod sheet;
mod whole;
mod widths;
mod word;

pub use answer::{Answer, Outcome};
pub use changed::changed;
pub use index::{index, index_of, iterative_indexed, one_step_indexed, trust_index, write_index};
pub use iterative::{iterative, iterative_accepted};
pub use matrix::{check, Matrix};
pub use one_step::{failing, failing_accepted, failing_checks, one_step, one_step_accepted};
pub use program::program;
pub use quantiser::{check_setting, hard_bit, largest_level, level, quantise, Setting};
pub use refusal::Refusal;
pub use session::{open, open_checked, step, step_checked, Session, State};
pub use sheet::{
    list_to_sheet, matrix_of_sheet, sheet_of, sheet_of_accepted, sheet_to_list, write_matrix,
    write_sheet,
};
pub use widths::{narrow, widen};
pub use word::{byte_count, pack, unpack};
