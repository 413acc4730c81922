//! The user's tool around the proved decoder: text and spreadsheets in, a results table out.
//!
//! What decodes is the proved program, run as a child process, or the proved library; this tool
//! reads, splits, tells and writes. Whatever is wrong is said as `file:line:field: what, remedy`.

mod amount;
pub mod arguments;
pub mod checked;
pub mod decode;
pub mod fault;
pub mod fields;
pub mod lines;
pub mod map;
pub mod matrix;
pub mod matrix_file;
pub mod number;
mod one_step;
pub mod output;
pub mod pack;
pub mod program;
pub mod progress;
pub mod report;
pub mod results;
pub mod samples_file;
pub mod setting;
pub mod simulate;
pub mod status;
pub mod stream;
pub mod svg;
mod text;
pub mod unpack;
mod word;
mod words_file;
