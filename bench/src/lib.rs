//! The benchmark's parts: hand-optimised decoders in Rust to measure the library and the program
//! against, the codes that are measured, the clock, and the plot of costs. The literal form is the
//! reference decoder.

pub mod accumulate;
pub mod cases;
pub mod clock;
pub mod distance;
pub mod incremental;
pub mod index;
pub mod optimised;
pub mod plain;
pub mod plot;
/// The tool's writer of pictures, by its file: the tool itself is not built without the archive.
#[path = "../../tools/mlgd/src/svg.rs"]
pub mod svg;
pub mod whole;
