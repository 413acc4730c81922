//! The tool as its users run it, in one test program.

mod chance;
mod common;
mod ends;
mod hostile;
mod make;
mod memory;
mod messages;
mod pictures;
mod round_trips;
mod sheets;
mod table;
mod unlike;
