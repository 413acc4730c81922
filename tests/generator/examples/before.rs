//! Prints the lines of tests/differential/stored/before_card_7.txt.
//!
//! The stored file is that of the reference decoder before card 7, commit b6675fd, in which levels have 8
//! bits and b ends at 8: this file and src/before.rs were copied into that tree, `pub mod before;` added
//! to its src/lib.rs, and there `cargo run --release -p generator --example before` printed it. It isn't
//! written anew: the tests of tests/differential/tests/before.rs replay it.

fn main() {
    print!("{}", generator::before::lines());
}
