//! The program in the incremental form, plain: the same output for the same input.

use std::io::{stdin, stdout};

fn main() {
    bench::plain::program(stdin().lock(), stdout().lock()).expect("standard streams");
}
