//! The program in the incremental form, a bit a parity: the same output for the same input.

use bench::incremental::{Bits, Incremental};

fn main() {
    bench::whole::on_standard_streams::<Incremental<Bits>>();
}
