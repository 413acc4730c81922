//! The program in the incremental form, a byte a parity: the same output for the same input.

use bench::incremental::{Bytes, Incremental};

fn main() {
    bench::whole::on_standard_streams::<Incremental<Bytes>>();
}
