//! The program in the accumulate form, hand-optimised: the same output for the same input.

fn main() {
    bench::whole::on_standard_streams::<bench::accumulate::Accumulate>();
}
