//! The firmware's face as C sees it: builds the C programs of `c/` and of `examples/` on the
//! archive, runs them, and compares what they print with the reference.
//!
//! LIBFIRMWARE_DIR names the folder of libfirmware.a; build/staticlib is the default. FUZZ_N
//! multiplies the number of random calls, FUZZ_SEED chooses others. What is built goes to cargo's
//! folder for tests.

mod case;
mod workshop;

pub use case::{hexadecimal, Case};
pub use workshop::{archive, is_there, left_out, printed, root, Workshop, STRICT};

use generator::Random;

/// A number from the environment.
fn setting(name: &str, default: u64) -> u64 {
    match std::env::var(name) {
        Ok(text) => text
            .parse()
            .unwrap_or_else(|_| panic!("{name} is not a number: {text}")),
        Err(_) => default,
    }
}

/// How many random calls a test tries: `base` times FUZZ_N.
pub fn cases(base: usize) -> usize {
    base * setting("FUZZ_N", 1) as usize
}

/// The random numbers of one test.
pub fn random(test: u64) -> Random {
    let mut seeds = Random::new(setting("FUZZ_SEED", 0));
    Random::new(seeds.number() ^ test)
}
