//! The comparison of the Rattle library with the reference: every answer whole, and every cell
//! that was lent, in refused calls too.
//!
//! FUZZ_N multiplies the number of random cases, FUZZ_SEED chooses others.

pub mod causes;
#[cfg(feature = "firmware")]
pub mod firmware;
mod guarded;
#[cfg(feature = "index")]
mod indexed;
pub mod rule;
#[cfg(feature = "samples")]
mod samples;
#[cfg(feature = "session")]
mod session;
#[cfg(feature = "sheet")]
mod sheets;
mod subject;
#[cfg(all(feature = "firmware", feature = "index"))]
mod tried;
#[cfg(feature = "samples")]
mod widths;

pub use guarded::{level_by_chance, Cell, Guarded};
#[cfg(feature = "index")]
pub use indexed::Indexed;
#[cfg(feature = "samples")]
pub use samples::{bytes_for, quantise, quantise_exactly, Left};
#[cfg(feature = "session")]
pub use session::{levels_by_chance, Lent, Opened, WORKING};
#[cfg(feature = "sheet")]
pub use sheets::{sheet_refusal, store_refusal, LentSheet, Sheeted};
pub use subject::{refusal, Subject};
#[cfg(all(feature = "firmware", feature = "index"))]
pub use tried::Tried;
#[cfg(feature = "samples")]
pub use widths::{narrow, widen};

use generator::Random;

/// A number from the environment.
fn setting(name: &str, default: u64) -> u64 {
    match std::env::var(name) {
        Ok(text) => text
            .parse()
            .unwrap_or_else(|_| panic!("{name} is not a number: {text}")),
        Err(_) => default,
    }
}

/// How many random cases a test tries: `base` times FUZZ_N.
pub fn cases(base: usize) -> usize {
    base * setting("FUZZ_N", 1) as usize
}

/// The random numbers of one test.
pub fn random(test: u64) -> Random {
    let mut seeds = Random::new(setting("FUZZ_SEED", 0));
    Random::new(seeds.number() ^ test)
}
