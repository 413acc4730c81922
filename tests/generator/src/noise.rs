//! Blocks of samples: a word sent as −1 for 0 and +1 for 1, with Gaussian noise.

use crate::random::Random;

impl Random {
    /// A number from 0 to 1, 1 not included.
    pub fn unit(&mut self) -> f64 {
        (self.number() >> 11) as f64 / (1_u64 << 53) as f64
    }

    /// A Gaussian number of mean 0 and deviation 1, by Box and Muller.
    pub fn gaussian(&mut self) -> f64 {
        let radius = (-2.0 * (1.0 - self.unit()).ln()).sqrt();
        radius * (std::f64::consts::TAU * self.unit()).cos()
    }
}

/// The samples of a word received with noise of this deviation.
pub fn received(sent: &[bool], deviation: f64, random: &mut Random) -> Vec<f32> {
    sent.iter()
        .map(|&bit| {
            let symbol = if bit { 1.0 } else { -1.0 };
            (symbol + deviation * random.gaussian()) as f32
        })
        .collect()
}
