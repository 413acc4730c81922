//! Random numbers of the tool's own: xoshiro256** seeded by splitmix64, and Gaussian ones by
//! Marsaglia's polar method.

/// A stream of random numbers. The same key gives the same stream.
pub struct Random {
    state: [u64; 4],
    /// The second number of a Gaussian pair, if it has not been used yet.
    spare: Option<f64>,
}

impl Random {
    /// A stream for a key of several numbers.
    pub fn new(key: &[u64]) -> Random {
        let mut mixed = 0;
        for part in key {
            mixed = splitmix(&mut (mixed ^ part));
        }
        Random {
            state: std::array::from_fn(|_| splitmix(&mut mixed)),
            spare: None,
        }
    }

    /// 64 random bits.
    pub fn number(&mut self) -> u64 {
        let s = &mut self.state;
        let result = s[1].wrapping_mul(5).rotate_left(7).wrapping_mul(9);
        let moved = s[1] << 17;
        s[2] ^= s[0];
        s[3] ^= s[1];
        s[1] ^= s[2];
        s[0] ^= s[3];
        s[2] ^= moved;
        s[3] = s[3].rotate_left(45);
        result
    }

    /// A number from -1 to 1, 1 not included.
    fn signed_unit(&mut self) -> f64 {
        (self.number() >> 11) as f64 / (1_u64 << 52) as f64 - 1.0
    }

    /// A Gaussian number of mean 0 and deviation 1.
    pub fn gaussian(&mut self) -> f64 {
        if let Some(spare) = self.spare.take() {
            return spare;
        }
        loop {
            let (x, y) = (self.signed_unit(), self.signed_unit());
            let square = x * x + y * y;
            if 0.0 < square && square < 1.0 {
                let scale = (-2.0 * square.ln() / square).sqrt();
                self.spare = Some(y * scale);
                return x * scale;
            }
        }
    }
}

/// The next number of splitmix64.
fn splitmix(state: &mut u64) -> u64 {
    *state = state.wrapping_add(0x9E37_79B9_7F4A_7C15);
    let mut z = *state;
    z = (z ^ (z >> 30)).wrapping_mul(0xBF58_476D_1CE4_E5B9);
    z = (z ^ (z >> 27)).wrapping_mul(0x94D0_49BB_1331_11EB);
    z ^ (z >> 31)
}

#[cfg(test)]
mod tests {
    use super::{splitmix, Random};

    #[test]
    fn splitmix_as_published() {
        let mut state = 1_234_567;
        let numbers: [u64; 3] = std::array::from_fn(|_| splitmix(&mut state));
        let published = [
            6_457_827_717_110_365_317,
            3_203_168_211_198_807_973,
            9_817_491_932_198_370_423,
        ];
        assert_eq!(numbers, published);
    }

    #[test]
    fn xoshiro_as_published() {
        let mut random = Random::new(&[]);
        random.state = [1, 2, 3, 4];
        let numbers: [u64; 5] = std::array::from_fn(|_| random.number());
        let published = [
            11_520,
            0,
            1_509_978_240,
            1_215_971_899_390_074_240,
            1_216_172_134_540_287_360,
        ];
        assert_eq!(numbers, published);
    }

    #[test]
    fn streams_of_different_keys_differ() {
        let first = |key: &[u64]| Random::new(key).number();
        let keys: [&[u64]; 6] = [&[], &[0], &[1], &[0, 1], &[1, 0], &[1, 1]];
        for (at, one) in keys.iter().enumerate() {
            assert_eq!(first(one), first(one));
            assert!(keys[..at].iter().all(|other| first(other) != first(one)));
        }
    }

    /// Mean, deviation, fourth moment and the share beyond 2 of a million Gaussian numbers.
    #[test]
    fn gaussian_moments() {
        let mut random = Random::new(&[7]);
        let count = 1_000_000;
        let (mut sum, mut squares, mut fourths, mut beyond) = (0.0, 0.0, 0.0, 0.0);
        for _ in 0..count {
            let x = random.gaussian();
            sum += x;
            squares += x * x;
            fourths += x.powi(4);
            beyond += f64::from(u8::from(x.abs() > 2.0));
        }
        let mean = |sum: f64| sum / f64::from(count);
        assert!(mean(sum).abs() < 0.005);
        assert!((mean(squares) - 1.0).abs() < 0.007);
        assert!((mean(fourths) - 3.0).abs() < 0.05);
        assert!((mean(beyond) - 0.0455).abs() < 0.001);
    }
}
