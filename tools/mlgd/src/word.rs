//! Words as the program packs them: eight bits to a byte, the first in the highest place.

/// Bit `at` of a word.
pub fn bit(word: &[u8], at: usize) -> bool {
    word[at / 8] >> (7 - at % 8) & 1 == 1
}

/// Turns bit `at` of a word.
pub fn flip(word: &mut [u8], at: usize) {
    word[at / 8] ^= 0x80 >> (at % 8);
}

/// In how many places two words differ.
pub fn distance(one: &[u8], other: &[u8]) -> usize {
    let pairs = one.iter().zip(other);
    pairs.map(|(a, b)| (a ^ b).count_ones() as usize).sum()
}

/// In how many places the hard bits of samples differ from a word.
pub fn differing(samples: impl Iterator<Item = f32>, word: &[u8]) -> usize {
    let samples = samples.enumerate();
    samples
        .filter(|&(at, sample)| (sample > 0.0) != bit(word, at))
        .count()
}

#[cfg(test)]
mod tests {
    use super::{bit, differing, distance, flip};

    #[test]
    fn bits_and_distances() {
        let mut word = [0x2e, 0x80];
        assert!(bit(&word, 2) && !bit(&word, 7) && bit(&word, 8));
        flip(&mut word, 15);
        assert_eq!(word, [0x2e, 0x81]);
        assert_eq!(distance(&word, &[0x2f, 0x01]), 2);
        let samples = [-1.0, 0.0, 2.0, 1.0, 1e-9];
        assert_eq!(differing(samples.into_iter(), &word), 1);
    }
}
