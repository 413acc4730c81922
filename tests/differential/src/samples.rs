//! The quantiser and iterative voting on both sides.

use crate::{Guarded, Subject};
use ffi_face::Packed;
use generator::Random;
use reference::Setting;

/// What a call from samples left: its answer, the word's and the levels' buffer.
#[derive(Clone, Debug, PartialEq)]
pub struct Left {
    pub answer: Packed,
    pub word: Vec<u8>,
    pub levels: Vec<i16>,
}

/// The bytes of so many bits.
pub fn bytes_for(bits: usize) -> usize {
    bits.div_ceil(8)
}

/// A block for a message: all of a short one, else its length and its first samples, as bits.
pub(crate) fn described_samples(samples: &[f32]) -> String {
    let shown: Vec<String> = samples
        .iter()
        .take(30)
        .map(|sample| format!("{sample:e}={:08x}", sample.to_bits()))
        .collect();
    format!("{} samples {}", samples.len(), shown.join(" "))
}

/// Compares the quantiser, with `for_levels` and `for_word` random cells lent; gives what it left.
pub fn quantise(
    setting: &Setting,
    samples: &[f32],
    for_levels: usize,
    for_word: usize,
    random: &mut Random,
) -> Left {
    let lent = Guarded::new(samples, random);
    let mut levels = Guarded::<i16>::by_chance(for_levels, random);
    let mut word = Guarded::<u8>::by_chance(for_word, random);
    let (mut expected_levels, mut expected_word) = (levels.lent().to_vec(), word.lent().to_vec());
    let expected = reference::quantise(setting, samples, &mut expected_levels, &mut expected_word);
    let answer = ffi_face::quantise(setting, lent.lent(), levels.lent_mut(), word.lent_mut());
    let call = || {
        format!(
            "quantiser, {setting:?}, rooms {for_levels} and {for_word}, {}",
            described_samples(samples)
        )
    };
    assert_eq!(answer, Packed::of_check(expected), "{}", call());
    if let Some(at) = (0..for_levels).find(|&at| levels.lent()[at] != expected_levels[at]) {
        let (is, should_be) = (levels.lent()[at], expected_levels[at]);
        let sample = samples.get(at);
        panic!(
            "level {at} of {sample:?} is {is}, should be {should_be}, {}",
            call()
        );
    }
    assert_eq!(word.lent(), expected_word, "word, {}", call());
    assert!(levels.guards_stand(), "guards of the levels, {}", call());
    assert!(word.guards_stand(), "guards of the word, {}", call());
    assert!(lent.holds(samples), "samples, {}", call());
    Left {
        answer,
        word: word.lent().to_vec(),
        levels: levels.lent().to_vec(),
    }
}

/// The same into buffers of exactly the needed cells.
pub fn quantise_exactly(setting: &Setting, samples: &[f32], random: &mut Random) -> Left {
    let count = samples.len();
    quantise(setting, samples, count, bytes_for(count), random)
}

impl Subject {
    /// Compares iterative voting, with `for_word` and `for_levels` random cells lent; gives what
    /// it left.
    pub fn iterative(
        &self,
        setting: &Setting,
        samples: &[f32],
        for_word: usize,
        for_levels: usize,
        random: &mut Random,
    ) -> Left {
        let lent = Guarded::new(samples, random);
        let mut word = Guarded::<u8>::by_chance(for_word, random);
        let mut levels = Guarded::<i16>::by_chance(for_levels, random);
        let (mut expected_word, mut expected_levels) =
            (word.lent().to_vec(), levels.lent().to_vec());
        let expected = self.verdict().and_then(|()| {
            reference::iterative_accepted(
                self.matrix(),
                setting,
                samples,
                &mut expected_word,
                &mut expected_levels,
            )
        });
        let answer = ffi_face::iterative(
            self.lent(),
            setting,
            lent.lent(),
            word.lent_mut(),
            levels.lent_mut(),
        );
        let call = || {
            format!(
                "iterative, {setting:?}, rooms {for_word} and {for_levels}, {}, {}",
                self.described(),
                described_samples(samples)
            )
        };
        assert_eq!(answer, Packed::of_voting(expected), "{}", call());
        assert_eq!(word.lent(), expected_word, "word, {}", call());
        assert_eq!(levels.lent(), expected_levels, "levels, {}", call());
        assert!(word.guards_stand(), "guards of the word, {}", call());
        assert!(levels.guards_stand(), "guards of the levels, {}", call());
        assert!(lent.holds(samples), "samples, {}", call());
        assert!(self.list_stands(), "list, {}", call());
        Left {
            answer,
            word: word.lent().to_vec(),
            levels: levels.lent().to_vec(),
        }
    }

    /// The same with a few cells more than needed in each buffer.
    pub fn block(&self, setting: &Setting, samples: &[f32], random: &mut Random) -> Left {
        let for_word = self.needed() + random.below(4);
        let for_levels = usize::from(self.matrix().n) + random.below(4);
        self.iterative(setting, samples, for_word, for_levels, random)
    }
}
