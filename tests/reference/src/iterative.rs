use crate::answer::decided_positions_that_differ;
use crate::quantiser::{check_setting, hard_bit, largest_level, level, samples_are_finite, stored};
use crate::{byte_count, check, failing_checks, pack, Answer, Matrix, Outcome, Refusal, Setting};

/// "z is the word, R the stored level of each bit, k the round."
pub(crate) struct Voting {
    pub(crate) k: usize,
    pub(crate) z: Vec<bool>,
    pub(crate) r: Vec<i32>,
}

impl Voting {
    /// "1. k = 0; z is the hard bits; R is the levels."
    pub(crate) fn opened(setting: &Setting, samples: &[f32]) -> Voting {
        Voting {
            k: 0,
            z: samples.iter().map(|&sample| hard_bit(sample)).collect(),
            r: samples.iter().map(|&y| level(setting, y)).collect(),
        }
    }

    /// "2. If no check of z fails: decoded, rounds k. 3. Else if k is the round limit: failed,
    /// rounds k."
    pub(crate) fn outcome(&self, h: &Matrix, limit: u16) -> Outcome {
        if failing_checks(h, &self.z) == 0 {
            Outcome::Decoded
        } else if self.k == usize::from(limit) {
            Outcome::Failed
        } else {
            Outcome::Working
        }
    }

    /// "4. For each bit j, E is [..] 5. R becomes R + E, cut to −L or L when beyond; all bits use
    /// the same z. 6. k rises by 1; z is 1 exactly where R is above 0".
    pub(crate) fn round(&mut self, h: &Matrix, checks: &[Vec<usize>], bits: u16) {
        let largest = largest_level(bits);
        for (j, checks_of_j) in checks.iter().enumerate() {
            let sum = self.r[j] + extrinsic(h, &self.z, j, checks_of_j);
            self.r[j] = if sum > largest {
                largest
            } else if sum < -largest {
                -largest
            } else {
                sum
            };
        }
        self.k += 1;
        self.z = self.r.iter().map(|&r| r > 0).collect();
    }

    /// "rounds; failing (checks that fail in the word handed back [..]); changed", of the hard bits
    /// and the levels at opening.
    pub(crate) fn answer(
        &self,
        h: &Matrix,
        outcome: Outcome,
        received: &[bool],
        opened: &[i32],
    ) -> Answer {
        Answer {
            outcome,
            rounds: self.k,
            failing: failing_checks(h, &self.z),
            changed: decided_positions_that_differ(opened, &self.z, received),
        }
    }

    /// "The word is written in either outcome. Iterative voting also writes R as it then stands.
    /// Bytes and levels beyond the first needed ones stay."
    pub(crate) fn write(&self, word: &mut [u8], levels: &mut [i16]) {
        let bytes = pack(&self.z);
        word[..bytes.len()].copy_from_slice(&bytes);
        for (cell, &r) in levels.iter_mut().zip(&self.r) {
            *cell = stored(r);
        }
    }
}

/// "E is the sum over its [..] checks of +1 if the other bits of that check have an odd number of
/// ones, else −1." Card 2: "E sums over its own checks."
fn extrinsic(h: &Matrix, z: &[bool], j: usize, checks: &[usize]) -> i32 {
    let mut e = 0;
    for &i in checks {
        let ones_of_the_others = h.columns(i).filter(|&other| other != j && z[other]).count();
        if ones_of_the_others % 2 == 1 {
            e += 1;
        } else {
            e -= 1;
        }
    }
    e
}

/// The checks of each bit, searched for in all rows.
pub(crate) fn checks_of_all(h: &Matrix) -> Vec<Vec<usize>> {
    (0..usize::from(h.n)).map(|j| h.checks_of(j)).collect()
}

/// "7: samples not exactly n, [..] or a written buffer shorter than needed."
pub(crate) fn buffers_fit(
    h: &Matrix,
    samples: &[f32],
    word: &[u8],
    levels: &[i16],
) -> Result<(), Refusal> {
    let n = usize::from(h.n);
    if samples.len() != n || word.len() < byte_count(h.n) || levels.len() < n {
        return Err(Refusal::plain(7));
    }
    Ok(())
}

/// "iterative voting on samples": refusals 1 to 8.
pub fn iterative(
    h: &Matrix,
    setting: &Setting,
    samples: &[f32],
    word: &mut [u8],
    levels: &mut [i16],
) -> Result<Answer, Refusal> {
    check(h)?;
    iterative_accepted(h, setting, samples, word, levels)
}

/// The same for a matrix that `check` has accepted.
pub fn iterative_accepted(
    h: &Matrix,
    setting: &Setting,
    samples: &[f32],
    word: &mut [u8],
    levels: &mut [i16],
) -> Result<Answer, Refusal> {
    check_setting(setting)?;
    buffers_fit(h, samples, word, levels)?;
    samples_are_finite(samples)?;

    let mut voting = Voting::opened(setting, samples);
    let (received, opened) = (voting.z.clone(), voting.r.clone());
    let mut outcome = voting.outcome(h, setting.limit);
    if outcome == Outcome::Working {
        let checks = checks_of_all(h);
        while outcome == Outcome::Working {
            voting.round(h, &checks, setting.bits);
            // "go to 2."
            outcome = voting.outcome(h, setting.limit);
        }
    }
    voting.write(word, levels);
    Ok(voting.answer(h, outcome, &received, &opened))
}
