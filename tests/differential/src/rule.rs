//! Blocks that the flipping rule for iterative voting speaks of: hard bits that differ from a
//! codeword in at most gamma / 2 places, with samples as strong and as weak as the rule allows.

use generator::codes::Code;
use generator::{patterns, settings, Codewords, Random};
use reference::{hard_bit, largest_level, level, Setting};

/// The largest limit that a setting may have.
pub const LARGEST_LIMIT: usize = 255;

/// The widths beyond 8 bits. From the second on, some numbers of wrong bits ask for more rounds than
/// a limit allows.
pub const FINER: [u16; 4] = [9, 10, 11, 12];

/// A limit that is enough for every code and every number of wrong bits: L / 2 + 1.
pub fn enough(bits: u16) -> usize {
    largest_level(bits) as usize / 2 + 1
}

pub fn with_limit(setting: &Setting, limit: usize) -> Setting {
    Setting {
        limit: limit as u16,
        ..*setting
    }
}

/// A setting with any step. Its limit is chosen with the block.
pub fn some_setting(bits: u16, kind: u16, random: &mut Random) -> Setting {
    let step = settings::some_step(random);
    Setting {
        kind,
        ..settings::level_step(bits, 0, step)
    }
}

/// Every width up to 8 with both kinds of step: with more bits the rounds may be more than a limit allows.
pub fn all_settings(random: &mut Random) -> Vec<Setting> {
    (2..=8)
        .flat_map(|bits| [0, 1].map(|kind| some_setting(bits, kind, random)))
        .collect()
}

/// A sample with this hard bit and a level of this magnitude.
pub fn sample(setting: &Setting, bit: bool, magnitude: i32, random: &mut Random) -> f32 {
    let largest = largest_level(setting.bits);
    let unit = match setting.kind {
        0 => setting.step,
        _ => setting.step / largest as f32,
    };
    let size = match magnitude {
        0 if !bit && random.once_in(2) => *random.pick(&[0.0, -0.0]),
        0 => *random.pick(&[f32::from_bits(1), unit / 4.0, (unit / 2.0).next_down()]),
        _ if magnitude == largest && random.once_in(2) => f32::MAX,
        _ => (magnitude as f32 + 0.8 * random.unit() as f32 - 0.4) * unit,
    };
    let (sample, signed) = match bit {
        true => (size, magnitude),
        false => (-size, -magnitude),
    };
    let made = (hard_bit(sample), level(setting, sample));
    assert_eq!(made, (bit, signed), "{sample:e}, {setting:?}");
    sample
}

/// How strong a sample is: its level is the least that the rule allows, the largest, or any.
#[derive(Clone, Copy)]
pub enum Strength {
    Least,
    Most,
    Any,
}

impl Strength {
    fn magnitude(self, least: i32, largest: i32, random: &mut Random) -> i32 {
        match self {
            Strength::Least => least,
            Strength::Most => largest,
            Strength::Any => least + random.below((largest - least) as usize + 1) as i32,
        }
    }
}

/// The strength of the wrong samples and that of the right ones.
pub type Strengths = (Strength, Strength);

pub const WORST: Strengths = (Strength::Most, Strength::Least);

/// No wrong sample has a level.
pub const UNDECIDED: Strengths = (Strength::Least, Strength::Any);

pub const STRENGTHS: [Strengths; 5] = [
    WORST,
    UNDECIDED,
    (Strength::Most, Strength::Any),
    (Strength::Any, Strength::Least),
    (Strength::Any, Strength::Any),
];

/// A code with its codewords, from which blocks are made.
pub struct Source {
    pub code: Code,
    pub codewords: Codewords,
}

impl Source {
    pub fn new(code: Code) -> Source {
        Source {
            codewords: Codewords::of(&code.matrix),
            code,
        }
    }

    pub fn n(&self) -> usize {
        usize::from(self.code.matrix.n)
    }

    pub fn half(&self) -> usize {
        usize::from(self.code.matrix.gamma / 2)
    }

    pub fn change(&self, sent: Vec<bool>, wrong: Vec<usize>) -> Change {
        Change {
            gamma: self.code.matrix.gamma.into(),
            sent,
            wrong,
        }
    }

    /// So many wrong places, by chance and those that come nearest to a wrong vote, each time of
    /// another codeword.
    pub fn changes(&self, size: usize, random: &mut Random) -> Vec<Change> {
        let mut patterns = patterns::against_one_bit(&self.code, size, random);
        patterns.push(random.different(size, self.n()));
        let change = |wrong| self.change(self.codewords.random(random), wrong);
        patterns.into_iter().map(change).collect()
    }

    /// Blocks with every number of wrong places and every strength.
    pub fn blocks(&self, setting: &Setting, random: &mut Random) -> Vec<(Change, Vec<f32>)> {
        let mut blocks = Vec::new();
        for size in 0..=self.half() {
            for strengths in STRENGTHS {
                for change in self.changes(size, random) {
                    let samples = change.of(setting, strengths, random);
                    blocks.push((change, samples));
                }
            }
        }
        blocks
    }

    /// Those of them with wrong places whose bound is a limit that a setting may have.
    pub fn blocks_in_time(
        &self,
        setting: &Setting,
        random: &mut Random,
    ) -> Vec<(Change, Vec<f32>)> {
        let mut blocks = self.blocks(setting, random);
        let limits = 1..=LARGEST_LIMIT;
        blocks.retain(|(change, _)| limits.contains(&change.bound(setting.bits)));
        blocks
    }

    /// One block by chance, most often with half of gamma wrong or with the worst strength.
    pub fn some_block(&self, setting: &Setting, random: &mut Random) -> (Change, Vec<f32>) {
        let size = random.below(2 * self.half() + 1).min(self.half());
        let mut changes = self.changes(size, random);
        let change = changes.swap_remove(random.below(changes.len()));
        let strengths = match random.below(2) {
            0 => WORST,
            _ => *random.pick(&STRENGTHS),
        };
        let samples = change.of(setting, strengths, random);
        (change, samples)
    }
}

/// How many blocks with wrong places were met: with a level at none of those places, at some, at all.
#[derive(Debug, Default)]
pub struct Seen {
    pub none: usize,
    pub some: usize,
    pub all: usize,
}

impl Seen {
    pub fn count(&mut self, change: &Change, setting: &Setting, samples: &[f32]) {
        match (change.decided(setting, samples), change.wrong.len()) {
            (_, 0) => {}
            (0, _) => self.none += 1,
            (changed, wrong) if changed < wrong => self.some += 1,
            _ => self.all += 1,
        }
    }
}

/// Of the blocks with finer levels, for each width: how many were met, how many of them took all the
/// rounds of their bound, and the most wrong places of one.
#[derive(Debug, Default)]
pub struct Finer {
    pub blocks: [usize; FINER.len()],
    pub taking_all: [usize; FINER.len()],
    pub most_wrong: [usize; FINER.len()],
}

impl Finer {
    pub fn count(&mut self, change: &Change, bits: u16, rounds: usize) {
        let at = usize::from(bits - FINER[0]);
        self.blocks[at] += 1;
        self.taking_all[at] += usize::from(rounds == change.bound(bits));
        self.most_wrong[at] = self.most_wrong[at].max(change.wrong.len());
    }

    /// Whether every width was met more than a few times, and a bound that is as small as may be.
    pub fn at_every_width(&self) -> bool {
        self.blocks.iter().all(|&blocks| blocks > 5) && self.taking_all.iter().all(|&all| all > 0)
    }
}

/// A codeword, and the places at which the hard bits differ from it.
pub struct Change {
    gamma: usize,
    pub sent: Vec<bool>,
    pub wrong: Vec<usize>,
}

impl Change {
    /// The rounds after which all bits are right at the latest: L / delta + 1, delta being what
    /// a round moves the level of a wrong bit by at least.
    pub fn bound(&self, bits: u16) -> usize {
        let delta = self.gamma - 2 * self.wrong.len() + 2;
        match self.wrong.len() {
            0 => 0,
            _ => largest_level(bits) as usize / delta + 1,
        }
    }

    /// The least magnitude of each level that the rule allows: if half of gamma is wrong, a right
    /// 1 has a level other than 0.
    pub fn least(&self) -> Vec<i32> {
        let tie = 2 * self.wrong.len() == self.gamma;
        let right_one = |j: usize| self.sent[j] && !self.wrong.contains(&j);
        let places = 0..self.sent.len();
        places.map(|j| i32::from(tie && right_one(j))).collect()
    }

    /// How many of the wrong places have a level: what is reported as changed.
    pub fn decided(&self, setting: &Setting, samples: &[f32]) -> usize {
        let decided = |&&j: &&usize| level(setting, samples[j]) != 0;
        self.wrong.iter().filter(decided).count()
    }

    /// Samples with levels of these magnitudes.
    pub fn samples(&self, setting: &Setting, magnitudes: &[i32], random: &mut Random) -> Vec<f32> {
        patterns::flipped(&self.sent, &self.wrong)
            .into_iter()
            .zip(magnitudes)
            .map(|(bit, &magnitude)| sample(setting, bit, magnitude, random))
            .collect()
    }

    /// Samples of these strengths.
    pub fn of(&self, setting: &Setting, strengths: Strengths, random: &mut Random) -> Vec<f32> {
        let (of_wrong, of_right) = strengths;
        let largest = largest_level(setting.bits);
        let mut magnitudes = self.least();
        for (j, magnitude) in magnitudes.iter_mut().enumerate() {
            let strength = match self.wrong.contains(&j) {
                true => of_wrong,
                false => of_right,
            };
            *magnitude = strength.magnitude(*magnitude, largest, random);
        }
        self.samples(setting, &magnitudes, random)
    }
}
