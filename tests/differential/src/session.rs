//! Sessions on both sides.

use crate::samples::described_samples;
use crate::{level_by_chance, Guarded, Subject};
use ffi_face::{cells_of, record_of, Packed};
use generator::Random;
use reference::{pack, Answer, Refusal, Session, Setting};

/// The code of an answer whose record is working.
pub const WORKING: u64 = 2;

/// What a session's calls are lent to change: the record's cells, the word and the levels.
#[derive(Clone, Debug, PartialEq)]
pub struct Lent {
    pub record: Vec<u16>,
    pub word: Vec<u8>,
    pub levels: Vec<i16>,
}

impl Lent {
    /// Cells by chance, with a few more than needed in word and levels.
    pub fn by_chance(subject: &Subject, random: &mut Random) -> Lent {
        let word = subject.needed() + random.below(4);
        let levels = usize::from(subject.matrix().n) + random.below(4);
        Lent {
            record: (0..8).map(|_| random.below(12) as u16).collect(),
            word: random.bytes(word),
            levels: (0..levels).map(|_| level_by_chance(random)).collect(),
        }
    }

    /// The reference's side of a call: a record that is not of eight cells is refused as 7 before
    /// anything else, and a refused call leaves every cell.
    fn expect(
        &mut self,
        call: impl FnOnce(&mut Session, &mut [u8], &mut [i16]) -> Result<Answer, Refusal>,
    ) -> Packed {
        let Some(mut record) = record_of(&self.record) else {
            return Packed::refused(Refusal::plain(7));
        };
        let before = record;
        let answer = call(&mut record, &mut self.word, &mut self.levels);
        match answer {
            Ok(_) => self.record = cells_of(&record).to_vec(),
            Err(_) => assert_eq!(record, before),
        }
        Packed::of_voting(answer)
    }
}

/// What a step is lent of the opening, beside its matrix: the received word, and the levels that it
/// wrote.
#[derive(Clone, Debug, PartialEq)]
pub struct Opened {
    pub received: Vec<u8>,
    pub levels: Vec<i16>,
}

impl Opened {
    /// What an opening has left: the first bytes of the word, and the first n levels.
    pub fn of(subject: &Subject, lent: &Lent) -> Opened {
        Opened {
            received: lent.word[..subject.needed()].to_vec(),
            levels: lent.levels[..usize::from(subject.matrix().n)].to_vec(),
        }
    }

    /// A word, and any levels: what they hold is never refused.
    pub fn by_chance(subject: &Subject, random: &mut Random) -> Opened {
        let n = usize::from(subject.matrix().n);
        Opened {
            received: pack(&random.bits(n)),
            levels: levels_by_chance(n, random),
        }
    }
}

/// Any numbers, none of them 0 in most cases; or few other than 0; or one number.
pub fn levels_by_chance(count: usize, random: &mut Random) -> Vec<i16> {
    let one = *random.pick(&[0, 1, -1, 127, -128, 256, -256, 32_767, -32_768]);
    let kind = random.below(4);
    let level = |_| match kind {
        0 => one,
        1 if !random.once_in(5) => 0,
        2 if random.once_in(2) => 0,
        _ => level_by_chance(random),
    };
    (0..count).map(level).collect()
}

/// The three buffers between guards.
struct Guards {
    record: Guarded<u16>,
    word: Guarded<u8>,
    levels: Guarded<i16>,
}

impl Guards {
    fn new(lent: &Lent, random: &mut Random) -> Guards {
        Guards {
            record: Guarded::new(&lent.record, random),
            word: Guarded::new(&lent.word, random),
            levels: Guarded::new(&lent.levels, random),
        }
    }

    /// Every cell is as expected, and the guards stand.
    fn compare(&self, expected: &Lent, call: impl Fn() -> String) {
        assert_eq!(self.record.lent(), expected.record, "record, {}", call());
        assert_eq!(self.word.lent(), expected.word, "word, {}", call());
        assert_eq!(self.levels.lent(), expected.levels, "levels, {}", call());
        assert!(
            self.record.guards_stand(),
            "guards of the record, {}",
            call()
        );
        assert!(self.word.guards_stand(), "guards of the word, {}", call());
        assert!(
            self.levels.guards_stand(),
            "guards of the levels, {}",
            call()
        );
    }
}

impl Subject {
    /// Compares an opening; gives its answer. What is lent is then as the call left it.
    pub fn open(
        &self,
        lent: &mut Lent,
        setting: &Setting,
        samples: &[f32],
        random: &mut Random,
    ) -> Packed {
        let before = lent.clone();
        let guarded_samples = Guarded::new(samples, random);
        let mut guards = Guards::new(lent, random);
        let expected = lent.expect(|record, word, levels| {
            reference::open_checked(
                record,
                self.matrix(),
                self.verdict(),
                setting,
                samples,
                word,
                levels,
            )
        });
        let answer = ffi_face::open(
            guards.record.lent_mut(),
            self.lent(),
            setting,
            guarded_samples.lent(),
            guards.word.lent_mut(),
            guards.levels.lent_mut(),
        );
        let call = || {
            format!(
                "opening, {setting:?}, {before:?}, {}, {}",
                self.described(),
                described_samples(samples)
            )
        };
        assert_eq!(answer, expected, "{}", call());
        guards.compare(lent, call);
        assert!(guarded_samples.holds(samples), "samples, {}", call());
        assert!(self.list_stands(), "list, {}", call());
        answer
    }

    /// Compares a step; gives its answer. What is lent is then as the call left it.
    pub fn step(&self, lent: &mut Lent, opened: &Opened, random: &mut Random) -> Packed {
        let before = lent.clone();
        let guarded_received = Guarded::new(&opened.received, random);
        let guarded_opened = Guarded::new(&opened.levels, random);
        let mut guards = Guards::new(lent, random);
        let expected = lent.expect(|record, word, levels| {
            reference::step_checked(
                record,
                self.matrix(),
                self.verdict(),
                &opened.received,
                &opened.levels,
                word,
                levels,
            )
        });
        let answer = ffi_face::step(
            guards.record.lent_mut(),
            self.lent(),
            guarded_received.lent(),
            guarded_opened.lent(),
            guards.word.lent_mut(),
            guards.levels.lent_mut(),
        );
        let call = || format!("step, {before:?}, {opened:?}, {}", self.described());
        assert_eq!(answer, expected, "{}", call());
        guards.compare(lent, call);
        let Opened { received, levels } = opened;
        assert!(guarded_received.holds(received), "received, {}", call());
        assert!(guarded_opened.holds(levels), "opened, {}", call());
        assert!(self.list_stands(), "list, {}", call());
        answer
    }

    /// Opens, steps to the end, and compares with the whole call. Gives the number of steps.
    pub fn stepped(&self, setting: &Setting, samples: &[f32], random: &mut Random) -> u64 {
        let (n, needed) = (usize::from(self.matrix().n), self.needed());
        let whole = self.iterative(setting, samples, needed, n, random);
        assert_eq!(whole.answer.refusal(), 0);

        let mut lent = Lent::by_chance(self, random);
        let mut answer = self.open(&mut lent, setting, samples, random);
        let opened = Opened::of(self, &lent);
        let mut steps = 0;
        while answer.0 % (1 << 32) == WORKING {
            assert_eq!(lent.record[0], 1);
            assert!(steps < u64::from(setting.limit), "steps past the limit");
            answer = self.step(&mut lent, &opened, random);
            steps += 1;
            assert_eq!(u64::from(lent.record[3]), steps);
        }
        assert_eq!(answer, whole.answer);
        assert_eq!(lent.word[..needed], whole.word);
        assert_eq!(lent.levels[..n], whole.levels);
        assert_eq!((answer.0 >> 32) % 256, steps);

        // After the end every step is refused, and changes nothing.
        for _ in 0..2 {
            let refused = self.step(&mut lent, &opened, random);
            assert_eq!(refused, Packed::new(21 * 65536, 0, 0, 0));
        }
        steps
    }
}
