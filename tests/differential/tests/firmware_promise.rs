//! The header's promise: with its limits, at most gamma / 2 wrong samples, however strong, are
//! undone, and those with a level counted.

use differential::firmware::{Block, Firmware};
use differential::rule::{
    enough, some_setting, with_limit, Change, Finer, Seen, Source, FINER, LARGEST_LIMIT, UNDECIDED,
    WORST,
};
use differential::{cases, random};
use generator::codes::{self, Code};
use generator::{patterns, settings, unlike, Random};
use reference::{largest_level, level, pack, Setting};

/// Widths and the limits that the promise asks for, L / 2 + 1. With more than 9 bits no limit is as large.
const LIMITS: [(u16, usize); 4] = [(9, 128), (8, 64), (3, 2), (2, 1)];

/// Each of them with both kinds of step, which may be any.
fn promised(random: &mut Random) -> Vec<Setting> {
    let mut settings = Vec::new();
    for (bits, limit) in LIMITS {
        assert_eq!(limit, enough(bits));
        for kind in [0, 1] {
            settings.push(with_limit(&some_setting(bits, kind, random), limit));
        }
    }
    settings
}

/// A code as a source of blocks, and as the firmware lends it.
struct Tried {
    source: Source,
    firmware: Firmware,
}

impl Tried {
    fn new(code: Code, random: &mut Random) -> Tried {
        Tried {
            firmware: Firmware::new(&code.matrix, random),
            source: Source::new(code),
        }
    }

    /// The promise for one block. Gives the rounds.
    fn keeps(
        &self,
        change: &Change,
        setting: &Setting,
        samples: &[f32],
        random: &mut Random,
    ) -> usize {
        let block = Block::new(setting, samples).longer(random);
        let left = self.firmware.decode(&block, random);
        let (sent, wrong) = (pack(&change.sent), &change.wrong);
        let call = || {
            let name = &self.source.code.name;
            format!("{name}, sent {sent:02x?}, wrong {wrong:?}, {setting:?}, {samples:?}")
        };
        assert_eq!(left.returned, 0, "{}", call());
        assert_eq!(left.word[..sent.len()], sent, "{}", call());
        let [rounds, failing, changed] = left.counts();
        let counted = change.decided(setting, samples);
        assert_eq!((failing, changed), (0, counted), "{}", call());
        assert_eq!(left.report[6..8], [0, 0], "{}", call());
        assert!(rounds <= usize::from(setting.limit), "{}", call());
        rounds
    }

    /// The promise with no round to spare and with the largest limit. Gives the rounds, of which one less
    /// fails.
    fn keeps_in_time(
        &self,
        change: &Change,
        setting: &Setting,
        samples: &[f32],
        random: &mut Random,
    ) -> usize {
        let bound = change.bound(setting.bits);
        let rounds = self.keeps(change, &with_limit(setting, bound), samples, random);
        let largest = with_limit(setting, LARGEST_LIMIT);
        assert_eq!(self.keeps(change, &largest, samples, random), rounds);
        let less = Block::new(&with_limit(setting, rounds - 1), samples);
        let left = self.firmware.decode(&less, random);
        assert_eq!((left.returned, left.counts()[0]), (1, rounds - 1));
        rounds
    }
}

/// Regular codes with an odd and an even gamma, and columns of unlike weight.
fn some_codes() -> Vec<Code> {
    vec![
        codes::triangle(),
        codes::code_a(),
        codes::code_b(),
        codes::grid(4),
        codes::tanner155(),
        codes::projective_prime(7),
        codes::euclidean(3),
        unlike::code_u(),
        unlike::wheel(5),
        unlike::without_rows(&codes::code_a(), &[0]),
        unlike::irregular504(),
    ]
}

/// Every number of wrong samples up to gamma / 2, with every strength of wrong and right ones. Some
/// blocks take all the rounds of the limit: a smaller one would not do.
#[test]
fn wrong_samples_of_every_number() {
    let mut random = random(2200);
    let mut seen = Seen::default();
    let mut most = LIMITS.map(|_| 0);
    for code in some_codes() {
        let tried = Tried::new(code, &mut random);
        for setting in promised(&mut random) {
            for (change, samples) in tried.source.blocks(&setting, &mut random) {
                let rounds = tried.keeps(&change, &setting, &samples, &mut random);
                seen.count(&change, &setting, &samples);
                let at = LIMITS.iter().position(|&(bits, _)| bits == setting.bits);
                let most = &mut most[at.expect("a width of the promise")];
                *most = rounds.max(*most);
            }
        }
    }
    assert_eq!(most, LIMITS.map(|(_, limit)| limit));
    let Seen { none, some, all } = seen;
    assert!(none > 100 && some > 20 && all > 100, "{seen:?}");
}

/// Every codeword and every set of wrong samples of small codes, the wrong ones as strong and the
/// right ones as weak as may be.
#[test]
fn worst_blocks_of_small_codes() {
    let mut random = random(2201);
    for code in [codes::code_a(), codes::code_b(), unlike::wheel(5)] {
        let tried = Tried::new(code, &mut random);
        let source = &tried.source;
        for setting in promised(&mut random) {
            for sent in source.codewords.some(16, &mut random) {
                for size in 0..=source.half() {
                    for wrong in patterns::of_size(size, source.n()) {
                        let change = source.change(sent.clone(), wrong);
                        let samples = change.of(&setting, WORST, &mut random);
                        tried.keeps(&change, &setting, &samples, &mut random);
                    }
                }
            }
        }
    }
}

/// Large codes with few blocks, some of them without a level at a wrong place; two codes have columns
/// of unlike weight. Beside each stands t.
#[test]
fn large_codes() {
    let mut random = random(2202);
    let mut seen = Seen::default();
    for (code, half) in [
        (codes::eg1023(), 16),
        (unlike::without_rows_of_column_0(&codes::eg1023(), 16), 8),
        (codes::qc961(), 15),
        (unlike::irregular1000(), 2),
    ] {
        let tried = Tried::new(code, &mut random);
        assert_eq!(tried.source.half(), half, "{}", tried.source.code.name);
        for setting in promised(&mut random) {
            let mut blocks = Vec::new();
            for _ in 0..cases(2) {
                blocks.push(tried.source.some_block(&setting, &mut random));
            }
            for change in tried.source.changes(half, &mut random) {
                let samples = change.of(&setting, UNDECIDED, &mut random);
                blocks.push((change, samples));
            }
            for (change, samples) in blocks {
                tried.keeps(&change, &setting, &samples, &mut random);
                seen.count(&change, &setting, &samples);
            }
        }
    }
    assert!(seen.none > 50 && seen.all > 5, "{seen:?}");
}

/// Nine bits and more: every number w of wrong samples for which L / (gamma - 2 w + 2) + 1 is a limit. It
/// does, and some blocks take all of its rounds.
#[test]
fn finer_levels() {
    let mut random = random(2205);
    let mut finer = Finer::default();
    for code in [some_codes(), vec![codes::euclidean(4)]].concat() {
        let tried = Tried::new(code, &mut random);
        for bits in FINER {
            let setting = some_setting(bits, random.below(2) as u16, &mut random);
            for (change, samples) in tried.source.blocks_in_time(&setting, &mut random) {
                let rounds = tried.keeps_in_time(&change, &setting, &samples, &mut random);
                finer.count(&change, bits, rounds);
            }
        }
    }
    assert!(finer.at_every_width(), "{finer:?}");
    // By the README's table for gamma 16, that of EG255, which is the largest here: t is 8, and t, t - 1,
    // t - 2 and t - 4 are promised.
    assert_eq!(finer.most_wrong, [8, 7, 6, 4]);
}

/// Code A, zeros sent, sample 0 at the largest level and above: each round takes 3 off 127.
#[test]
fn a_smaller_limit_may_fail() {
    let mut random = random(2203);
    let tried = Tried::new(codes::code_a(), &mut random);
    let change = tried.source.change(vec![false; 7], vec![0]);
    let setting = settings::level_step(8, 64, 0.1);
    for first in [13.0, 1e9, f32::MAX] {
        let samples = [first, -1.0, -1.0, -1.0, -1.0, -1.0, -1.0];
        assert_eq!(level(&setting, first), largest_level(8));
        let rounds = tried.keeps(&change, &setting, &samples, &mut random);
        assert_eq!(rounds, 43);
        let block = Block::new(&with_limit(&setting, 42), &samples);
        let left = tried.firmware.decode(&block, &mut random);
        assert_eq!((left.returned, &left.word[..]), (1, &[0x80][..]));
        assert_eq!(left.report, [42, 0, 3, 0, 0, 0, 0, 0]);
    }
}

/// The exception: P10's code, E0 sent, sample 0 wrong, which is half of gamma. A right 1 of level 0
/// is lost to a tie, and the word ends at 00, where sample 0 alone is counted; with level 1 it comes
/// back.
#[test]
fn a_right_one_of_level_zero() {
    let mut random = random(2204);
    let tried = Tried::new(codes::triangle(), &mut random);
    let change = tried.source.change(vec![true; 3], vec![0]);
    let setting = settings::level_step(3, 2, 0.5);

    assert_eq!(level(&setting, 0.1), 0);
    let block = Block::new(&setting, &[-1.5, 0.1, 0.5]);
    let left = tried.firmware.decode(&block, &mut random);
    assert_eq!((left.returned, &left.word[..]), (0, &[0x00][..]));
    assert_eq!(left.report, [2, 0, 0, 0, 1, 0, 0, 0]);

    assert_eq!(level(&setting, 0.25), 1);
    let rounds = tried.keeps(&change, &setting, &[-1.5, 0.25, 0.5], &mut random);
    assert_eq!(rounds, 2);
}
