//! The firmware's face on blocks of many codes: the returned number, and the bytes of word, levels
//! and report. Each call is also made on numbers, through the other archive.

use differential::firmware::{Block, Firmware, Written};
use differential::{cases, random};
use generator::codes::{self, Code};
use generator::{noise, settings, unlike, Codewords, Random};
use reference::{largest_level, Setting};

const LIMITS: [u16; 6] = [0, 1, 2, 5, 30, 255];

/// Noise from none to one that hides the word.
const DEVIATIONS: [f64; 6] = [0.0, 0.3, 0.5, 0.7, 1.0, 3.0];

/// P6 to P8 of document 01, the bytes by hand.
#[test]
fn p6_to_p8() {
    let mut random = random(2000);
    let a = Firmware::new(&codes::code_a().matrix, &mut random);
    let p6 = settings::level_step(3, 5, 0.5);
    let p7 = settings::level_step(3, 0, 0.5);
    let samples = [0.5, -1.0, -1.0, -1.0, -1.0, -1.0, -1.0];
    let mut compare =
        |setting, samples: &[f32], number, word, levels: [u8; 14], counts: [u8; 6]| {
            let block = Block::new(setting, samples);
            let report = [&counts[..], &[0, 0]].concat();
            let expected = Written {
                returned: number,
                word: vec![word],
                levels: levels.to_vec(),
                report: report.clone(),
            };
            assert_eq!(a.decode(&block, &mut random), expected);
            let left = a.decode(&block.longer(&mut random), &mut random);
            assert_eq!((left.returned, left.word[0]), (number, word));
            assert_eq!(
                (&left.levels[..14], &left.report[..8]),
                (&levels[..], &report[..])
            );
        };
    // 1 is 0001, −2 is FFFE and −3 is FFFD, the low byte first.
    let (one, two, three) = ([0x01, 0x00], [0xFE, 0xFF], [0xFD, 0xFF]);
    let levels = |first: [u8; 2], others: [u8; 2]| -> [u8; 14] {
        let all = [&first[..], &others.repeat(6)].concat();
        all.try_into().expect("two bytes a level")
    };
    let decoded = [1, 0, 0, 0, 1, 0];
    compare(&p6, &samples, 0, 0x00, levels(two, three), decoded);
    let failed = [0, 0, 3, 0, 0, 0];
    compare(&p7, &samples, 1, 0x80, levels(one, two), failed);
    let none_counted = [1, 0, 0, 0, 0, 0];
    compare(&p6, &[0.1; 7], 0, 0x00, levels(three, three), none_counted);
}

/// What the calls returned: decoded at once, decoded later, failed, and the most rounds.
#[derive(Debug, Default)]
struct Seen {
    at_once: usize,
    later: usize,
    failed: usize,
    most_rounds: usize,
}

impl Seen {
    fn count(&mut self, left: &Written) {
        let [rounds, failing, _] = left.counts();
        match (left.returned, rounds) {
            (0, 0) => self.at_once += 1,
            (0, _) => self.later += 1,
            (number, _) => {
                assert_eq!(number, 1);
                self.failed += 1;
            }
        }
        assert_eq!(left.returned == 0, failing == 0);
        self.most_rounds = self.most_rounds.max(rounds);
    }
}

/// A codeword of the code received with noise, in buffers of some length.
fn some_block(codewords: &Codewords, setting: &Setting, random: &mut Random) -> Block {
    let deviation = *random.pick(&DEVIATIONS);
    let samples = noise::received(&codewords.random(random), deviation, random);
    Block::new(setting, &samples).longer(random)
}

/// Every width and kind, the limit and the noise by chance.
fn compare(code: &Code, limits: &[u16], times: usize, seen: &mut Seen, random: &mut Random) {
    let firmware = Firmware::new(&code.matrix, random);
    let codewords = Codewords::of(&code.matrix);
    for _ in 0..times {
        for bits in 2..=12 {
            for kind in [0, 1] {
                let limit = *random.pick(limits);
                let setting = settings::around_one(bits, limit, kind, random);
                let block = some_block(&codewords, &setting, random);
                seen.count(&firmware.decode(&block, random));
            }
        }
    }
}

/// The codes have columns of like and of unlike weight, from n = 2 on.
#[test]
fn small_codes() {
    let mut random = random(2001);
    let mut seen = Seen::default();
    for code in codes::small() {
        compare(&code, &LIMITS, cases(6), &mut seen, &mut random);
        let shuffled = code.shuffled(&mut random);
        compare(&shuffled, &LIMITS, cases(2), &mut seen, &mut random);
    }
    assert!(
        seen.at_once > 500 && seen.later > 500 && seen.failed > 500,
        "{seen:?}"
    );
    assert_eq!(seen.most_rounds, 255);
}

#[test]
fn medium_codes() {
    let mut random = random(2002);
    let mut seen = Seen::default();
    for code in codes::medium() {
        compare(&code, &LIMITS[..5], cases(1), &mut seen, &mut random);
    }
    assert!(
        seen.at_once > 50 && seen.later > 50 && seen.failed > 50,
        "{seen:?}"
    );
}

/// Column numbers of two bytes, up to n = 1,023 and m rho = 32,736.
#[test]
fn large_codes() {
    let mut random = random(2003);
    let mut seen = Seen::default();
    for code in codes::large() {
        let firmware = Firmware::new(&code.matrix, &mut random);
        let codewords = Codewords::of(&code.matrix);
        for _ in 0..cases(1) {
            for limit in [0, 1, 5, 30] {
                let (bits, kind) = (2 + random.below(11) as u16, random.below(2) as u16);
                let setting = settings::around_one(bits, limit, kind, &mut random);
                let block = some_block(&codewords, &setting, &mut random);
                seen.count(&firmware.decode(&block, &mut random));
            }
        }
    }
    assert!(
        seen.at_once > 0 && seen.later > 0 && seen.failed > 0,
        "{seen:?}"
    );
}

/// The least and the greatest sizes, with buffers of exactly the needed bytes.
#[test]
fn ends_of_the_sizes() {
    let mut random = random(2004);
    for (code, bytes) in [
        (codes::single_row(2), 4),
        (codes::single_row(32), 64),
        (codes::cycle(1023), 4092),
        (codes::eg1023(), 65_472),
    ] {
        let n = usize::from(code.matrix.n);
        assert_eq!(2 * code.matrix.list.len(), bytes);
        let firmware = Firmware::new(&code.matrix, &mut random);
        let codewords = Codewords::of(&code.matrix);
        for deviation in [0.0, 0.5, 1.0] {
            let sent = codewords.random(&mut random);
            let samples = noise::received(&sent, deviation, &mut random);
            let setting = settings::level_step(8, 9, 0.015);
            let left = firmware.decode(&Block::new(&setting, &samples), &mut random);
            assert_eq!((left.word.len(), left.levels.len()), (n.div_ceil(8), 2 * n));
            assert!(deviation > 0.0 || left.returned == 0, "{}", code.name);
        }
    }
}

/// Matrices by chance, their columns of unlike weight.
#[test]
fn matrices_by_chance() {
    let mut random = random(2005);
    let mut seen = Seen::default();
    for _ in 0..cases(1500) {
        let code = unlike::some(&mut random);
        let firmware = Firmware::new(&code.matrix, &mut random);
        let codewords = Codewords::of(&code.matrix);
        for _ in 0..3 {
            let (bits, kind) = (2 + random.below(11) as u16, random.below(2) as u16);
            let limit = *random.pick(&LIMITS[..5]);
            let setting = settings::around_one(bits, limit, kind, &mut random);
            let block = some_block(&codewords, &setting, &mut random);
            seen.count(&firmware.decode(&block, &mut random));
        }
    }
    assert!(
        seen.at_once > 200 && seen.later > 200 && seen.failed > 200,
        "{seen:?}"
    );
}

/// The bytes of a level by the paper: "two's complement", "two bytes a level, low byte first".
fn bytes_of(level: i32) -> [u8; 2] {
    let number = (65_536 + level) % 65_536;
    [number % 256, number / 256].map(|byte| u8::try_from(byte).expect("a byte"))
}

/// A code of 255 bits has a place for each level from −127 to 127; those of more bits take several
/// blocks. No round is done.
#[test]
fn every_level_as_quantised() {
    let mut random = random(2006);
    let firmware = Firmware::new(&codes::euclidean(4).matrix, &mut random);
    for bits in 2..=12 {
        let largest = largest_level(bits);
        let steps = [
            settings::level_step(bits, 0, 1.0),
            settings::full_scale(bits, 0, largest as f32),
        ];
        for setting in steps {
            // Seventeen blocks of 255: enough for L = 2,047.
            let mut levels: Vec<i32> = (-2167..=2167)
                .map(|k: i32| k.clamp(-largest, largest))
                .collect();
            for _ in 0..cases(2) {
                for levels in levels.chunks(255) {
                    let samples: Vec<f32> = levels.iter().map(|&k| k as f32).collect();
                    let left = firmware.decode(&Block::new(&setting, &samples), &mut random);
                    let expected: Vec<u8> = levels.iter().flat_map(|&k| bytes_of(k)).collect();
                    assert_eq!(left.levels, expected, "{setting:?}");
                    assert_eq!(left.counts()[0], 0);
                }
                random.shuffle(&mut levels);
            }
        }
    }
}

/// The same after rounds: every number from −L to L is seen, and no other.
fn seen_after_rounds(code: &Code, bits: u16, blocks: usize, random: &mut Random) {
    let firmware = Firmware::new(&code.matrix, random);
    let largest = largest_level(bits);
    let numbers = 2 * largest as usize + 1;
    let mut seen = vec![false; numbers];
    for limit in [1, 2, 3] {
        for _ in 0..blocks {
            let setting = settings::level_step(bits, limit, 1.0);
            let sample = |_| (random.below(numbers) as i32 - largest) as f32;
            let samples: Vec<f32> = (0..firmware.n()).map(sample).collect();
            let left = firmware.decode(&Block::new(&setting, &samples), random);
            assert!(left.counts()[0] > 0);
            for pair in left.levels.chunks(2) {
                let number = i32::from(pair[0]) + 256 * i32::from(pair[1]);
                let level = (number + 32_768) % 65_536 - 32_768;
                seen[usize::try_from(level + largest).expect("from −L on")] = true;
            }
        }
    }
    let unseen: Vec<usize> = (0..numbers).filter(|&at| !seen[at]).collect();
    assert_eq!(unseen, [], "{bits}");
}

#[test]
fn every_level_after_rounds() {
    let mut random = random(2007);
    seen_after_rounds(&codes::euclidean(4), 8, cases(20), &mut random);
    seen_after_rounds(&codes::cycle(1023), 12, cases(30), &mut random);
}

/// 341 rows of three ones, all of them odd: all fail, and after one round all 1,023 bits are 0. They
/// are counted where they had a level: all of them, none, and two of each row.
#[test]
fn more_than_255_failing_or_changed() {
    let mut random = random(2008);
    let firmware = Firmware::new(&codes::single_row(3).copies(341).matrix, &mut random);
    for (row, level, changed) in [
        ([0.5, 0.5, 0.5], [1, 1, 1], [0xFF, 0x03]),
        ([0.1, 0.1, 0.1], [0, 0, 0], [0, 0]),
        ([0.5, 0.1, 0.5], [1, 0, 1], [0xAA, 0x02]),
    ] {
        let samples = row.repeat(341);
        let block = Block::new(&settings::level_step(3, 0, 0.5), &samples);
        let left = firmware.decode(&block, &mut random);
        assert_eq!(left.returned, 1);
        assert_eq!(left.report, [0, 0, 0x55, 0x01, 0, 0, 0, 0]);
        assert_eq!(left.signed(), level.repeat(341));
        let block = Block::new(&settings::level_step(3, 1, 0.5), &samples);
        let left = firmware.decode(&block, &mut random);
        assert_eq!(left.returned, 0);
        assert_eq!(left.report[..4], [1, 0, 0, 0]);
        assert_eq!(left.report[4..6], changed);
        assert_eq!(left.report[6..], [0, 0]);
        assert_eq!(left.word, [0; 128]);
        assert_eq!(left.signed(), level.map(|level| level - 1).repeat(341));
    }
}

/// 511 rows of two bits, 1 and 0 with levels 1 and 0. Each bit's vote is the other bit: the levels
/// change places in every round, and all rows go on failing. After an odd number of rounds every
/// bit is another, and each first one of a row is counted.
#[test]
fn all_rounds_with_every_count_above_255() {
    let mut random = random(2009);
    let firmware = Firmware::new(&codes::single_row(2).copies(511).matrix, &mut random);
    let samples: Vec<f32> = (0..1022).map(|j| [0.5, -0.1][j % 2]).collect();
    let block = Block::new(&settings::level_step(3, 255, 0.5), &samples);
    let left = firmware.decode(&block, &mut random);
    assert_eq!(left.returned, 1);
    assert_eq!(left.report, [0xFF, 0, 0xFF, 0x01, 0xFF, 0x01, 0, 0]);
    assert_eq!(left.word, [vec![0x55; 127], vec![0x54]].concat());
    assert_eq!(left.signed(), [0, 1].repeat(511));
    let block = Block::new(&settings::level_step(3, 254, 0.5), &samples);
    let left = firmware.decode(&block, &mut random);
    assert_eq!(left.returned, 1);
    assert_eq!(left.report, [0xFE, 0, 0xFF, 0x01, 0, 0, 0, 0]);
    assert_eq!(left.word, [vec![0xAA; 127], vec![0xA8]].concat());
    assert_eq!(left.signed(), [1, 0].repeat(511));
}

/// Code U: column 0 weighs 4, column 1 weighs 3, the others 2. The levels are worked out in the
/// reference's tests.
#[test]
fn code_u_by_hand() {
    let mut random = random(2010);
    let u = Firmware::new(&unlike::code_u().matrix, &mut random);
    let mut samples = [-1.0; 9];
    samples[0] = 0.5;
    let block = Block::new(&settings::level_step(4, 5, 0.5), &samples);
    let left = u.decode(&block, &mut random);
    assert_eq!((left.returned, &left.word[..]), (0, &[0, 0][..]));
    assert_eq!(left.signed(), [-3, -3, -2, -2, -2, -2, -2, -2, -2]);
    assert_eq!(left.report, [1, 0, 0, 0, 1, 0, 0, 0]);
}

/// Samples without a level, of either sign, and the largest: the hard bit is the sample's.
#[test]
fn odd_samples() {
    let mut random = random(2011);
    let firmware = Firmware::new(&codes::single_row(16).matrix, &mut random);
    let patterns = [
        (0x0000_0000, 0, 0), // 0
        (0x8000_0000, 0, 0), // −0
        (0x0000_0001, 1, 0), // the smallest
        (0x8000_0001, 0, 0),
        (0x007F_FFFF, 1, 0), // the largest without a leading one
        (0x807F_FFFF, 0, 0),
        (0x0080_0000, 1, 0), // the smallest with it
        (0x8080_0000, 0, 0),
        (0x7F7F_FFFF, 1, 127), // the largest
        (0xFF7F_FFFF, 0, -127),
        (0x3EFF_FFFF, 1, 0), // the last below half a step
        (0xBEFF_FFFF, 0, 0),
        (0x3F00_0000, 1, 1), // half a step
        (0xBF00_0000, 0, -1),
        (0x42FE_0000, 1, 127), // 127
        (0xC2FE_0000, 0, -127),
    ];
    for _ in 0..cases(40) {
        let mut patterns = patterns;
        random.shuffle(&mut patterns);
        let samples = patterns.map(|(bits, _, _)| f32::from_bits(bits));
        let block = Block::new(&settings::level_step(8, 0, 1.0), &samples);
        let left = firmware.decode(&block, &mut random);
        let bits = patterns
            .iter()
            .fold(0_u16, |word, (_, bit, _)| 2 * word + bit);
        assert_eq!(left.word, bits.to_be_bytes());
        assert_eq!(left.signed(), patterns.map(|(_, _, level)| level));
    }
}
