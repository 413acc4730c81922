//! Iterative voting on blocks of many codes.

use differential::{cases, random, Left, Subject};
use ffi_face::Packed;
use generator::codes::{self, Code};
use generator::{noise, settings, unlike, Codewords, Random};
use reference::{hard_bit, pack, Setting};

const LIMITS: [u16; 6] = [0, 1, 2, 5, 30, 255];

/// Noise from none to one that hides the word.
const DEVIATIONS: [f64; 6] = [0.0, 0.3, 0.5, 0.7, 1.0, 3.0];

/// A codeword by chance, received with noise.
fn block(codewords: &Codewords, deviation: f64, random: &mut Random) -> Vec<f32> {
    noise::received(&codewords.random(random), deviation, random)
}

/// Blocks that are no noisy codewords: constants, zeros of both signs, samples too small for a
/// level, the largest ones, half-ways.
fn odd_blocks(n: usize, setting: &Setting, random: &mut Random) -> Vec<Vec<f32>> {
    let small = setting.step / 1e6;
    let mut blocks = vec![
        vec![0.0; n],
        vec![-0.0; n],
        vec![f32::from_bits(1); n],
        vec![small; n],
        vec![-small; n],
        vec![f32::MAX; n],
        vec![f32::MIN; n],
    ];
    let half = setting.step / 2.0;
    let of = |choices: &[f32], random: &mut Random| -> Vec<f32> {
        (0..n).map(|_| *random.pick(choices)).collect()
    };
    blocks.push(of(&[0.0, -0.0, small, -small], random));
    blocks.push(of(&[f32::MAX, f32::MIN], random));
    blocks.push(of(&[half, -half, 3.0 * half, -3.0 * half], random));
    blocks.push(of(&[small, -1.0, -0.5], random));
    blocks
}

#[test]
fn p6_to_p8() {
    let mut random = random(1100);
    let a = Subject::new(&codes::code_a().matrix, &mut random);
    let p6 = settings::level_step(3, 5, 0.5);
    let samples = [0.5, -1.0, -1.0, -1.0, -1.0, -1.0, -1.0];
    let mut compare = |setting, samples: &[f32], answer, word: u8, levels: [i16; 7]| {
        let left = a.iterative(setting, samples, 1, 7, &mut random);
        let expected = Left {
            answer,
            word: vec![word],
            levels: levels.to_vec(),
        };
        assert_eq!(left, expected);
    };
    let decoded = Packed::new(0, 1, 0, 1);
    compare(&p6, &samples, decoded, 0x00, [-2, -3, -3, -3, -3, -3, -3]);
    let p7 = settings::level_step(3, 0, 0.5);
    let failed = Packed::new(1, 0, 3, 0);
    compare(&p7, &samples, failed, 0x80, [1, -2, -2, -2, -2, -2, -2]);
    compare(&p6, &[0.1; 7], Packed::new(0, 1, 0, 0), 0x00, [-3; 7]);
}

/// All blocks of code A whose samples are of four kinds, with three settings.
#[test]
fn code_a_all_blocks_of_four_samples() {
    let mut random = random(1101);
    let a = Subject::new(&codes::code_a().matrix, &mut random);
    for setting in [
        settings::level_step(3, 5, 0.5),
        settings::level_step(2, 2, 1.0),
        settings::full_scale(4, 30, 1.0),
    ] {
        for number in 0..1 << 14 {
            let samples: Vec<f32> = (0..7)
                .map(|j| [-1.0, -0.1, 0.1, 0.6][number >> (2 * j) & 3])
                .collect();
            a.iterative(&setting, &samples, 1, 7, &mut random);
        }
    }
}

/// What the answers were: decoded at once, decoded later, failed, and the most rounds.
#[derive(Debug, Default)]
struct Seen {
    at_once: usize,
    later: usize,
    failed: usize,
    most_rounds: u64,
}

impl Seen {
    fn count(&mut self, answer: Packed) {
        let rounds = (answer.0 >> 32) % 256;
        assert_eq!(answer.refusal(), 0);
        match (answer.place(), rounds) {
            (0, 0) => self.at_once += 1,
            (0, _) => self.later += 1,
            _ => self.failed += 1,
        }
        self.most_rounds = self.most_rounds.max(rounds);
    }
}

/// Every width and kind with every limit, on blocks of every noise.
#[test]
fn small_codes() {
    let mut random = random(1102);
    let mut seen = Seen::default();
    for code in codes::small() {
        let subject = Subject::new(&code.matrix, &mut random);
        let codewords = Codewords::of(&code.matrix);
        for bits in 2..=12 {
            for kind in [0, 1] {
                for limit in LIMITS {
                    let setting = settings::around_one(bits, limit, kind, &mut random);
                    for _ in 0..cases(2) {
                        let deviation = *random.pick(&DEVIATIONS);
                        let samples = block(&codewords, deviation, &mut random);
                        seen.count(subject.block(&setting, &samples, &mut random).answer);
                    }
                }
            }
        }
    }
    assert!(
        seen.at_once > 500 && seen.later > 500 && seen.failed > 500,
        "{seen:?}"
    );
    assert_eq!(seen.most_rounds, 255);
}

#[test]
fn odd_blocks_of_small_codes() {
    let mut random = random(1103);
    for code in codes::small() {
        let subject = Subject::new(&code.matrix, &mut random);
        let n = usize::from(code.matrix.n);
        for _ in 0..cases(2) {
            let mut setting = settings::some(&mut random);
            setting.limit = *random.pick(&LIMITS);
            for samples in odd_blocks(n, &setting, &mut random) {
                subject.block(&setting, &samples, &mut random);
            }
        }
    }
}

/// Every width and kind, the limit and the noise by chance.
fn compare(code: &Code, limits: &[u16], times: usize, seen: &mut Seen, random: &mut Random) {
    let subject = Subject::new(&code.matrix, random);
    let codewords = Codewords::of(&code.matrix);
    for _ in 0..times {
        for bits in 2..=12 {
            for kind in [0, 1] {
                let limit = *random.pick(limits);
                let setting = settings::around_one(bits, limit, kind, random);
                let deviation = *random.pick(&DEVIATIONS);
                let samples = block(&codewords, deviation, random);
                seen.count(subject.block(&setting, &samples, random).answer);
            }
        }
    }
}

#[test]
fn medium_codes() {
    let mut random = random(1104);
    let mut seen = Seen::default();
    for code in codes::medium() {
        compare(&code, &LIMITS, cases(1), &mut seen, &mut random);
        let shuffled = code.shuffled(&mut random);
        compare(&shuffled, &LIMITS[..5], cases(1), &mut seen, &mut random);
        let subject = Subject::new(&code.matrix, &mut random);
        let setting = settings::some(&mut random);
        let n = usize::from(code.matrix.n);
        for samples in odd_blocks(
            n,
            &Setting {
                limit: 4,
                ..setting
            },
            &mut random,
        ) {
            subject.block(
                &Setting {
                    limit: 4,
                    ..setting
                },
                &samples,
                &mut random,
            );
        }
    }
    assert!(
        seen.at_once > 50 && seen.later > 50 && seen.failed > 50,
        "{seen:?}"
    );
}

#[test]
fn large_codes() {
    let mut random = random(1105);
    for code in codes::large() {
        let subject = Subject::new(&code.matrix, &mut random);
        let codewords = Codewords::of(&code.matrix);
        for _ in 0..cases(1) {
            for limit in [1, 5, 30] {
                let (bits, kind) = (2 + random.below(11) as u16, random.below(2) as u16);
                let setting = settings::around_one(bits, limit, kind, &mut random);
                let deviation = *random.pick(&DEVIATIONS);
                let samples = block(&codewords, deviation, &mut random);
                subject.block(&setting, &samples, &mut random);
            }
        }
    }
}

/// The codes of the benchmark at noise that takes a few rounds, width 8, limit 30, and one block
/// that never ends, limit 255.
#[test]
fn codes_of_the_benchmark() {
    let mut random = random(1106);
    for (code, step, deviation) in [
        (codes::eg1023(), 0.015, 0.56),
        (codes::qc961(), 0.025, 0.56),
        (codes::tanner155(), 0.25, 0.5),
        (unlike::irregular1000(), 0.1, 0.55),
    ] {
        let subject = Subject::new(&code.matrix, &mut random);
        let codewords = Codewords::of(&code.matrix);
        for _ in 0..cases(4) {
            let setting = settings::level_step(8, 30, step);
            let samples = block(&codewords, deviation, &mut random);
            subject.block(&setting, &samples, &mut random);
        }
        let setting = settings::level_step(8, 255, step);
        let samples = block(&codewords, 3.0, &mut random);
        let left = subject.block(&setting, &samples, &mut random);
        assert_eq!((left.answer.0 >> 32) % 256, 255, "{}", code.name);
        assert_eq!(left.answer.place(), 1);
    }
}

/// Limit 0: the word is the hard bits and the levels are the quantiser's.
#[test]
fn no_round() {
    let mut random = random(1107);
    for code in [codes::small(), codes::medium()].concat() {
        let subject = Subject::new(&code.matrix, &mut random);
        let n = usize::from(code.matrix.n);
        for _ in 0..cases(2) {
            let setting = Setting {
                limit: 0,
                ..settings::some(&mut random)
            };
            let samples: Vec<f32> = (0..n)
                .map(|_| setting.step * random.gaussian() as f32)
                .collect();
            let left = subject.iterative(&setting, &samples, subject.needed(), n, &mut random);
            let quantised = differential::quantise_exactly(&setting, &samples, &mut random);
            assert_eq!(
                (&left.word, &left.levels),
                (&quantised.word, &quantised.levels)
            );
            let hard_bits: Vec<bool> = samples.iter().map(|&y| hard_bit(y)).collect();
            assert_eq!(left.word, pack(&hard_bits));
            let failing = subject.failing(&left.word, &mut random);
            let outcome = u64::from(failing.0 != 0);
            assert_eq!(left.answer, Packed(failing.0 + outcome));
        }
    }
}
