//! Iterative voting refused: 1 to 8, each with every lower one, and what the buffers then hold.

use differential::causes::{matrix_with, subset, PLACES};
use differential::{cases, random, Subject};
use ffi_face::Packed;
use generator::codes::{self, Code};
use generator::{damage, noise, settings, Codewords, Random};
use reference::{byte_count, Setting};

fn refused(number: u64, place: u64) -> Packed {
    Packed::new(number * 65536 + place, 0, 0, 0)
}

/// A setting that is refused.
fn bad_setting(random: &mut Random) -> Setting {
    let good = settings::some(random);
    *random.pick(&settings::refused(&good))
}

/// One code for each number of spare places and size of word.
fn some_codes() -> Vec<Code> {
    let mut codes = codes::small();
    codes.extend([
        codes::tanner155(),
        codes::euclidean(4),
        codes::single_row(3).copies(341),
        codes::cycle(1023),
    ]);
    codes
}

fn not_finite(random: &mut Random) -> f32 {
    *random.pick(&[
        f32::INFINITY,
        f32::NEG_INFINITY,
        f32::NAN,
        -f32::NAN,
        f32::from_bits(0x7F80_0001),
        f32::from_bits(0xFFFF_FFFF),
    ])
}

/// All 256 sets of causes: the lowest is given, with its place.
#[test]
fn every_set_of_causes() {
    let mut random = random(1200);
    for number in 0..256 {
        let present: [bool; 8] = subset(number);
        let [sizes, length, entry, weight, overlap, setting, buffer, sample] = present;
        let h = matrix_with([sizes, length, entry, weight, overlap]);
        let subject = Subject::new(&h, &mut random);
        let n = usize::from(h.n);
        for _ in 0..cases(6) {
            let setting = if setting {
                bad_setting(&mut random)
            } else {
                settings::some(&mut random)
            };
            let mut samples: Vec<f32> = (0..n).map(|_| random.gaussian() as f32).collect();
            let place = random.below(n - 1);
            if sample {
                samples[place] = not_finite(&mut random);
            }
            let (mut for_word, mut for_levels) = (3 + random.below(3), n + random.below(3));
            if buffer {
                match random.below(4) {
                    0 => for_word = random.below(3),
                    1 => for_levels = random.below(n),
                    2 => samples.truncate(n - 1),
                    _ => samples.push(0.0),
                }
            }
            let left = subject.iterative(&setting, &samples, for_word, for_levels, &mut random);
            let lowest = present.iter().position(|&cause| cause);
            match lowest {
                None => assert_eq!(left.answer.refusal(), 0),
                Some(at) => {
                    let places = [&PLACES[..], &[0, 0, place as u64]].concat();
                    assert_eq!(
                        left.answer,
                        refused(at as u64 + 1, places[at]),
                        "{present:?}"
                    );
                }
            }
        }
    }
}

/// Each buffer of every length near the needed one.
#[test]
fn buffers() {
    let mut random = random(1201);
    for code in some_codes() {
        let subject = Subject::new(&code.matrix, &mut random);
        let codewords = Codewords::of(&code.matrix);
        let (n, needed) = (usize::from(code.matrix.n), subject.needed());
        let setting = settings::around_one(5, 2, 0, &mut random);
        let sent = codewords.random(&mut random);
        let samples = noise::received(&sent, 0.7, &mut random);
        for for_word in [0, needed - 1, needed, needed + 1, needed + 9] {
            for for_levels in [0, n - 1, n, n + 1, n + 9] {
                let left = subject.iterative(&setting, &samples, for_word, for_levels, &mut random);
                let fits = for_word >= needed && for_levels >= n;
                assert_eq!(left.answer == refused(7, 0), !fits, "{}", code.name);
            }
        }
        for count in [0, 1, n - 1, n + 1, n + 8, 2 * n] {
            if count != n {
                let mut samples = samples.clone();
                samples.resize(count, 1.0);
                let left = subject.iterative(&setting, &samples, needed, n, &mut random);
                assert_eq!(left.answer, refused(7, 0), "{}", code.name);
                let left = subject.iterative(&setting, &samples, 2 * needed, 2 * n, &mut random);
                assert_eq!(left.answer, refused(7, 0), "{}", code.name);
            }
        }
    }
}

/// The first sample that is not finite, at every place of small codes.
#[test]
fn samples_not_finite() {
    let mut random = random(1202);
    for code in some_codes() {
        let subject = Subject::new(&code.matrix, &mut random);
        let n = usize::from(code.matrix.n);
        for place in 0..n {
            if n > 30 && place > 2 && place + 3 < n && !random.once_in(n / 8) {
                continue;
            }
            let setting = settings::some(&mut random);
            let mut samples = vec![1.0; n];
            samples[place] = not_finite(&mut random);
            for later in samples.iter_mut().skip(place + 1) {
                if random.once_in(3) {
                    *later = not_finite(&mut random);
                }
            }
            let left = subject.block(&setting, &samples, &mut random);
            assert_eq!(left.answer, refused(8, place as u64), "{}", code.name);
        }
    }
}

/// Settings out of range one by one.
#[test]
fn settings_out_of_range() {
    let mut random = random(1203);
    for code in [codes::code_a(), codes::single_row(2), codes::tanner155()] {
        let subject = Subject::new(&code.matrix, &mut random);
        let n = usize::from(code.matrix.n);
        for kind in [0, 1] {
            let good = settings::around_one(6, 3, kind, &mut random);
            let samples = vec![0.5; n];
            assert_eq!(
                subject.block(&good, &samples, &mut random).answer.refusal(),
                0
            );
            for setting in settings::refused(&good) {
                let left = subject.block(&setting, &samples, &mut random);
                assert_eq!(left.answer, refused(6, 0), "{setting:?}");
            }
        }
    }
}

/// Everything by chance: matrix, setting, samples and buffers.
#[test]
fn calls_by_chance() {
    let mut random = random(1204);
    let codes = codes::small();
    let mut seen = [0; 9];
    for _ in 0..cases(6000) {
        let mut h = random.pick(&codes).matrix.clone();
        if random.once_in(3) {
            damage::change(&mut h, &mut random);
        }
        let subject = Subject::new(&h, &mut random);
        let mut setting = settings::some(&mut random);
        if random.once_in(5) {
            setting = bad_setting(&mut random);
        }
        let n = usize::from(h.n).min(1100);
        let count = match random.below(12) {
            0 => n + 1,
            1 => n.saturating_sub(1),
            _ => n,
        };
        let mut samples: Vec<f32> = (0..count)
            .map(|_| setting.step * 3.0 * random.gaussian() as f32)
            .collect();
        if random.once_in(4) && count > 0 {
            samples[random.below(count)] = not_finite(&mut random);
        }
        let for_word = (byte_count(n as u16) + random.below(6)).saturating_sub(random.below(2));
        let for_levels = (n + random.below(6)).saturating_sub(random.below(2));
        let left = subject.iterative(&setting, &samples, for_word, for_levels, &mut random);
        seen[left.answer.refusal() as usize] += 1;
    }
    assert!(seen.iter().all(|&times| times > 20), "{seen:?}");
}
