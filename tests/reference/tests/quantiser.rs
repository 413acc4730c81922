//! "Samples and levels": the document's own numbers, and the formula as it is printed.

use reference::{
    check_setting, hard_bit, largest_level, level, quantise, unpack, Refusal, Setting,
};

fn level_step(bits: u16, step: f32) -> Setting {
    Setting {
        bits,
        limit: 5,
        kind: 0,
        step,
    }
}

fn full_scale(bits: u16, step: f32) -> Setting {
    Setting {
        kind: 1,
        ..level_step(bits, step)
    }
}

fn level_and_bit(setting: &Setting, sample: f32) -> (i32, bool) {
    (level(setting, sample), hard_bit(sample))
}

#[test]
fn the_examples_of_the_document() {
    let by_level_step = |sample| level_and_bit(&level_step(3, 0.5), sample);
    assert_eq!(largest_level(3), 3);
    assert_eq!(by_level_step(0.25), (1, true));
    assert_eq!(by_level_step(-0.25), (-1, false));
    assert_eq!(by_level_step(0.125), (0, true));
    assert_eq!(by_level_step(1.25), (3, true));
    assert_eq!(by_level_step(-9.0), (-3, false));
    assert_eq!(by_level_step(-0.0), (0, false));
    assert_eq!(by_level_step(0.0), (0, false));
    let by_full_scale = |sample| level(&full_scale(3, 4.0), sample);
    assert_eq!(by_full_scale(2.0), 2);
    assert_eq!(by_full_scale(-2.0), -2);
    assert_eq!(by_full_scale(0.5), 0);
    assert_eq!(by_full_scale(5.0), 3);
}

#[test]
fn the_largest_level_of_each_width() {
    let largest: Vec<i32> = (2..=12).map(largest_level).collect();
    assert_eq!(largest, [1, 3, 7, 15, 31, 63, 127, 255, 511, 1023, 2047]);
    for bits in 2..=12 {
        let setting = level_step(bits, 1.0);
        assert_eq!(level(&setting, f32::MAX), largest_level(bits));
        assert_eq!(level(&setting, f32::MIN), -largest_level(bits));
        let setting = full_scale(bits, 1.0);
        assert_eq!(level(&setting, 1.0), largest_level(bits));
        assert_eq!(level(&setting, -1.0), -largest_level(bits));
    }
}

#[test]
fn the_ends_of_the_setting() {
    let refused = |setting: Setting| check_setting(&setting) == Err(Refusal::plain(6));
    // "b = 8 passes, 9 is refusal 6." Card 7: "the case b = 9 is accepted", "out of range from 13".
    for bits in 8..=12 {
        assert!(!refused(level_step(bits, 0.5)));
    }
    assert!(refused(level_step(13, 0.5)));
    assert!(!refused(level_step(2, 0.5)));
    assert!(refused(level_step(1, 0.5)));
    let with_limit = |limit| Setting {
        limit,
        ..level_step(3, 0.5)
    };
    assert!(!refused(with_limit(0)));
    assert!(!refused(with_limit(255)));
    assert!(refused(with_limit(256)));
    let with_kind = |kind| Setting {
        kind,
        ..level_step(3, 0.5)
    };
    assert!(!refused(with_kind(1)));
    assert!(refused(with_kind(2)));
    let (least, most) = (2.0_f32.powi(-20), 2.0_f32.powi(20));
    for step in [least, most, 0.1] {
        assert!(!refused(level_step(3, step)));
        assert!(!refused(full_scale(3, step)));
    }
    for step in [
        least.next_down(),
        most.next_up(),
        -0.5,
        0.0,
        -0.0,
        f32::from_bits(1),
        f32::MAX,
        f32::INFINITY,
        f32::NEG_INFINITY,
        f32::NAN,
        -f32::NAN,
    ] {
        assert!(refused(level_step(3, step)), "{step}");
        assert!(refused(full_scale(3, step)), "{step}");
    }
}

/// The printed formula, in 64-bit floats. Its numerator, 2|Y| + D or 2L|Y| + F, is exact when the
/// two are not far apart; the quotient is rounded, so it is only compared where it lies away from
/// a whole number or is one exactly.
#[test]
fn the_formula_as_printed() {
    for bits in 2..=12 {
        let largest = f64::from(largest_level(bits));
        for step in [0.5_f32, 0.1, 0.75, 3.0, 1.0e-5, 7.7e5] {
            for at in 0..2_000 {
                let sample = step * (at as f32) / 9.7;
                for (setting, gain) in [
                    (level_step(bits, step), 1.0),
                    (full_scale(bits, step), largest),
                ] {
                    let (y, d) = (f64::from(sample), f64::from(step));
                    let quotient = (2.0 * gain * y + d) / (2.0 * d);
                    let away = (quotient - quotient.round()).abs();
                    if away > 1e-9 {
                        let expected = quotient.floor().min(largest) as i32;
                        assert_eq!(level(&setting, sample), expected);
                        assert_eq!(level(&setting, -sample), -expected);
                    }
                }
            }
        }
    }
}

/// (2k − 1)D and 2L|Y| have at most 12 + 24 significant bits, so a 64-bit float holds them exactly
/// and the comparison of whole numbers can be done there too.
#[test]
fn half_ways_go_away_from_zero() {
    for bits in 2..=12 {
        let largest = largest_level(bits);
        for step in [0.5_f32, 0.1, 1.0 / 3.0, 5.0e-6, 1_048_575.94] {
            for (setting, gain) in [
                (level_step(bits, step), 1),
                (full_scale(bits, step), largest),
            ] {
                for k in 1..=largest {
                    let threshold = f64::from(2 * k - 1) * f64::from(step);
                    let near = (threshold / f64::from(2 * gain)) as f32;
                    for sample in [near.next_down(), near, near.next_up()] {
                        let twice = f64::from(2 * gain) * f64::from(sample);
                        let expected = if twice >= threshold { k } else { k - 1 };
                        assert_eq!(level(&setting, sample), expected);
                        assert_eq!(level(&setting, -sample), -expected);
                    }
                }
            }
        }
    }
}

#[test]
fn the_word_and_the_levels_are_written() {
    let samples = [0.25, -0.25, 0.125, 1.25, -9.0, -0.0, 0.3, -0.1, 0.01];
    let mut levels = [99; 11];
    let mut word = [0xA5; 4];
    let answer = quantise(&level_step(3, 0.5), &samples, &mut levels, &mut word);
    assert_eq!(answer, Ok(()));
    assert_eq!(levels, [1, -1, 0, 3, -3, 0, 1, 0, 0, 99, 99]);
    assert_eq!(word, [0b1011_0010, 0b1000_0000, 0xA5, 0xA5]);
    assert_eq!(unpack(9, &word[..2])[8], hard_bit(0.01));
}

#[test]
fn refusals_6_to_8() {
    let refused = |setting: Setting, samples: &[f32], levels: usize, word: usize| {
        let mut levels = vec![99; levels];
        let mut word = vec![0x5A; word];
        let answer = quantise(&setting, samples, &mut levels, &mut word);
        if answer.is_err() {
            assert!(levels.iter().all(|&level| level == 99));
            assert!(word.iter().all(|&byte| byte == 0x5A));
        }
        answer.map_or_else(|refusal| (refusal.number, refusal.place), |()| (0, 0))
    };
    let good = level_step(3, 0.5);
    let bad = level_step(13, 0.5);
    assert_eq!(refused(good, &[], 0, 0), (0, 0));
    assert_eq!(refused(bad, &[], 0, 0), (6, 0));
    assert_eq!(refused(good, &[1.0; 1023], 1023, 128), (0, 0));
    assert_eq!(refused(good, &[1.0; 1024], 1024, 128), (7, 0));
    assert_eq!(refused(good, &[1.0; 1023], 1022, 128), (7, 0));
    assert_eq!(refused(good, &[1.0; 1023], 1023, 127), (7, 0));
    assert_eq!(refused(good, &[1.0; 8], 8, 1), (0, 0));
    assert_eq!(refused(good, &[1.0; 9], 9, 1), (7, 0));
    assert_eq!(refused(good, &[0.0, f32::NAN, f32::INFINITY], 3, 1), (8, 1));
    assert_eq!(refused(good, &[0.0, 1.0, f32::NEG_INFINITY], 3, 1), (8, 2));
    assert_eq!(refused(good, &[f32::NAN; 3], 2, 1), (7, 0));
    assert_eq!(refused(bad, &[f32::NAN; 3], 2, 1), (6, 0));
}
