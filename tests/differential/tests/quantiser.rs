//! The quantiser: every float beside a half-way, floats by chance, buffers of all lengths,
//! refusals 6 to 8.

use differential::{bytes_for, cases, quantise, quantise_exactly, random};
use ffi_face::Packed;
use generator::{settings, Random};
use reference::{largest_level, Setting};

const DONE: Packed = Packed(0);

fn refused(number: u64, place: u64) -> Packed {
    Packed::new(number * 65536 + place, 0, 0, 0)
}

/// Every width with both kinds.
fn widths_and_kinds() -> impl Iterator<Item = (u16, u16)> {
    (2..=12).flat_map(|bits| [(bits, 0), (bits, 1)])
}

/// Steps at the ends of the range, powers of two, short and long significands, odd ones.
fn steps(random: &mut Random) -> Vec<f32> {
    let (least, most) = (2.0_f32.powi(-20), 2.0_f32.powi(20));
    let mut steps = vec![
        least,
        least.next_up(),
        2.0 * least,
        2.0_f32.powi(-10),
        0.015,
        0.025,
        0.1,
        0.25,
        1.0 / 3.0,
        0.5,
        0.5_f32.next_up(),
        0.75,
        1.0_f32.next_down(),
        1.0,
        1.0_f32.next_up(),
        2.0_f32.next_down(),
        3.0,
        4.0,
        127.0,
        253.0,
        254.0,
        255.0,
        1000.1,
        2047.0,
        4093.0,
        4094.0,
        65_537.0,
        most / 2.0,
        most.next_down(),
        most,
    ];
    steps.extend((0..cases(8)).map(|_| settings::some_step(random)));
    steps
}

/// The floats next to (2k − 1)D / 2 or (2k − 1)F / (2L), three on each side, of both signs. The
/// exact half-way may lie between two of them.
fn beside_half_ways(setting: &Setting) -> Vec<f32> {
    let largest = largest_level(setting.bits);
    let gain = if setting.kind == 0 { 1 } else { largest };
    let mut samples = Vec::new();
    for k in 1..=largest + 1 {
        let half_way = f64::from(2 * k - 1) * f64::from(setting.step) / f64::from(2 * gain);
        let nearest = (half_way as f32).to_bits();
        for bits in nearest - 3..=nearest + 3 {
            samples.extend([f32::from_bits(bits), -f32::from_bits(bits)]);
        }
    }
    samples
}

#[test]
fn every_float_beside_a_half_way() {
    let mut random = random(1000);
    for step in steps(&mut random) {
        for (bits, kind) in widths_and_kinds() {
            let setting = Setting {
                bits,
                limit: 0,
                kind,
                step,
            };
            for samples in beside_half_ways(&setting).chunks(1023) {
                assert_eq!(
                    quantise_exactly(&setting, samples, &mut random).answer,
                    DONE
                );
            }
        }
    }
}

/// Where the half-way is a float, it goes away from zero and the float before it doesn't.
#[test]
fn exact_half_ways() {
    let mut random = random(1001);
    for (bits, kind) in widths_and_kinds() {
        let largest = largest_level(bits);
        for exponent in -20..=20 {
            // A full scale of L × 2^e has the half-ways of the level step 2^e.
            let unit = 2.0_f32.powi(exponent);
            let step = if kind == 0 {
                unit
            } else {
                largest as f32 * unit
            };
            if step > 2.0_f32.powi(20) {
                continue;
            }
            let setting = Setting {
                bits,
                limit: 255,
                kind,
                step,
            };
            for k in 1..=largest {
                let half_way = (k as f32 - 0.5) * unit;
                let samples = [
                    half_way,
                    half_way.next_down(),
                    -half_way,
                    -half_way.next_down(),
                ];
                let left = quantise_exactly(&setting, &samples, &mut random);
                assert_eq!(left.levels, [k, k - 1, -k, 1 - k].map(|level| level as i16));
                assert_eq!(left.word, [0b1100_0000]);
            }
        }
    }
}

#[test]
fn the_examples_of_the_document() {
    let mut random = random(1002);
    let samples = [0.25, -0.25, 0.125, 1.25, -9.0, -0.0, 0.0];
    let left = quantise_exactly(&settings::level_step(3, 5, 0.5), &samples, &mut random);
    assert_eq!(left.answer, DONE);
    assert_eq!(left.levels, [1, -1, 0, 3, -3, 0, 0]);
    assert_eq!(left.word, [0b1011_0000]);
    let samples = [2.0, -2.0, 0.5, 5.0];
    let left = quantise_exactly(&settings::full_scale(3, 5, 4.0), &samples, &mut random);
    assert_eq!(left.answer, DONE);
    assert_eq!(left.levels, [2, -2, 0, 3]);
    assert_eq!(left.word, [0b1011_0000]);
}

/// Any pattern but those with exponent field 255.
fn finite(random: &mut Random) -> f32 {
    loop {
        let sample = f32::from_bits(random.number() as u32);
        if sample.is_finite() {
            return sample;
        }
    }
}

/// A sample whose level is not at an end, as a rule.
fn in_range(setting: &Setting, random: &mut Random) -> f32 {
    let most = match setting.kind {
        0 => setting.step * (largest_level(setting.bits) as f32 + 1.0),
        _ => setting.step * 1.1,
    };
    let sample = most * random.unit() as f32;
    if random.once_in(2) {
        sample
    } else {
        -sample
    }
}

/// A million patterns by chance, and as many in the range of the step, in blocks of all lengths.
#[test]
fn patterns_by_chance() {
    let mut random = random(1003);
    let mut patterns = 0;
    while patterns < cases(2_000_000) {
        let setting = settings::some(&mut random);
        let count = match random.below(4) {
            0 => random.below(1024),
            _ => 1023,
        };
        let samples: Vec<f32> = (0..count)
            .map(|_| match random.below(2) {
                0 => finite(&mut random),
                _ => in_range(&setting, &mut random),
            })
            .collect();
        assert_eq!(
            quantise_exactly(&setting, &samples, &mut random).answer,
            DONE
        );
        patterns += count;
    }
}

/// Zeros, subnormals and the ends of the format, with every kind of setting.
#[test]
fn the_ends_of_the_format() {
    let mut random = random(1004);
    let mut samples = Vec::new();
    for bits in [
        0,
        1,
        2,
        3,
        0x3F_FFFF,
        0x40_0000,
        0x7F_FFFE,
        0x7F_FFFF,
        0x80_0000,
        0x80_0001,
        0x00FF_FFFF,
        0x0100_0000,
        0x7F00_0000,
        0x7F7F_FFFE,
        0x7F7F_FFFF,
    ] {
        samples.extend([f32::from_bits(bits), f32::from_bits(bits | 1 << 31)]);
    }
    // Every exponent, the least and the largest significand.
    for field in 0..=254_u32 {
        samples.push(f32::from_bits(field << 23));
        samples.push(f32::from_bits(field << 23 | 0x7F_FFFF | 1 << 31));
    }
    for step in steps(&mut random) {
        for (bits, kind) in widths_and_kinds() {
            let setting = Setting {
                bits,
                limit: 7,
                kind,
                step,
            };
            let left = quantise_exactly(&setting, &samples, &mut random);
            assert_eq!(left.answer, DONE);
            assert_eq!(left.levels[..2], [0, 0]);
        }
    }
    // Both zeros give the hard bit 0, the smallest sample above 0 gives 1.
    let setting = settings::level_step(8, 30, 1.0);
    let smallest = f32::from_bits(1);
    let left = quantise_exactly(&setting, &[0.0, -0.0, smallest, -smallest], &mut random);
    assert_eq!((left.word[0], &left.levels[..]), (0b0010_0000, &[0; 4][..]));
}

/// Infinities and NaNs with payloads, of both signs.
fn not_finite(random: &mut Random) -> f32 {
    let sign = (random.below(2) as u32) << 31;
    let payload = match random.below(4) {
        0 => 0,
        1 => 1,
        2 => 0x40_0000,
        _ => random.below(1 << 23) as u32,
    };
    f32::from_bits(sign | 0x7F80_0000 | payload)
}

#[test]
fn the_first_sample_that_is_not_finite() {
    let mut random = random(1005);
    for count in [1, 2, 7, 8, 9, 64, 155, 1022, 1023] {
        let mut places: Vec<usize> = (0..count.min(20)).collect();
        places.extend([count / 2, count - 1]);
        for place in places {
            let setting = settings::some(&mut random);
            let mut samples: Vec<f32> = (0..count).map(|_| finite(&mut random)).collect();
            samples[place] = not_finite(&mut random);
            // Others after it are not the first.
            for later in samples.iter_mut().skip(place + 1) {
                if random.once_in(3) {
                    *later = not_finite(&mut random);
                }
            }
            let (levels, word) = (count + random.below(3), bytes_for(count) + random.below(3));
            let left = quantise(&setting, &samples, levels, word, &mut random);
            assert_eq!(left.answer, refused(8, place as u64));
        }
    }
    // Every pattern of the payload's single bits.
    let setting = settings::level_step(8, 30, 0.1);
    for shift in 0..23 {
        for sign in [0, 1 << 31] {
            let sample = f32::from_bits(sign | 0x7F80_0000 | 1 << shift);
            let left = quantise_exactly(&setting, &[1.0, sample], &mut random);
            assert_eq!(left.answer, refused(8, 1));
        }
    }
}

/// Buffers of exactly the needed cells, one short, longer, none.
#[test]
fn lengths() {
    let mut random = random(1006);
    let setting = settings::level_step(8, 30, 0.01);
    for count in [
        0, 1, 2, 7, 8, 9, 15, 16, 17, 511, 512, 1016, 1017, 1022, 1023, 1024, 1025, 2047,
    ] {
        let samples: Vec<f32> = (0..count)
            .map(|_| in_range(&setting, &mut random))
            .collect();
        let needed = bytes_for(count);
        for levels in [0, count.saturating_sub(1), count, count + 1, count + 9] {
            for word in [0, needed.saturating_sub(1), needed, needed + 1, needed + 9] {
                let left = quantise(&setting, &samples, levels, word, &mut random);
                let fits = count <= 1023 && levels >= count && word >= needed;
                let expected = if fits { DONE } else { refused(7, 0) };
                assert_eq!(left.answer, expected, "{count} {levels} {word}");
            }
        }
    }
    // 65,536 more: the count as a 16-bit number would be within the range.
    let samples = vec![1.0; 65_536 + 9];
    let left = quantise(&setting, &samples, 65_545, 8_200, &mut random);
    assert_eq!(left.answer, refused(7, 0));
}

#[test]
fn settings_out_of_range_one_by_one() {
    let mut random = random(1007);
    for (bits, kind) in widths_and_kinds() {
        let good = Setting {
            bits,
            limit: random.below(256) as u16,
            kind,
            step: settings::some_step(&mut random),
        };
        assert_eq!(quantise_exactly(&good, &[1.0], &mut random).answer, DONE);
        for setting in settings::refused(&good) {
            for count in [0, 1, 9] {
                let samples = vec![0.5; count];
                let left = quantise(&setting, &samples, count, 2, &mut random);
                assert_eq!(left.answer, refused(6, 0), "{setting:?}");
            }
            // Buffers too short and samples not finite as well: 6 is the lowest.
            let left = quantise(&setting, &[f32::NAN; 3], 2, 0, &mut random);
            assert_eq!(left.answer, refused(6, 0), "{setting:?}");
        }
    }
}

/// The ends of the ranges, which are accepted, and everything combined.
#[test]
fn settings_combined() {
    let mut random = random(1008);
    let (least, most) = (2.0_f32.powi(-20), 2.0_f32.powi(20));
    let mut steps = settings::steps_out_of_range();
    steps.extend([least, least.next_up(), 1.0, most.next_down(), most]);
    for bits in [0, 1, 2, 8, 9, 12, 13, 258, 65_535] {
        for limit in [0, 1, 255, 256, 65_535] {
            for kind in [0, 1, 2, 256, 257] {
                for &step in &steps {
                    let setting = Setting {
                        bits,
                        limit,
                        kind,
                        step,
                    };
                    let fits = (2..=12).contains(&bits)
                        && limit <= 255
                        && kind <= 1
                        && step >= least
                        && step <= most;
                    let left = quantise_exactly(&setting, &[step, -1.0], &mut random);
                    let expected = if fits { DONE } else { refused(6, 0) };
                    assert_eq!(left.answer, expected, "{setting:?}");
                }
            }
        }
    }
}

/// 7 is asked before 8.
#[test]
fn short_buffers_and_samples_not_finite() {
    let mut random = random(1009);
    for count in [1, 9, 1023, 1024] {
        let samples: Vec<f32> = (0..count).map(|_| not_finite(&mut random)).collect();
        let setting = settings::some(&mut random);
        let needed = bytes_for(count);
        for (levels, word) in [(count - 1, needed), (count, needed - 1), (0, 0)] {
            let left = quantise(&setting, &samples, levels, word, &mut random);
            assert_eq!(left.answer, refused(7, 0));
        }
        let left = quantise(&setting, &samples, count, needed, &mut random);
        let expected = if count > 1023 {
            refused(7, 0)
        } else {
            refused(8, 0)
        };
        assert_eq!(left.answer, expected);
    }
}
