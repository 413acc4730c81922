//! Settings for the quantiser and the decoders from samples.

use crate::random::Random;
use reference::{largest_level, Setting};

pub fn level_step(bits: u16, limit: u16, step: f32) -> Setting {
    Setting {
        bits,
        limit,
        kind: 0,
        step,
    }
}

pub fn full_scale(bits: u16, limit: u16, step: f32) -> Setting {
    Setting {
        kind: 1,
        ..level_step(bits, limit, step)
    }
}

/// A setting of this width and kind for samples around ±1: the largest level stands for a sample
/// from a half to four.
pub fn around_one(bits: u16, limit: u16, kind: u16, random: &mut Random) -> Setting {
    let scale = *random.pick(&[0.5, 0.9, 1.0, 1.5, 2.0, 3.0, 4.0]);
    match kind {
        0 => level_step(bits, limit, scale / largest_level(bits) as f32),
        _ => full_scale(bits, limit, scale),
    }
}

/// A step by chance, from the whole of its range.
pub fn some_step(random: &mut Random) -> f32 {
    let (least, most) = (2.0_f32.powi(-20), 2.0_f32.powi(20));
    let patterns = (most.to_bits() - least.to_bits() + 1) as usize;
    f32::from_bits(least.to_bits() + random.below(patterns) as u32)
}

/// An accepted setting by chance.
pub fn some(random: &mut Random) -> Setting {
    Setting {
        bits: 2 + random.below(11) as u16,
        limit: random.below(256) as u16,
        kind: random.below(2) as u16,
        step: some_step(random),
    }
}

/// Settings that are refused, each for one part alone.
pub fn refused(good: &Setting) -> Vec<Setting> {
    let mut refused = Vec::new();
    for bits in [
        0, 1, 13, 14, 16, 255, 256, 258, 264, 268, 32_770, 32_780, 65_535,
    ] {
        refused.push(Setting { bits, ..*good });
    }
    for limit in [256, 257, 260, 511, 512, 32_768, 65_280, 65_535] {
        refused.push(Setting { limit, ..*good });
    }
    for kind in [2, 3, 4, 255, 256, 257, 32_768, 65_535] {
        refused.push(Setting { kind, ..*good });
    }
    for step in steps_out_of_range() {
        refused.push(Setting { step, ..*good });
    }
    refused
}

/// Steps below, above and beside the range, of both signs.
pub fn steps_out_of_range() -> Vec<f32> {
    let (least, most) = (2.0_f32.powi(-20), 2.0_f32.powi(20));
    let magnitudes = [
        0.0,
        f32::from_bits(1),
        f32::MIN_POSITIVE,
        least / 2.0,
        least.next_down(),
        most.next_up(),
        2.0 * most,
        f32::MAX,
        f32::INFINITY,
        f32::from_bits(0x7F80_0001),
        f32::from_bits(0x7FC0_0000),
        f32::from_bits(0x7FFF_FFFF),
    ];
    let mut steps = vec![-least, -0.5, -1.0, -most];
    for magnitude in magnitudes {
        steps.extend([magnitude, -magnitude]);
    }
    steps
}
