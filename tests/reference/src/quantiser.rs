use crate::whole::Whole;
use crate::{byte_count, pack, Refusal};

/// "A setting is the bit width b, the round limit and the step. [..] The step is given as a level
/// step or as a full scale."
///
/// The kind of step is a number, "0 level step, 1 full scale, else refusal 6". Nothing here is
/// known to hold.
#[derive(Clone, Copy, Debug)]
pub struct Setting {
    pub bits: u16,
    pub limit: u16,
    pub kind: u16,
    pub step: f32,
}

/// "The width b is 2 to 8". Card 7: "Let b go to 12".
pub(crate) fn width_fits(bits: u16) -> bool {
    (2..=12).contains(&bits)
}

/// "The round limit is 0 to 255."
pub(crate) fn limit_fits(limit: u16) -> bool {
    (0..=255).contains(&limit)
}

/// "each a finite single-format float from 2^−20 to 2^20, both ends included." A comparison with
/// a NaN is false.
fn step_fits(step: f32) -> bool {
    (1.0 / 1_048_576.0..=1_048_576.0).contains(&step)
}

/// "6: b, round limit or step out of range, the step not finite included." Card 7: "Refusals 6 and 20
/// now take b as out of range from 13".
pub fn check_setting(setting: &Setting) -> Result<(), Refusal> {
    let kind_fits = setting.kind == 0 || setting.kind == 1;
    if width_fits(setting.bits) && limit_fits(setting.limit) && kind_fits && step_fits(setting.step)
    {
        Ok(())
    } else {
        Err(Refusal::plain(6))
    }
}

/// "L = 2^(b − 1) − 1."
pub fn largest_level(bits: u16) -> i32 {
    assert!(width_fits(bits));
    2_i32.pow(u32::from(bits) - 1) - 1
}

/// "store levels as signed 16-bit numbers".
pub(crate) fn stored(level: i32) -> i16 {
    i16::try_from(level).expect("a level of up to 12 bits")
}

/// The level of a finite sample.
///
/// "With a level step the magnitude of the level is the smaller of L and (2|Y| + D) / (2D)
/// rounded down. With a full scale it is the smaller of L and (2L|Y| + F) / (2F) rounded down."
///
/// A quotient rounded down is k or more exactly when the divisor goes k times into the dividend:
/// 2kD ≤ 2|Y| + D, that is (2k − 1)D ≤ 2|Y|, and in the same way (2k − 1)F ≤ 2L|Y|. So the
/// magnitude is the number of k from 1 to L for which that holds. The left side rises with k, so
/// those are the first ones, and the last of them is found by halving.
pub fn level(setting: &Setting, sample: f32) -> i32 {
    let largest = largest_level(setting.bits) as u32;
    let gain = if setting.kind == 0 { 1 } else { largest };
    let step = Whole::of_magnitude(setting.step);
    let twice_the_sample = Whole::of_magnitude(sample).times(2 * gain);
    let holds = |k: u32| step.times(2 * k - 1) <= twice_the_sample;
    // It holds for the first `least` numbers k, and for none from `most` + 1 on.
    let (mut least, mut most) = (0, largest);
    while least < most {
        let middle = (least + most + 1) / 2;
        if holds(middle) {
            least = middle;
        } else {
            most = middle - 1;
        }
    }
    let magnitude = least as i32;
    // "The level has the sign of the sample."
    if sample.is_sign_negative() {
        -magnitude
    } else {
        magnitude
    }
}

/// "The hard bit is 1 when the sample is above 0, else 0 [..]. It comes from the sample and not
/// from the level. Both zeros give 0."
pub fn hard_bit(sample: f32) -> bool {
    sample > 0.0
}

/// "8: a sample infinite or not a number. Place: first such index."
pub(crate) fn samples_are_finite(samples: &[f32]) -> Result<(), Refusal> {
    for (index, sample) in samples.iter().enumerate() {
        if sample.is_infinite() || sample.is_nan() {
            return Err(Refusal::at(8, index));
        }
    }
    Ok(())
}

/// "the quantiser, which writes the levels and the hard bits packed as a word": refusals 6 to 8.
pub fn quantise(
    setting: &Setting,
    samples: &[f32],
    levels: &mut [i16],
    word: &mut [u8],
) -> Result<(), Refusal> {
    check_setting(setting)?;
    // "For the quantiser alone: more than 1,023 samples or a shorter output; no samples is
    // accepted and writes nothing."
    if samples.len() > 1023 {
        return Err(Refusal::plain(7));
    }
    let needed = byte_count(samples.len() as u16);
    if levels.len() < samples.len() || word.len() < needed {
        return Err(Refusal::plain(7));
    }
    samples_are_finite(samples)?;

    for (at, &sample) in samples.iter().enumerate() {
        levels[at] = stored(level(setting, sample));
    }
    let hard_bits: Vec<bool> = samples.iter().map(|&sample| hard_bit(sample)).collect();
    word[..needed].copy_from_slice(&pack(&hard_bits));
    Ok(())
}
