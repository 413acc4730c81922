//! The program's input: "n, m, ρ, γ and the list as 16-bit numbers, low byte first; one byte each
//! for b, round limit and step kind [..]; the step and then blocks of n samples as single-format
//! floats, low byte first."

use reference::{Matrix, Setting};

/// The input up to and with the step. Width, limit and kind are cut to a byte.
pub fn head(h: &Matrix, setting: &Setting) -> Vec<u8> {
    let mut input = Vec::new();
    for number in [h.n, h.m, h.rho, h.gamma].iter().chain(&h.list) {
        input.extend(number.to_le_bytes());
    }
    input.extend([setting.bits, setting.limit, setting.kind].map(|number| number as u8));
    input.extend(setting.step.to_bits().to_le_bytes());
    input
}

/// A block's bytes.
pub fn block(samples: &[f32]) -> Vec<u8> {
    samples
        .iter()
        .flat_map(|sample| sample.to_bits().to_le_bytes())
        .collect()
}

/// A whole input.
pub fn input(h: &Matrix, setting: &Setting, blocks: &[Vec<f32>]) -> Vec<u8> {
    let mut input = head(h, setting);
    for samples in blocks {
        input.extend(block(samples));
    }
    input
}
