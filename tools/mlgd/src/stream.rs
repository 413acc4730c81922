//! The program's input: n, m, rho, gamma and the list as 16-bit numbers, low byte first; a byte
//! each for width, round limit and kind of step; the step and the samples as single-format floats,
//! low byte first.

use crate::matrix_file::Matrix;
use crate::setting::Setting;

/// What the program reads of a run.
pub const MOST_BLOCKS: usize = 65_535;

/// The input up to and with the step.
pub fn head(h: &Matrix, setting: &Setting) -> Vec<u8> {
    let mut input = Vec::with_capacity(15 + 2 * h.list.len());
    for number in [h.n, h.m, h.rho, h.gamma].iter().chain(&h.list) {
        input.extend(number.to_le_bytes());
    }
    input.extend([setting.bits, setting.limit, setting.kind]);
    input.extend(setting.step.to_bits().to_le_bytes());
    input
}

/// Puts a block to an input.
pub fn put(input: &mut Vec<u8>, samples: &[f32]) {
    for sample in samples {
        input.extend(sample.to_bits().to_le_bytes());
    }
}

/// The samples in the bytes of a block.
pub fn samples(block: &[u8]) -> impl Iterator<Item = f32> + '_ {
    let four = |bytes: &[u8]| [bytes[0], bytes[1], bytes[2], bytes[3]];
    block
        .chunks_exact(4)
        .map(move |bytes| f32::from_le_bytes(four(bytes)))
}
