//! The functions that are lent samples.

use crate::{LentMatrix, Packed};
use reference::Setting;

extern "C" {
    fn mlgd_quantise(
        bits: u16,
        limit: u16,
        kind: u16,
        step: f32,
        samples: *const f32,
        samples_len: usize,
        levels: *mut i16,
        levels_len: usize,
        word: *mut u8,
        word_len: usize,
    ) -> u64;

    fn mlgd_iterative(
        n: u16,
        m: u16,
        rho: u16,
        gamma: u16,
        list: *const u16,
        list_len: usize,
        bits: u16,
        limit: u16,
        kind: u16,
        step: f32,
        samples: *const f32,
        samples_len: usize,
        word: *mut u8,
        word_len: usize,
        levels: *mut i16,
        levels_len: usize,
    ) -> u64;
}

/// The quantiser alone.
pub fn quantise(setting: &Setting, samples: &[f32], levels: &mut [i16], word: &mut [u8]) -> Packed {
    // SAFETY: as in the crate's root: any setting, any samples and any lengths are accepted.
    Packed(unsafe {
        mlgd_quantise(
            setting.bits,
            setting.limit,
            setting.kind,
            setting.step,
            samples.as_ptr(),
            samples.len(),
            levels.as_mut_ptr(),
            levels.len(),
            word.as_mut_ptr(),
            word.len(),
        )
    })
}

/// Iterative voting on samples.
pub fn iterative(
    h: LentMatrix,
    setting: &Setting,
    samples: &[f32],
    word: &mut [u8],
    levels: &mut [i16],
) -> Packed {
    // SAFETY: as above.
    Packed(unsafe {
        mlgd_iterative(
            h.n,
            h.m,
            h.rho,
            h.gamma,
            h.list.as_ptr(),
            h.list.len(),
            setting.bits,
            setting.limit,
            setting.kind,
            setting.step,
            samples.as_ptr(),
            samples.len(),
            word.as_mut_ptr(),
            word.len(),
            levels.as_mut_ptr(),
            levels.len(),
        )
    })
}
