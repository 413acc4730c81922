//! The index of a matrix, and voting that is lent one.

use crate::{LentMatrix, Packed};
use reference::Setting;

extern "C" {
    fn mlgd_index(
        n: u16,
        m: u16,
        rho: u16,
        gamma: u16,
        list: *const u16,
        list_len: usize,
        index: *mut u16,
        index_len: usize,
    ) -> u64;

    fn mlgd_one_step_indexed(
        n: u16,
        m: u16,
        rho: u16,
        gamma: u16,
        list: *const u16,
        list_len: usize,
        index: *const u16,
        index_len: usize,
        received: *const u8,
        received_len: usize,
        word: *mut u8,
        word_len: usize,
    ) -> u64;

    fn mlgd_iterative_indexed(
        n: u16,
        m: u16,
        rho: u16,
        gamma: u16,
        list: *const u16,
        list_len: usize,
        index: *const u16,
        index_len: usize,
        bits: u16,
        limit: u16,
        kind: u16,
        step: f32,
        samples: *const f32,
        samples_len: usize,
        word: *mut u8,
        word_len: usize,
        levels: *mut i16,
        levels_len: usize,
    ) -> u64;
}

/// Builds the index of a matrix.
pub fn index(h: LentMatrix, index: &mut [u16]) -> Packed {
    // SAFETY: as in the crate's root: any matrix and any lengths are accepted.
    Packed(unsafe {
        mlgd_index(
            h.n,
            h.m,
            h.rho,
            h.gamma,
            h.list.as_ptr(),
            h.list.len(),
            index.as_mut_ptr(),
            index.len(),
        )
    })
}

/// One-step voting on a received word, with an index lent.
pub fn one_step_indexed(h: LentMatrix, index: &[u16], received: &[u8], word: &mut [u8]) -> Packed {
    // SAFETY: as above, and any index is accepted.
    Packed(unsafe {
        mlgd_one_step_indexed(
            h.n,
            h.m,
            h.rho,
            h.gamma,
            h.list.as_ptr(),
            h.list.len(),
            index.as_ptr(),
            index.len(),
            received.as_ptr(),
            received.len(),
            word.as_mut_ptr(),
            word.len(),
        )
    })
}

/// Iterative voting on samples, with an index lent.
pub fn iterative_indexed(
    h: LentMatrix,
    index: &[u16],
    setting: &Setting,
    samples: &[f32],
    word: &mut [u8],
    levels: &mut [i16],
) -> Packed {
    // SAFETY: as above.
    Packed(unsafe {
        mlgd_iterative_indexed(
            h.n,
            h.m,
            h.rho,
            h.gamma,
            h.list.as_ptr(),
            h.list.len(),
            index.as_ptr(),
            index.len(),
            setting.bits,
            setting.limit,
            setting.kind,
            setting.step,
            samples.as_ptr(),
            samples.len(),
            word.as_mut_ptr(),
            word.len(),
            levels.as_mut_ptr(),
            levels.len(),
        )
    })
}
