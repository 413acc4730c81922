//! The Rattle library as the firmware calls it, crate `firmware`, seen from Rust: the declaration
//! and a safe wrapper.
//!
//! A slice crosses as two scalars, a pointer and the number of bytes. The archive is one of its
//! own: a program may link it beside that of `ffi_face`.

use reference::firmware::Call;

extern "C" {
    fn mlgd_decode(
        n: u16,
        m: u16,
        rho: u16,
        gamma: u16,
        list: *const u8,
        list_bytes: usize,
        bits: u16,
        limit: u16,
        kind: u16,
        step: u32,
        samples: *const u8,
        sample_bytes: usize,
        word: *mut u8,
        word_bytes: usize,
        levels: *mut u8,
        level_bytes: usize,
        report: *mut u8,
        report_bytes: usize,
    ) -> u32;
}

/// Iterative voting on bytes: 0 for decoded, 1 for failed, else the refusal's number × 65,536 + its
/// place.
pub fn decode(call: &Call, word: &mut [u8], levels: &mut [u8], report: &mut [u8]) -> u32 {
    // SAFETY: the library reads the slices it is lent and writes to none but `&mut` ones, which do
    // not overlap; it accepts any numbers and any lengths, 0 included.
    unsafe {
        mlgd_decode(
            call.n,
            call.m,
            call.rho,
            call.gamma,
            call.list.as_ptr(),
            call.list.len(),
            call.bits,
            call.limit,
            call.kind,
            call.step,
            call.samples.as_ptr(),
            call.samples.len(),
            word.as_mut_ptr(),
            word.len(),
            levels.as_mut_ptr(),
            levels.len(),
            report.as_mut_ptr(),
            report.len(),
        )
    }
}
