//! Stored levels of eight bits brought over to sixteen, and taken back.

use crate::Packed;

extern "C" {
    fn mlgd_widen(old: *const i8, old_len: usize, levels: *mut i16, levels_len: usize) -> u64;

    fn mlgd_narrow(levels: *const i16, levels_len: usize, old: *mut i8, old_len: usize) -> u64;
}

/// Old levels brought over.
pub fn widen(old: &[i8], levels: &mut [i16]) -> Packed {
    // SAFETY: as in the crate's root: any numbers and any lengths are accepted.
    Packed(unsafe { mlgd_widen(old.as_ptr(), old.len(), levels.as_mut_ptr(), levels.len()) })
}

/// Levels taken back.
pub fn narrow(levels: &[i16], old: &mut [i8]) -> Packed {
    // SAFETY: as above.
    Packed(unsafe { mlgd_narrow(levels.as_ptr(), levels.len(), old.as_mut_ptr(), old.len()) })
}
