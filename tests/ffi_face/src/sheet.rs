//! Circulant sheets into lists and back.

use crate::{LentMatrix, Packed};

extern "C" {
    fn mlgd_sheet_to_list(
        sheet: *const u8,
        sheet_len: usize,
        sizes: *mut u16,
        sizes_len: usize,
        list: *mut u16,
        list_len: usize,
    ) -> u64;

    fn mlgd_list_to_sheet(
        n: u16,
        m: u16,
        rho: u16,
        gamma: u16,
        list: *const u16,
        list_len: usize,
        z: u16,
        sheet: *mut u8,
        sheet_len: usize,
    ) -> u64;
}

/// A sheet into its sizes n, m, rho and gamma and its list.
pub fn sheet_to_list(sheet: &[u8], sizes: &mut [u16], list: &mut [u16]) -> Packed {
    // SAFETY: as in the crate's root: any bytes and any lengths are accepted.
    Packed(unsafe {
        mlgd_sheet_to_list(
            sheet.as_ptr(),
            sheet.len(),
            sizes.as_mut_ptr(),
            sizes.len(),
            list.as_mut_ptr(),
            list.len(),
        )
    })
}

/// A matrix into its sheet with blocks of `z`.
pub fn list_to_sheet(h: LentMatrix, z: u16, sheet: &mut [u8]) -> Packed {
    // SAFETY: as above, and any matrix and any `z` are accepted.
    Packed(unsafe {
        mlgd_list_to_sheet(
            h.n,
            h.m,
            h.rho,
            h.gamma,
            h.list.as_ptr(),
            h.list.len(),
            z,
            sheet.as_mut_ptr(),
            sheet.len(),
        )
    })
}
