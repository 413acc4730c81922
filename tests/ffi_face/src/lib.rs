//! The Rattle library, crate `ffi`, as seen from Rust: declarations and safe wrappers.
//!
//! A slice crosses as two scalars, a pointer and the number of elements; a Rust slice in the
//! declaration itself would be passed in another way. A later function is one declaration and
//! one wrapper. The features `samples`, `session`, `index` and `sheet` declare the functions that
//! start from samples and those between the widths of stored levels, the session's, those that build
//! an index or are lent one, and those that read and write circulant sheets.

mod answer;
#[cfg(feature = "index")]
mod index;
#[cfg(feature = "samples")]
mod samples;
#[cfg(feature = "session")]
mod session;
#[cfg(feature = "sheet")]
mod sheet;
#[cfg(feature = "samples")]
mod widths;

pub use answer::Packed;
#[cfg(feature = "index")]
pub use index::{index, iterative_indexed, one_step_indexed};
use reference::Matrix;
#[cfg(feature = "samples")]
pub use samples::{iterative, quantise};
#[cfg(feature = "session")]
pub use session::{cells_of, open, record_of, step};
#[cfg(feature = "sheet")]
pub use sheet::{list_to_sheet, sheet_to_list};
#[cfg(feature = "samples")]
pub use widths::{narrow, widen};

extern "C" {
    fn mlgd_check(n: u16, m: u16, rho: u16, gamma: u16, list: *const u16, list_len: usize) -> u64;

    fn mlgd_failing(
        n: u16,
        m: u16,
        rho: u16,
        gamma: u16,
        list: *const u16,
        list_len: usize,
        received: *const u8,
        received_len: usize,
    ) -> u64;

    fn mlgd_one_step(
        n: u16,
        m: u16,
        rho: u16,
        gamma: u16,
        list: *const u16,
        list_len: usize,
        received: *const u8,
        received_len: usize,
        word: *mut u8,
        word_len: usize,
    ) -> u64;

    fn mlgd_changed(a: *const u8, a_len: usize, b: *const u8, b_len: usize) -> u64;
}

/// The sizes and the list as they are lent. The list may stand anywhere.
#[derive(Clone, Copy, Debug)]
pub struct LentMatrix<'a> {
    pub n: u16,
    pub m: u16,
    pub rho: u16,
    pub gamma: u16,
    pub list: &'a [u16],
}

impl<'a> From<&'a Matrix> for LentMatrix<'a> {
    fn from(h: &'a Matrix) -> LentMatrix<'a> {
        LentMatrix {
            n: h.n,
            m: h.m,
            rho: h.rho,
            gamma: h.gamma,
            list: &h.list,
        }
    }
}

/// The matrix check.
pub fn check(h: LentMatrix) -> Packed {
    let list = h.list;
    // SAFETY: the library reads the slices it is lent and writes to none but `&mut` ones; it
    // accepts any sizes and any lengths. The same holds of the calls below.
    Packed(unsafe { mlgd_check(h.n, h.m, h.rho, h.gamma, list.as_ptr(), list.len()) })
}

/// The count of failing checks in a received word.
pub fn failing(h: LentMatrix, received: &[u8]) -> Packed {
    let list = h.list;
    // SAFETY: as above.
    Packed(unsafe {
        mlgd_failing(
            h.n,
            h.m,
            h.rho,
            h.gamma,
            list.as_ptr(),
            list.len(),
            received.as_ptr(),
            received.len(),
        )
    })
}

/// One-step voting on a received word.
pub fn one_step(h: LentMatrix, received: &[u8], word: &mut [u8]) -> Packed {
    let list = h.list;
    // SAFETY: as above.
    Packed(unsafe {
        mlgd_one_step(
            h.n,
            h.m,
            h.rho,
            h.gamma,
            list.as_ptr(),
            list.len(),
            received.as_ptr(),
            received.len(),
            word.as_mut_ptr(),
            word.len(),
        )
    })
}

/// The count of places at which two runs of bytes differ. Inlined, so that where it is measured no call
/// of this function is measured with it.
#[inline]
pub fn changed(a: &[u8], b: &[u8]) -> Packed {
    // SAFETY: as above.
    Packed(unsafe { mlgd_changed(a.as_ptr(), a.len(), b.as_ptr(), b.len()) })
}
