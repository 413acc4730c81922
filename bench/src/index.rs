//! The index of an accepted matrix, built and found to be the own one, in plain Rust: a cursor for
//! each column, and the rows walked once.

use crate::optimised::{is_regular, weights};
use reference::Matrix;

/// A cell for each column.
const WIDTH: usize = 1024;

/// Where the rows of each column begin: gamma ones in each one before it.
fn regular_starts(h: &Matrix) -> [u16; WIDTH] {
    let mut starts = [0; WIDTH];
    for (j, start) in starts.iter_mut().enumerate() {
        *start = j as u16 * h.gamma;
    }
    starts
}

/// The same of unlike columns: their own ones in each one before it.
///
/// # Safety
/// The check has accepted the matrix.
#[inline(never)]
unsafe fn unlike_starts(h: &Matrix) -> [u16; WIDTH] {
    let mut starts = [0; WIDTH];
    let mut sum = 0;
    for (start, weight) in starts.iter_mut().zip(weights(h)) {
        *start = sum;
        sum += u16::from(weight);
    }
    starts
}

/// The same of either.
///
/// # Safety
/// The check has accepted the matrix.
#[inline(always)]
unsafe fn starts(h: &Matrix) -> [u16; WIDTH] {
    match is_regular(h) {
        true => regular_starts(h),
        false => unlike_starts(h),
    }
}

/// Builds the index.
///
/// # Safety
/// The check has accepted the matrix, and the index has room for n + 1 + m × rho numbers.
pub unsafe fn build(h: &Matrix, index: &mut [u16]) {
    let mut cursors = starts(h);
    let (places, rows) = index.split_at_mut(usize::from(h.n) + 1);
    places.copy_from_slice(&cursors[..places.len()]);
    for (i, row) in h.list.chunks_exact(usize::from(h.rho)).enumerate() {
        for &c in row {
            let cursor = cursors.get_unchecked_mut(usize::from(c));
            *rows.get_unchecked_mut(usize::from(*cursor)) = i as u16;
            *cursor += 1;
        }
    }
}

/// Whether a lent index is the matrix's own: the building replayed, each number compared where it
/// would be written. No branch within a row: the differences are ORed.
///
/// # Safety
/// The check has accepted the matrix.
pub unsafe fn is_own(h: &Matrix, index: &[u16]) -> bool {
    let mut cursors = starts(h);
    let places = usize::from(h.n) + 1;
    if index.len() != places + h.list.len() || index[..places] != cursors[..places] {
        return false;
    }
    let rows = &index[places..];
    for (i, row) in h.list.chunks_exact(usize::from(h.rho)).enumerate() {
        let mut differs = 0;
        for &c in row {
            let cursor = cursors.get_unchecked_mut(usize::from(c));
            differs |= *rows.get_unchecked(usize::from(*cursor)) ^ i as u16;
            *cursor += 1;
        }
        if differs != 0 {
            return false;
        }
    }
    true
}

/// The same replay, as C has it: at the first number that differs it ends.
///
/// # Safety
/// The check has accepted the matrix.
pub unsafe fn is_own_plain(h: &Matrix, index: &[u16]) -> bool {
    let places = usize::from(h.n) + 1;
    if index.len() != places + h.list.len() {
        return false;
    }
    let mut cursors = [0; WIDTH];
    if is_regular(h) {
        for j in 0..places {
            let start = j as u16 * h.gamma;
            if *index.get_unchecked(j) != start {
                return false;
            }
            *cursors.get_unchecked_mut(j) = start;
        }
    } else {
        cursors = unlike_starts(h);
        if index[..places] != cursors[..places] {
            return false;
        }
    }
    let rows = index.get_unchecked(places..);
    for (i, row) in h.list.chunks_exact(usize::from(h.rho)).enumerate() {
        for &c in row {
            let cursor = cursors.get_unchecked_mut(usize::from(c));
            if *rows.get_unchecked(usize::from(*cursor)) != i as u16 {
                return false;
            }
            *cursor += 1;
        }
    }
    true
}
