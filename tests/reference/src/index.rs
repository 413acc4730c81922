//! Document 02, card 1: the index of a matrix, and the calls that are lent one.

use crate::iterative::checks_of_all;
use crate::{check, iterative_accepted, one_step_accepted, Answer, Matrix, Refusal, Setting};

/// "n + 1 starting places from 0 to m × ρ, then the row numbers of each column in ascending
/// order, all 16-bit."
///
/// The matrix is one that `check` has accepted. All rows are searched for those of a column; it
/// starts at as many row numbers as stand before its own.
pub fn index_of(h: &Matrix) -> Vec<u16> {
    let mut starts = vec![0];
    let mut rows = Vec::new();
    for rows_of_j in checks_of_all(h) {
        rows.extend(rows_of_j.into_iter().map(|i| i as u16));
        starts.push(rows.len() as u16);
    }
    [starts, rows].concat()
}

/// "New refusal 10, [..] or a buffer too short to build it in". Cells beyond the index stay.
pub fn write_index(own: &[u16], buffer: &mut [u16]) -> Result<(), Refusal> {
    if buffer.len() < own.len() {
        return Err(Refusal::plain(10));
    }
    buffer[..own.len()].copy_from_slice(own);
    Ok(())
}

/// "New refusal 10, an index that is not exactly the matrix's own": its length and each of its
/// numbers.
pub fn trust_index(own: &[u16], lent: &[u16]) -> Result<(), Refusal> {
    if lent != own {
        return Err(Refusal::plain(10));
    }
    Ok(())
}

/// "Build an index beside the list": refusals 1 to 5, and 10, which "comes right after 5".
pub fn index(h: &Matrix, buffer: &mut [u16]) -> Result<(), Refusal> {
    check(h)?;
    write_index(&index_of(h), buffer)
}

/// "one-step [..] voting that take[s] matrix and index, with the same answers as without it":
/// refusals 1 to 5, 10, 7 and 9.
pub fn one_step_indexed(
    h: &Matrix,
    lent: &[u16],
    received: &[u8],
    word: &mut [u8],
) -> Result<Answer, Refusal> {
    check(h)?;
    trust_index(&index_of(h), lent)?;
    one_step_accepted(h, received, word)
}

/// "iterative voting that take[s] matrix and index": refusals 1 to 5, 10, and 6 to 8.
pub fn iterative_indexed(
    h: &Matrix,
    lent: &[u16],
    setting: &Setting,
    samples: &[f32],
    word: &mut [u8],
    levels: &mut [i16],
) -> Result<Answer, Refusal> {
    check(h)?;
    trust_index(&index_of(h), lent)?;
    iterative_accepted(h, setting, samples, word, levels)
}
