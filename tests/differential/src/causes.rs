//! A matrix of twenty columns with any of the refusals 1 to 5 in it, at known places.

use generator::codes::{self, Code};
use reference::Matrix;

/// The place of each refusal, 1 to 5, in `matrix_with`.
pub const PLACES: [u64; 5] = [0, 0, 31, 9, 4];

/// Twenty columns, rho 2, gamma 2: a cycle of twenty, and for refusal 5 a cycle of eighteen with
/// the rows 4 and 11 equal. `present[k]` asks for the cause of refusal k + 1.
pub fn matrix_with(present: [bool; 5]) -> Matrix {
    let [sizes, length, entry, weight, overlap] = present;
    let mut rows = codes::cycle(20).rows();
    if overlap {
        rows = codes::cycle(18).rows();
        for row in &mut rows {
            row.iter_mut().for_each(|c| *c += 2);
        }
        rows.insert(4, vec![0, 1]);
        rows.insert(11, vec![0, 1]);
    }
    let mut h = Code::from_rows("causes", 20, &rows).matrix;
    if weight {
        h = moved(&h, 9, 15).expect("a row to move a one in");
    }
    if entry {
        h.list[31] = h.n;
    }
    if length {
        h.list.push(0);
    }
    if sizes {
        h.gamma += 1;
    }
    h
}

/// The matrix with a one of the first row that allows it moved from one column to the other, if
/// there is such a row.
pub fn moved(h: &Matrix, from: u16, to: u16) -> Option<Matrix> {
    let rho = usize::from(h.rho);
    let mut moved = h.clone();
    let row = moved
        .list
        .chunks_mut(rho)
        .find(|row| row.contains(&from) && !row.contains(&to))?;
    for c in row.iter_mut().filter(|c| **c == from) {
        *c = to;
    }
    row.sort_unstable();
    Some(moved)
}

/// Which of `count` causes are present in the subset of this number.
pub fn subset<const COUNT: usize>(number: usize) -> [bool; COUNT] {
    std::array::from_fn(|at| number >> at & 1 == 1)
}
