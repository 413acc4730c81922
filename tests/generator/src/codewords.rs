//! The codewords of a parity-check matrix: the null space over GF(2).

use crate::random::Random;
use reference::Matrix;

/// The code as a basis of its codewords.
#[derive(Clone, Debug)]
pub struct Codewords {
    n: usize,
    basis: Vec<Vec<bool>>,
}

impl Codewords {
    /// By elimination. The matrix is an accepted one.
    pub fn of(matrix: &Matrix) -> Codewords {
        let n = usize::from(matrix.n);
        let (reduced, pivots) = reduced_rows(matrix);
        let basis = (0..n)
            .filter(|j| !pivots.contains(j))
            .map(|free| {
                let mut word = vec![false; n];
                word[free] = true;
                for (row, &pivot) in reduced.iter().zip(&pivots) {
                    word[pivot] = row[free];
                }
                word
            })
            .collect();
        Codewords { n, basis }
    }

    pub fn dimension(&self) -> usize {
        self.basis.len()
    }

    /// The sum of the basis words whose bit is set.
    fn sum(&self, bits: impl Iterator<Item = bool>) -> Vec<bool> {
        let mut word = vec![false; self.n];
        for (basis_word, chosen) in self.basis.iter().zip(bits) {
            if chosen {
                for (sum, bit) in word.iter_mut().zip(basis_word) {
                    *sum ^= bit;
                }
            }
        }
        word
    }

    pub fn random(&self, random: &mut Random) -> Vec<bool> {
        let bits = random.bits(self.dimension());
        self.sum(bits.into_iter())
    }

    /// All codewords, or at most `most` of them by chance, the zero word always among them.
    pub fn some(&self, most: usize, random: &mut Random) -> Vec<Vec<bool>> {
        if self.dimension() < 20 && 1 << self.dimension() <= most {
            let all = 0..1_usize << self.dimension();
            return all
                .map(|number| self.sum((0..self.dimension()).map(|k| number >> k & 1 == 1)))
                .collect();
        }
        let mut words = vec![vec![false; self.n]];
        words.extend((1..most).map(|_| self.random(random)));
        words
    }
}

/// The rows that stay after elimination, reduced, and the pivot column of each.
fn reduced_rows(matrix: &Matrix) -> (Vec<Vec<bool>>, Vec<usize>) {
    let n = usize::from(matrix.n);
    let mut rows: Vec<Vec<bool>> = matrix
        .list
        .chunks(usize::from(matrix.rho))
        .map(|columns| {
            let mut row = vec![false; n];
            columns.iter().for_each(|&c| row[usize::from(c)] = true);
            row
        })
        .collect();
    let mut pivots = Vec::new();
    for j in 0..n {
        let rank = pivots.len();
        let Some(found) = (rank..rows.len()).find(|&i| rows[i][j]) else {
            continue;
        };
        rows.swap(rank, found);
        let pivot_row = rows[rank].clone();
        for (i, row) in rows.iter_mut().enumerate() {
            if i != rank && row[j] {
                row.iter_mut().zip(&pivot_row).for_each(|(a, b)| *a ^= b);
            }
        }
        pivots.push(j);
    }
    rows.truncate(pivots.len());
    (rows, pivots)
}
