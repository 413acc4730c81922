//! The codewords of a parity-check matrix, by a basis that elimination finds.

use super::random::Random;
use crate::matrix_file::Matrix;
use crate::word::{bit, flip};

/// A basis of the code.
pub struct Code {
    pub n: usize,
    basis: Vec<Vec<u8>>,
}

impl Code {
    /// The code of a matrix whose entries are below n.
    pub fn of(matrix: &Matrix) -> Code {
        let n = usize::from(matrix.n);
        let rows = matrix.rows().map(|columns| {
            let mut row = vec![0; n.div_ceil(8)];
            for &column in columns {
                flip(&mut row, usize::from(column));
            }
            row
        });
        let (reduced, pivots) = reduced(n, rows.collect());
        let free = (0..n).filter(|column| pivots.binary_search(column).is_err());
        let basis = free.map(|free| {
            let mut word = vec![0; n.div_ceil(8)];
            flip(&mut word, free);
            for (row, &pivot) in reduced.iter().zip(&pivots) {
                if bit(row, free) {
                    flip(&mut word, pivot);
                }
            }
            word
        });
        Code {
            n,
            basis: basis.collect(),
        }
    }

    /// The number k of bits that a codeword carries.
    pub fn dimension(&self) -> usize {
        self.basis.len()
    }

    /// A codeword by chance, each as likely as any other.
    pub fn random_word(&self, random: &mut Random) -> Vec<u8> {
        let mut word = vec![0; self.n.div_ceil(8)];
        for basis in self.basis.chunks(64) {
            let chosen = random.number();
            for (at, basis_word) in basis.iter().enumerate() {
                if chosen >> at & 1 == 1 {
                    add(&mut word, basis_word);
                }
            }
        }
        word
    }
}

/// The rows that stay after elimination, reduced, and the pivot column of each, ascending.
fn reduced(n: usize, mut rows: Vec<Vec<u8>>) -> (Vec<Vec<u8>>, Vec<usize>) {
    let mut pivots = Vec::new();
    for column in 0..n {
        let rank = pivots.len();
        let Some(found) = (rank..rows.len()).find(|&i| bit(&rows[i], column)) else {
            continue;
        };
        rows.swap(rank, found);
        let pivot_row = rows[rank].clone();
        for (i, row) in rows.iter_mut().enumerate() {
            if i != rank && bit(row, column) {
                add(row, &pivot_row);
            }
        }
        pivots.push(column);
    }
    rows.truncate(pivots.len());
    (rows, pivots)
}

fn add(sum: &mut [u8], other: &[u8]) {
    for (sum, other) in sum.iter_mut().zip(other) {
        *sum ^= other;
    }
}

#[cfg(test)]
mod tests {
    use super::Code;
    use crate::simulate::random::Random;
    use crate::simulate::tests::matrix;
    use crate::word::{bit, distance};
    use generator::codes;

    fn code(from: &generator::Code) -> Code {
        Code::of(&matrix(from))
    }

    #[test]
    fn dimensions_of_known_codes() {
        for (from, k) in [
            (codes::code_a(), 3),
            (codes::code_b(), 4),
            (codes::tanner155(), 64),
            (codes::qc961_721(), 721),
        ] {
            assert_eq!(code(&from).dimension(), k, "{}", from.name);
        }
        for from in codes::all() {
            let expected = generator::Codewords::of(&from.matrix).dimension();
            assert_eq!(code(&from).dimension(), expected, "{}", from.name);
        }
    }

    #[test]
    fn random_words_are_codewords_and_differ() {
        let from = codes::tanner155();
        let code = code(&from);
        let mut random = Random::new(&[3]);
        let words: Vec<Vec<u8>> = (0..200).map(|_| code.random_word(&mut random)).collect();
        for word in &words {
            for row in from.rows() {
                assert_eq!(row.iter().filter(|&&at| bit(word, at)).count() % 2, 0);
            }
            assert_eq!(word[19] & 0x1f, 0, "spare places");
        }
        // The code's smallest distance is 20.
        for (at, word) in words.iter().enumerate() {
            assert!(words[..at].iter().all(|other| distance(word, other) >= 20));
        }
    }
}
