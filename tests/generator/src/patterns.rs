//! Error patterns: sets of flipped bits.

use crate::codes::Code;
use crate::random::Random;

/// The word with the bits of the pattern flipped.
pub fn flipped(word: &[bool], pattern: &[usize]) -> Vec<bool> {
    let mut word = word.to_vec();
    for &j in pattern {
        word[j] = !word[j];
    }
    word
}

/// All sets of exactly `size` bits out of n.
pub fn of_size(size: usize, n: usize) -> Vec<Vec<usize>> {
    let mut patterns = vec![Vec::new()];
    for _ in 0..size {
        patterns = patterns
            .into_iter()
            .flat_map(|pattern: Vec<usize>| {
                let from = pattern.last().map_or(0, |last| last + 1);
                (from..n).map(move |j| {
                    let mut longer = pattern.clone();
                    longer.push(j);
                    longer
                })
            })
            .collect();
    }
    patterns
}

/// How many sets of at most `size` bits out of n there are, or `most` if more.
pub fn count_up_to(size: usize, n: usize, most: usize) -> usize {
    let mut of_size = 1;
    let mut all = 1;
    for k in 1..=size.min(n) {
        of_size = of_size * (n - k + 1) / k;
        all += of_size;
        if all >= most {
            return most;
        }
    }
    all
}

/// The patterns of one size that come nearest to a wrong vote, for a bit taken by chance: its
/// checks that fail are as many as `size` flips can make (the bit is not flipped), or as few (it
/// is flipped). A pattern that doesn't fit the code is filled up by chance.
pub fn against_one_bit(code: &Code, size: usize, random: &mut Random) -> Vec<Vec<usize>> {
    let n = usize::from(code.matrix.n);
    let (rows, columns) = (code.rows(), code.columns());
    let bit = random.below(n);
    let mut checks = columns[bit].clone();
    random.shuffle(&mut checks);
    let mut neighbours: Vec<usize> = Vec::new();
    for &i in &checks {
        let others: Vec<usize> = rows[i].iter().copied().filter(|&j| j != bit).collect();
        neighbours.push(*random.pick(&others));
    }
    let beside = neighbours.iter().copied().take(size).collect();
    let with = [bit].into_iter().chain(neighbours).take(size).collect();
    // All in one check.
    let mut row = rows[checks[0]].clone();
    random.shuffle(&mut row);
    row.truncate(size);
    [beside, with, row]
        .map(|pattern| filled(pattern, size, n, random))
        .to_vec()
}

/// The pattern with further bits by chance until it has `size` of them.
fn filled(mut pattern: Vec<usize>, size: usize, n: usize, random: &mut Random) -> Vec<usize> {
    for j in random.different(n, n) {
        if pattern.len() < size && !pattern.contains(&j) {
            pattern.push(j);
        }
    }
    pattern
}
