//! Matrices that are refused, lent with a list that follows them: the matrix is named, not the index.

use differential::{cases, random, Indexed};
use generator::{codes, damage, unlike};
use reference::{check, Matrix};

/// How many ones each column has. Columns past the last are left out.
fn own_weights(h: &Matrix) -> Vec<usize> {
    let mut weights = vec![0; usize::from(h.n)];
    for &c in h.list.iter().filter(|&&c| c < h.n) {
        weights[usize::from(c)] += 1;
    }
    weights
}

/// As many ones a column as the sizes say where columns are equal.
fn weights_by_gamma(h: &Matrix) -> Vec<usize> {
    vec![usize::from(h.gamma); usize::from(h.n)]
}

/// The starting places of columns of these weights.
fn starts(weights: &[usize]) -> Vec<u16> {
    let mut starts = vec![0];
    for weight in weights {
        starts.push(starts[starts.len() - 1] + weight);
    }
    starts.into_iter().map(|start| start as u16).collect()
}

/// The list that a replay from these starts finds right wherever it looks, whatever the weights are,
/// unless two rows want one place. Places past its end, and columns past the last, are left out.
fn following(h: &Matrix, weights: &[usize]) -> Vec<u16> {
    let (n, rho) = (usize::from(h.n), usize::from(h.rho).max(1));
    let mut index = starts(weights);
    let mut cursors = index.clone();
    index.resize(n + 1 + h.list.len(), 0);
    for (i, row) in h.list.chunks(rho).enumerate() {
        for &c in row {
            let Some(cursor) = cursors.get_mut(usize::from(c)) else {
                continue;
            };
            if let Some(number) = index.get_mut(n + 1 + usize::from(*cursor)) {
                *number = i as u16;
            }
            *cursor = cursor.wrapping_add(1);
        }
    }
    index
}

/// Column 0 has three ones and column 1 has one. The third of column 0 stands where column 1 begins,
/// and so does the one of column 1, in the same row: each row stands at all of its places.
#[test]
fn weights_are_off_and_every_row_stands() {
    let mut random = random(1820);
    let h = Matrix {
        n: 4,
        m: 4,
        rho: 2,
        gamma: 2,
        list: vec![0, 2, 0, 3, 0, 1, 2, 3],
    };
    let indexed = Indexed::new(&h, &mut random);
    let mut index = following(&h, &weights_by_gamma(&h));
    assert_eq!(index[5..], [0, 1, 2, 0, 0, 3, 1, 3]);
    for free in 0..5 {
        index[5 + 3] = free;
        assert_eq!(indexed.lend(&index, &mut random), (4, 1));
    }
}

/// Two rows with two columns in common, and the index that they have.
#[test]
fn rows_overlap_and_the_index_is_right() {
    let mut random = random(1821);
    let h = Matrix {
        n: 4,
        m: 4,
        rho: 2,
        gamma: 2,
        list: vec![0, 1, 2, 3, 0, 1, 2, 3],
    };
    let indexed = Indexed::new(&h, &mut random);
    assert_eq!(
        indexed.lend(&following(&h, &own_weights(&h)), &mut random),
        (5, 0)
    );
}

/// Matrices whose weights alone are wrong: a column of 33, a column lighter than gamma, no column of
/// gamma.
fn of_wrong_weights() -> Vec<Matrix> {
    let mut all = vec![unlike::star(33, 2).matrix, unlike::wheel(33).matrix];
    let mut light = unlike::without_rows_of_column_0(&codes::projective(2), 2).matrix;
    light.gamma += 1;
    all.push(light);
    for code in [codes::code_a(), unlike::code_u(), unlike::wheel(5)] {
        let mut h = code.matrix.clone();
        h.gamma -= 1;
        all.push(h);
    }
    all
}

/// Only refusal 4 stands between these matrices and their index, which is right.
#[test]
fn weights_are_off_and_the_index_is_right() {
    let mut random = random(1823);
    for h in of_wrong_weights() {
        let Err(refusal) = check(&h) else {
            panic!("{h:?} is accepted");
        };
        assert_eq!(refusal.number, 4, "{h:?}");
        let indexed = Indexed::new(&h, &mut random);
        let lent = indexed.lend(&following(&h, &own_weights(&h)), &mut random);
        assert_eq!(lent, (4, refusal.place.into()), "{h:?}");
    }
}

/// Accepted matrices changed by chance, each with the list that follows it.
#[test]
fn lists_that_follow_a_changed_matrix() {
    let mut random = random(1822);
    let codes = [codes::small(), codes::medium()].concat();
    let mut seen = [0; 11];
    for _ in 0..cases(3000) {
        let mut h = random.pick(&codes).matrix.clone();
        for _ in 0..=random.below(2) {
            damage::change(&mut h, &mut random);
        }
        if h.n > 1100 {
            continue;
        }
        let indexed = Indexed::new(&h, &mut random);
        let expected = check(&h).map_or_else(|refusal| refusal.number, |()| 0);
        let own = own_weights(&h);
        let (number, place) = indexed.lend(&following(&h, &own), &mut random);
        assert_eq!(number, u64::from(expected), "place {place}, {h:?}");
        seen[number as usize] += 1;
        if expected != 0 {
            let by_gamma = following(&h, &weights_by_gamma(&h));
            let (number, _) = indexed.lend(&by_gamma, &mut random);
            assert_eq!(number, u64::from(expected), "by gamma, {h:?}");
        }
    }
    for number in [0, 2, 3, 4, 5] {
        assert!(
            seen[number] > 0,
            "refusal {number} was not reached: {seen:?}"
        );
    }
}
