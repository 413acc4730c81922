//! Damaged matrices: refusals 2, 3 and 5 with their places, and the lowest number of several.
//!
//! The place is given here as the damage was done, and by the reference.

use differential::causes::moved;
use differential::{cases, random, refusal};
use generator::codes::{self, Code};
use generator::{damage, Random};
use reference::Matrix;

/// The code with its matrix changed.
fn changed(code: &Code, change: impl FnOnce(&mut Matrix)) -> Matrix {
    let mut h = code.matrix.clone();
    change(&mut h);
    h
}

/// Small codes and some of each other kind.
fn samples() -> Vec<Code> {
    let mut codes = codes::small();
    codes.push(codes::tanner155());
    codes.push(codes::euclidean(4));
    codes.push(codes::single_row(3).copies(341));
    codes.push(codes::cycle(1023));
    codes
}

#[test]
fn lists_of_a_wrong_length() {
    let mut random = random(500);
    for code in samples() {
        let (count, rho) = (code.matrix.list.len(), usize::from(code.matrix.rho));
        for length in [
            0,
            1,
            rho,
            count - rho,
            count - 1,
            count + 1,
            count + rho,
            2 * count,
        ] {
            if length == count {
                continue;
            }
            let resized = changed(&code, |h| h.list.resize(length, h.n - 1));
            assert_eq!(refusal(&resized, &mut random), (2, 0), "{}", code.name);
            let bad_entries = changed(&code, |h| h.list = vec![65535; length]);
            assert_eq!(refusal(&bad_entries, &mut random), (2, 0), "{}", code.name);
        }
        let none = changed(&code, |h| h.list.clear());
        assert_eq!(refusal(&none, &mut random), (2, 0), "{}", code.name);
    }
    let eg = codes::eg1023();
    let short = changed(&eg, |h| h.list.truncate(32735));
    assert_eq!(refusal(&short, &mut random), (2, 0));
    let long = changed(&eg, |h| h.list.push(0));
    assert_eq!(refusal(&long, &mut random), (2, 0));
    // Longer by 65,536: the length as a 16-bit number would be right.
    for code in [codes::code_a(), eg] {
        let long = changed(&code, |h| h.list.resize(h.list.len() + 65536, 0));
        assert_eq!(refusal(&long, &mut random), (2, 0));
    }
}

/// Places of the list: all of a short one, else both ends, row ends and some by chance.
fn places(h: &Matrix, random: &mut Random) -> Vec<usize> {
    let (count, rho) = (h.list.len(), usize::from(h.rho));
    if count <= 120 {
        return (0..count).collect();
    }
    let mut places = vec![
        0,
        1,
        rho - 1,
        rho,
        count - rho - 1,
        count - rho,
        count - 2,
        count - 1,
    ];
    places.extend((0..10).map(|_| random.below(count)));
    places
}

#[test]
fn entries_out_of_range() {
    let mut random = random(501);
    for code in samples() {
        for at in places(&code.matrix, &mut random) {
            for entry in [code.matrix.n, code.matrix.n + 1, 1023, 32768, 65535] {
                if entry >= code.matrix.n {
                    let h = changed(&code, |h| h.list[at] = entry);
                    assert_eq!(refusal(&h, &mut random), (3, at as u64), "{}", code.name);
                }
            }
        }
    }
}

#[test]
fn entries_not_above_the_one_before() {
    let mut random = random(502);
    for code in samples() {
        let rho = usize::from(code.matrix.rho);
        for at in places(&code.matrix, &mut random) {
            let here = code.matrix.list[at];
            if at % rho != 0 {
                let before = code.matrix.list[at - 1];
                for entry in [before, before / 2, 0] {
                    let h = changed(&code, |h| h.list[at] = entry);
                    assert_eq!(refusal(&h, &mut random), (3, at as u64), "{}", code.name);
                }
                let h = changed(&code, |h| h.list.swap(at - 1, at));
                assert_eq!(refusal(&h, &mut random), (3, at as u64), "{}", code.name);
                // The one before is raised to this one: this one is the bad entry.
                let h = changed(&code, |h| h.list[at - 1] = here);
                assert_eq!(refusal(&h, &mut random), (3, at as u64), "{}", code.name);
            }
        }
        // The first of several bad entries counts.
        let last = code.matrix.list.len() - 1;
        let both = changed(&code, |h| {
            h.list[last] = h.n;
            h.list[1] = h.list[0];
        });
        assert_eq!(refusal(&both, &mut random), (3, 1), "{}", code.name);
    }
}

/// A row may begin at or below the column the row before it ended with.
#[test]
fn entries_across_a_row_boundary() {
    let mut random = random(503);
    let equal = Matrix {
        n: 3,
        m: 3,
        rho: 2,
        gamma: 2,
        list: vec![0, 1, 1, 2, 0, 2],
    };
    assert_eq!(refusal(&equal, &mut random), (0, 0));
    let below = Matrix {
        list: vec![1, 2, 0, 1, 0, 2],
        ..equal
    };
    assert_eq!(refusal(&below, &mut random), (0, 0));
}

/// Cycles of length at least 3 and double edges, which are pairs of equal rows: rho 2, gamma 2.
/// A double edge takes two columns and stands in the two rows named.
fn double_edges(m: usize, doubles: &[(usize, usize)], first: bool) -> Matrix {
    let mut rows = vec![None; m];
    // The columns of the double edges stand before or after those of the cycle.
    let (mut column, cycle) = if first {
        (0, 2 * doubles.len())
    } else {
        (m - 2 * doubles.len(), 0)
    };
    for &(i, k) in doubles {
        rows[i] = Some([column, column + 1]);
        rows[k] = rows[i];
        column += 2;
    }
    let length = m - 2 * doubles.len();
    let mut at = 0;
    for row in &mut rows {
        if row.is_none() {
            let (a, b) = (cycle + at, cycle + (at + 1) % length);
            *row = Some([a.min(b), a.max(b)]);
            at += 1;
        }
    }
    Matrix {
        n: m as u16,
        m: m as u16,
        rho: 2,
        gamma: 2,
        list: rows
            .iter()
            .flat_map(|row| row.unwrap().map(|c| c as u16))
            .collect(),
    }
}

#[test]
fn equal_rows() {
    let mut random = random(507);
    for m in [5, 8, 20, 64, 1023] {
        for i in 0..m {
            for k in i + 1..m {
                let ends = [0, 1, m / 2, m - 2, m - 1];
                if m <= 8 || (ends.contains(&i) && ends.contains(&k)) {
                    for first in [true, false] {
                        let h = double_edges(m, &[(i, k)], first);
                        assert_eq!(refusal(&h, &mut random), (5, i as u64));
                    }
                }
            }
        }
    }
}

/// The pair with the lowest lower row counts, not the one that is complete first.
#[test]
fn several_pairs_of_equal_rows() {
    let mut random = random(508);
    for first in [true, false] {
        for (doubles, place) in [
            (vec![(2, 19), (3, 4)], 2),
            (vec![(0, 19), (1, 2), (3, 4)], 0),
            (vec![(7, 8), (6, 18), (5, 19)], 5),
            (vec![(17, 18), (16, 19)], 16),
            (vec![(1, 2), (0, 3)], 0),
        ] {
            let h = double_edges(20, &doubles, first);
            assert_eq!(refusal(&h, &mut random), (5, place));
        }
        let h = double_edges(1023, &[(510, 1022), (511, 512), (700, 701)], first);
        assert_eq!(refusal(&h, &mut random), (5, 510));
    }
}

/// Blocks of w equal rows on w columns, among codes with the weights w.
#[test]
fn blocks_of_equal_rows() {
    let mut random = random(509);
    for code in [codes::code_a(), codes::euclidean(2), codes::projective(3)] {
        let (n, w) = (usize::from(code.matrix.n), usize::from(code.matrix.rho));
        let block = vec![(n..n + w).collect::<Vec<usize>>(); w];
        let mut rows = code.rows();
        rows.extend(block);
        let joined = Code::from_rows("with a block of equal rows", n + w, &rows);
        assert_eq!(refusal(&joined.matrix, &mut random), (5, n as u64));
        rows.rotate_right(w);
        let joined = Code::from_rows("after a block of equal rows", n + w, &rows);
        assert_eq!(refusal(&joined.matrix, &mut random), (5, 0));
        for _ in 0..cases(10) {
            refusal(&joined.shuffled(&mut random).matrix, &mut random);
        }
    }
}

/// Rows that exchange a column each: overlaps anywhere, or another accepted matrix.
#[test]
fn exchanged_columns() {
    let mut random = random(510);
    let mut seen = [0; 2];
    for code in samples() {
        for _ in 0..cases(12) {
            let mut h = code.matrix.clone();
            for _ in 0..1 + random.below(4) {
                damage::exchange_columns(&mut h, &mut random);
            }
            match refusal(&h, &mut random).0 {
                0 => seen[0] += 1,
                number => {
                    assert_eq!(number, 5);
                    seen[1] += 1;
                }
            }
        }
    }
    assert!(seen[0] > 50 && seen[1] > 50, "{seen:?}");
}

#[test]
fn exchanged_columns_of_large_codes() {
    let mut random = random(511);
    for code in [
        codes::eg1023(),
        codes::qc961(),
        codes::array_code(341, 3, 3),
    ] {
        for _ in 0..cases(2) {
            let mut h = code.matrix.clone();
            damage::exchange_columns(&mut h, &mut random);
            refusal(&h, &mut random);
        }
    }
}

/// Rows 0 and m - 1 of an accepted matrix brought to share exactly two columns, weights kept.
#[test]
fn first_and_last_row() {
    let mut random = random(512);
    for code in [
        codes::code_a(),
        codes::projective(2),
        codes::projective(4),
        codes::eg1023(),
    ] {
        let mut rows = code.rows();
        let last = rows.len() - 1;
        // A row that shares a column with row 0 comes last.
        let other = (1..rows.len()).find(|&i| rows[i].iter().any(|c| rows[0].contains(c)));
        rows.swap(other.expect("a row that meets row 0"), last);
        let wanted = *rows[0].iter().find(|c| !rows[last].contains(c)).unwrap();
        let given = *rows[last].iter().find(|c| !rows[0].contains(c)).unwrap();
        let between = (1..last)
            .find(|&i| rows[i].contains(&wanted) && !rows[i].contains(&given))
            .expect("another check of the column");
        let replace = |row: &mut Vec<usize>, from: usize, to: usize| {
            row.iter_mut()
                .for_each(|c| *c = if *c == from { to } else { *c });
        };
        replace(&mut rows[between], wanted, given);
        replace(&mut rows[last], given, wanted);
        let h = Code::from_rows("first and last", usize::from(code.matrix.n), &rows).matrix;
        assert_eq!(refusal(&h, &mut random), (5, 0), "{}", code.name);
    }
}

/// No column weighs gamma, and two rows are equal: 4 with place n comes before 5.
#[test]
fn no_least_weight_comes_before_equal_rows() {
    let mut random = random(515);
    for m in [5, 20, 1023] {
        for first in [true, false] {
            let overlapping = double_edges(m, &[(1, 3)], first);
            assert_eq!(refusal(&overlapping, &mut random), (5, 1));
            let none_least = Matrix {
                gamma: 1,
                ..overlapping
            };
            assert_eq!(refusal(&none_least, &mut random), (4, m as u64));
        }
    }
}

/// Damages of all numbers in one matrix: each repair lets the next number show.
#[test]
fn the_lowest_number_is_given() {
    let mut random = random(513);
    let overlapping = double_edges(20, &[(4, 11)], true);
    assert_eq!(refusal(&overlapping, &mut random), (5, 4));
    let unbalanced = moved(&overlapping, 9, 15).expect("a row to move a one in");
    assert_eq!(refusal(&unbalanced, &mut random), (4, 9));
    let mut entry = unbalanced.clone();
    entry.list[31] = entry.n;
    assert_eq!(refusal(&entry, &mut random), (3, 31));
    let mut length = entry.clone();
    length.list.push(0);
    assert_eq!(refusal(&length, &mut random), (2, 0));
    // One column more or a greater gamma asks for more ones than there are; one row more or a
    // greater rho doesn't.
    for (size, number) in [1, 2, 2, 1].into_iter().enumerate() {
        let mut sizes = length.clone();
        let fields = [&mut sizes.n, &mut sizes.m, &mut sizes.rho, &mut sizes.gamma];
        *fields.into_iter().nth(size).unwrap() += 1;
        assert_eq!(refusal(&sizes, &mut random), (number, 0));
    }
}

/// Changes by chance, up to three at a time.
#[test]
fn changes_by_chance() {
    let mut random = random(514);
    let mut seen = [0; 6];
    let codes = samples();
    for _ in 0..cases(4000) {
        let mut h = random.pick(&codes).matrix.clone();
        if h.n > 200 && !random.once_in(20) {
            continue;
        }
        for _ in 0..1 + random.below(3) {
            damage::change(&mut h, &mut random);
        }
        seen[refusal(&h, &mut random).0 as usize] += 1;
    }
    assert!(seen.iter().all(|&times| times > 50), "{seen:?}");
}
