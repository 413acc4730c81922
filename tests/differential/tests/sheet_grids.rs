//! Refusal 12: matrices that no sheet with the given Z describes; and the order: 1 to 5, 12, 7.

use differential::causes::{matrix_with, subset, PLACES};
use differential::{cases, random, store_refusal, Sheeted, Subject};
use generator::codes::{self, Code};
use generator::sheets;
use generator::{damage, unlike, Random};
use reference::Matrix;

const NO_GRID: (u64, u64) = (12, 0);

/// Three block rows, each two of which have one block column in common: whatever the ones of a block
/// are, no rows overlap, and each column has another one.
fn triangle_of_blocks(size: usize) -> Code {
    let blocks = [
        [Some(0), Some(1), None],
        [None, Some(0), Some(2)],
        [Some(1), None, Some(0)],
    ];
    let blocks = blocks.map(|row| row.to_vec());
    codes::quasi_cyclic(format!("triangle of blocks of {size}"), size, &blocks)
}

/// The code with the one of row i in column `from` moved to column `to`, if its columns all stay. Gamma
/// is its smallest weight again.
fn moved(code: &Code, i: usize, from: usize, to: usize) -> Option<Code> {
    let mut rows = code.rows();
    let row = &mut rows[i];
    if row.contains(&to) {
        return None;
    }
    let at = row.iter().position(|&column| column == from)?;
    row[at] = to;
    let moved = Code::from_rows(code.name.clone(), code.matrix.n.into(), &rows);
    reference::check(&moved.matrix).is_ok().then_some(moved)
}

/// A one of each row in turn moved to each other column: within its block, so that the block is a
/// shifted identity but for that row, be it the first, the last or one between; into another set block,
/// which then has two in the row; or into a block of zeros.
#[test]
fn one_moved() {
    let mut random = random(2650);
    for (code, z) in [
        (triangle_of_blocks(3), 3),
        (triangle_of_blocks(4), 4),
        (codes::array_code(5, 3, 4), 5),
        (codes::array_code(7, 4, 3), 7),
    ] {
        let mut accepted = 0;
        for (i, row) in code.rows().iter().enumerate() {
            for &from in row {
                for to in 0..usize::from(code.matrix.n) {
                    let Some(other) = moved(&code, i, from, to) else {
                        continue;
                    };
                    accepted += 1;
                    let refusal = store_refusal(&other.matrix, z, &mut random);
                    assert_eq!(refusal, NO_GRID, "{} row {i}", code.name);
                }
            }
        }
        assert!(accepted > 0, "{}", code.name);
    }
}

/// The ones of a block's rows at any columns of the block: only the shifted identities are described.
#[test]
fn every_block() {
    let mut random = random(2651);
    let code = triangle_of_blocks(5);
    for number in 0..3125 {
        let column = |i: usize| number / 5_usize.pow(i as u32) % 5;
        let mut rows = code.rows();
        for (i, row) in rows[5..10].iter_mut().enumerate() {
            row[1] = 10 + column(i);
        }
        let other = Code::from_rows("another block", 15, &rows);
        let shifted = (0..5).all(|i| column(i) == (column(0) + i) % 5);
        let expected = if shifted { (0, 0) } else { NO_GRID };
        assert_eq!(store_refusal(&other.matrix, 5, &mut random), expected);
    }
}

/// The rows of a block row turned are a grid again, two of them exchanged are none.
#[test]
fn rows_in_another_order() {
    let mut random = random(2652);
    for (code, z) in sheets::known() {
        if z < 3 || code.matrix.n > 300 {
            continue;
        }
        let size = usize::from(z);
        for block_row in 0..code.rows().len() / size {
            let mut rows = code.rows();
            rows[block_row * size..][..size].rotate_left(1);
            let turned = Code::from_rows("turned", code.matrix.n.into(), &rows);
            assert_eq!(store_refusal(&turned.matrix, z, &mut random), (0, 0));
            rows.swap(block_row * size, block_row * size + size - 1);
            let swapped = Code::from_rows("swapped", code.matrix.n.into(), &rows);
            assert_eq!(store_refusal(&swapped.matrix, z, &mut random), NO_GRID);
        }
    }
}

/// Every Z up to past n and m, and the ends of 16 bits.
#[test]
fn every_z() {
    let mut random = random(2653);
    let grids = [codes::tanner155(), codes::array_code(11, 5, 9)];
    for code in codes::small().into_iter().chain(grids) {
        let h = &code.matrix;
        let subject = Subject::new(h, &mut random);
        let past = h.n.max(h.m) + 3;
        for z in (0..past).chain([256, 1023, 1024, 32_768, 65_535]) {
            let refusal = Sheeted::new(&subject, z).refusal(&mut random);
            let divides = z > 0 && h.n % z == 0 && h.m % z == 0;
            assert!(divides || refusal == NO_GRID, "{} {z}", code.name);
            assert!(z != 1 || refusal == (0, 0), "{}", code.name);
        }
    }
}

/// Z that divides n alone, m alone, both and neither.
#[test]
fn z_that_does_not_divide() {
    let mut random = random(2654);
    // n is 9 and m is 6; n is 10 and m is 25.
    for (code, grids, others) in [
        (
            codes::array_code(3, 2, 3),
            &[1, 3][..],
            &[0, 2, 4, 6, 9, 18],
        ),
        (codes::array_code(5, 5, 2), &[1, 5], &[0, 2, 10, 25, 50, 3]),
    ] {
        for &z in grids {
            assert_eq!(store_refusal(&code.matrix, z, &mut random), (0, 0));
        }
        for &z in others {
            assert_eq!(store_refusal(&code.matrix, z, &mut random), NO_GRID);
        }
    }
}

/// Codes that are no grids by their nature, with each Z that divides n and m.
#[test]
fn no_grids() {
    let mut random = random(2655);
    let divisors = |h: &Matrix| {
        let (n, m) = (h.n, h.m);
        (2..=n.min(m)).filter(move |z| n % z == 0 && m % z == 0)
    };
    let codes = [
        codes::code_a(),
        codes::triangle(),
        codes::cycle(16),
        codes::euclidean(3),
        codes::projective(4),
        codes::complete_graph(12).transposed(),
        unlike::irregular504(),
        codes::tanner155().shuffled(&mut random),
        codes::array_code(11, 5, 9).shuffled(&mut random),
    ];
    let mut seen = 0;
    for code in codes {
        let subject = Subject::new(&code.matrix, &mut random);
        for z in divisors(&code.matrix) {
            let (number, _) = Sheeted::new(&subject, z).refusal(&mut random);
            seen += usize::from(number == 12);
        }
    }
    assert!(seen > 20, "{seen}");
    // A circulant of 1,023 rows is one block of many ones, or many blocks of some.
    let subject = Subject::new(&codes::eg1023().matrix, &mut random);
    for z in [3, 11, 31, 33, 93, 341, 1023] {
        assert_eq!(Sheeted::new(&subject, z).refusal(&mut random), NO_GRID);
    }
}

/// Each set of the causes of 1 to 5, with a Z that is none of it and with buffers that are too short.
#[test]
fn every_set_of_causes() {
    let mut random = random(2656);
    for number in 0..32 {
        let present: [bool; 5] = subset(number);
        let subject = Subject::new(&matrix_with(present), &mut random);
        let lowest = present.iter().position(|&cause| cause);
        let of_matrix = lowest.map(|at| (at as u64 + 1, PLACES[at]));
        // 20 × 20 places and 40 shifts.
        let needed = 6 + 50 + 80;
        for z in [0, 1, 2, 3, 20, 65_535] {
            let sheeted = Sheeted::new(&subject, z);
            for room in [0, needed - 1, needed, needed + 1] {
                let of_room = if room < needed { (7, 0) } else { (0, 0) };
                let otherwise = if z == 1 { of_room } else { NO_GRID };
                let expected = of_matrix.unwrap_or(otherwise);
                let (answer, _) = sheeted.store(room, &mut random);
                let refusal = (answer.refusal(), answer.place());
                assert_eq!(refusal, expected, "{present:?} {z} {room}");
            }
        }
    }
}

/// Sizes at the ends of ranges and of 16 bits, with short lists.
#[test]
fn extreme_sizes() {
    let mut random = random(2657);
    let extremes = [0, 1, 2, 32, 33, 1023, 1024, 65_535];
    for number in 0..extremes.len().pow(4) {
        let size = |at: u32| extremes[number / extremes.len().pow(at) % extremes.len()];
        let length = random.below(70);
        let h = Matrix {
            n: size(0),
            m: size(1),
            rho: size(2),
            gamma: size(3),
            list: (0..length as u16).collect(),
        };
        let z = *random.pick(&extremes);
        store_refusal(&h, z, &mut random);
    }
}

/// A grid or another matrix by chance with its block size, changed or not.
fn some_matrix(random: &mut Random) -> (Matrix, u16) {
    let (mut h, z) = match random.below(3) {
        0 => (unlike::some(random).matrix, 1 + random.below(4) as u16),
        _ => {
            let grid = sheets::accepted(random);
            (grid.code().matrix, grid.size as u16)
        }
    };
    if random.once_in(2) {
        damage::change(&mut h, random);
    }
    let other = [0, 1, z + 1, h.n, h.m];
    let z = if random.once_in(4) {
        *random.pick(&other)
    } else {
        z
    };
    (h, z)
}

#[test]
fn calls_by_chance() {
    let mut random = random(2658);
    let mut seen = [0; 13];
    for _ in 0..cases(4000) {
        let (h, z) = some_matrix(&mut random);
        let subject = Subject::new(&h, &mut random);
        let sheeted = Sheeted::new(&subject, z);
        let near = sheeted.own().map_or(100, <[u8]>::len) + random.below(3);
        let (answer, _) = sheeted.store(near.saturating_sub(1), &mut random);
        seen[answer.refusal() as usize] += 1;
    }
    for number in [0, 1, 2, 3, 4, 5, 7, 12] {
        assert!(seen[number] > 20, "{seen:?}");
    }
}
