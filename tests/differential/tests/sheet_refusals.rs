//! Bytes that are no sheet, sheets of refused matrices, and the order: 11, 1, 4, 5, 7.

use differential::causes::subset;
use differential::{cases, random, sheet_refusal, LentSheet};
use generator::sheets::{self, with_sizes, Grid};
use generator::{codes, Random};
use reference::sheet_of;

const NO_SHEET: (u64, u64) = (11, 0);
const SIZES: (u64, u64) = (1, 0);

/// 2 × 3 blocks of 3, four of them set.
fn small() -> Vec<u8> {
    let shifts = [[Some(0), Some(1), None], [None, Some(0), Some(2)]];
    Grid::by([2, 3, 3], |r, c| shifts[r][c]).bytes()
}

fn tanner() -> Vec<u8> {
    sheet_of(&codes::tanner155().matrix, 31).expect("a grid")
}

/// The bytes with one of them changed.
fn with(bytes: &[u8], at: usize, byte: u8) -> Vec<u8> {
    let mut bytes = bytes.to_vec();
    bytes[at] = byte;
    bytes
}

#[test]
fn every_byte_changed() {
    let mut random = random(2620);
    let mut seen = [0; 13];
    for bytes in [small(), tanner()] {
        for at in 0..bytes.len() {
            for byte in 0..=255 {
                let (number, _) = sheet_refusal(with(&bytes, at, byte), &mut random);
                seen[number as usize] += 1;
            }
        }
    }
    assert!(seen[0] > 100 && seen[5] > 50 && seen[11] > 1000, "{seen:?}");
}

/// Two bytes changed, one of them among J, K, Z and the map.
#[test]
fn two_bytes_changed() {
    let mut random = random(2621);
    let bytes = small();
    for _ in 0..cases(20_000) {
        let (at, other) = (random.below(7), random.below(bytes.len()));
        let byte = random.below(16) as u8;
        let once = with(&bytes, at, byte);
        sheet_refusal(with(&once, other, random.byte()), &mut random);
    }
}

#[test]
fn cut_short_and_too_long() {
    let mut random = random(2622);
    for bytes in [small(), tanner()] {
        for count in 0..bytes.len() {
            let cut = bytes[..count].to_vec();
            assert_eq!(sheet_refusal(cut, &mut random), NO_SHEET, "{count}");
        }
        assert_eq!(sheet_refusal(bytes.clone(), &mut random), (0, 0));
        for more in [&[0][..], &[0, 0], &[255], &[0; 300]] {
            let longer = [&bytes, more].concat();
            assert_eq!(sheet_refusal(longer, &mut random), NO_SHEET);
        }
        // As many bytes, the first ones gone.
        let moved = [&bytes[1..], &[0]].concat();
        assert_eq!(sheet_refusal(moved, &mut random), NO_SHEET);
    }
}

/// J, K and Z at the ends of 16 bits and of the sizes, before bytes that are none of theirs.
#[test]
fn extreme_sizes() {
    let mut random = random(2623);
    let extremes = [0, 1, 2, 3, 255, 256, 1023, 1024, 32_768, 65_535];
    for j in extremes {
        for k in extremes {
            for z in extremes {
                for rest in [&[][..], &[0], &[255], &small()[6..], &tanner()[6..]] {
                    let bytes = with_sizes([j, k, z], rest);
                    let refusal = sheet_refusal(bytes, &mut random);
                    if j == 0 || k == 0 || z == 0 {
                        assert_eq!(refusal, NO_SHEET);
                    }
                }
            }
        }
    }
}

/// Whole sheets with J, K or Z at 1, 65,535 and where products pass 16 bits: none of their matrices is
/// accepted, also where the low 16 bits of its sizes are small.
#[test]
fn sheets_of_extreme_sizes() {
    let mut random = random(2624);
    let full = |sizes: [usize; 3]| Grid::by(sizes, |r, c| Some((r + c) % sizes[2])).bytes();
    for sizes in [
        [1, 1, 1],
        [65_535, 1, 1],
        [1, 65_535, 1],
        [65_535, 2, 65_535],
        [2, 65_535, 65_535],
        [1, 2, 65_535],
        [2, 2, 65_535],
        // n and m are 65,538, 65,538, 65,540 and 65,541: 2, 2, 4 and 5 in 16 bits.
        [2, 2, 32_769],
        [3, 3, 21_846],
        [4, 4, 16_385],
        [7, 7, 9_363],
        [256, 256, 256],
        [257, 2, 255],
        [2, 257, 255],
    ] {
        let clear = Grid::by(sizes, |_, _| None).bytes();
        assert_eq!(sheet_refusal(clear, &mut random), SIZES, "{sizes:?}");
        assert_eq!(sheet_refusal(full(sizes), &mut random), SIZES, "{sizes:?}");
    }
    // More shifts than 16 bits can count, and a map of more places.
    for rows in [32_769, 65_535] {
        let grid = Grid::by([rows, 4, 1], |r, c| (r % 4 != c).then_some(0));
        assert_eq!(sheet_refusal(grid.bytes(), &mut random), SIZES);
    }
}

/// n or m above 1,023, in one block row or column and in several, before buffers that are too short for
/// anything: 1 before 7, and nothing written.
#[test]
fn large_sizes_before_short_buffers() {
    let mut random = random(2634);
    for sizes in [
        // n alone, m alone, and both.
        [1, 2, 512],
        [1, 3, 1000],
        [2, 32, 32],
        [2, 1, 512],
        [3, 2, 342],
        [32, 2, 32],
        [2, 2, 512],
        [2, 2, 32_769],
        [2, 2, 65_535],
        [1024, 2, 1],
        [2, 1024, 1],
    ] {
        let [rows, columns, size] = sizes;
        assert!(rows * size > 1023 || columns * size > 1023, "{sizes:?}");
        let sheet = LentSheet::new(Grid::by(sizes, |r, c| Some(r * c % size)).bytes());
        let needed = rows * size * columns;
        for sizes_room in 0..4 {
            for list_room in [0, 1, 31, needed.min(32_736) - 1] {
                let (answer, _) = sheet.to_list([sizes_room, list_room], &mut random);
                assert_eq!((answer.refusal(), answer.place()), SIZES, "{sizes:?}");
            }
        }
    }
}

/// A map of 8,000 × 8,000 places, 8,000,000 bytes, its block rows alike and its shifts 0: whole it is a
/// sheet, of n and m that are refused; with a byte too few or too many it is none.
#[test]
fn a_large_map_and_a_byte_off() {
    let mut random = random(2635);
    let (count, row_bytes) = (8000, 1000);
    // No place set; the last one of each block row; and the first eight.
    for (at, byte, set) in [(0, 0, 0), (row_bytes - 1, 1, 1), (0, 255, 8)] {
        let mut row = vec![0; row_bytes];
        row[at] = byte;
        let shifts = vec![0; 2 * count * set];
        let bytes = with_sizes([count, count, 1], &[row.repeat(count), shifts].concat());
        // The reference would need a gigabyte for the blocks of a whole one.
        let (mut sizes, mut list) = ([7; 4], [7; 99]);
        let answer = ffi_face::sheet_to_list(&bytes, &mut sizes, &mut list);
        assert_eq!((answer.refusal(), answer.place()), SIZES, "{set} set");
        assert_eq!((sizes, list), ([7; 4], [7; 99]), "{set} set");
        let short = bytes[..bytes.len() - 1].to_vec();
        let long = [&bytes, &[0][..]].concat();
        for bytes in [short, long] {
            let sheet = LentSheet::new(bytes);
            for rooms in [[4, 32_736], [3, 0]] {
                let (answer, _) = sheet.to_list(rooms, &mut random);
                assert_eq!((answer.refusal(), answer.place()), NO_SHEET, "{set} set");
            }
        }
    }
}

#[test]
fn spare_places() {
    let mut random = random(2625);
    for columns in 2..19 {
        let grid = Grid::by([1, columns, 7], |_, c| Some(c % 7));
        let (bytes, last) = (grid.bytes(), 6 + columns.div_ceil(8) - 1);
        assert_eq!(sheet_refusal(bytes.clone(), &mut random), (0, 0));
        for place in columns..8 * columns.div_ceil(8) {
            let byte = bytes[last] | 128 >> (place % 8);
            let spare = with(&bytes, last, byte);
            assert_eq!(sheet_refusal(spare.clone(), &mut random), NO_SHEET);
            let with_its_shift = [&spare[..], &[0, 0]].concat();
            assert_eq!(sheet_refusal(with_its_shift, &mut random), NO_SHEET);
        }
    }
}

/// The shift of each block in turn: Z − 1 is accepted or overlaps, Z and more is no sheet.
#[test]
fn shifts_around_z() {
    let mut random = random(2626);
    for z in [1, 2, 31, 255, 256, 257] {
        let grid = Grid::by([3, 3, z], |r, c| Some(r * c % z));
        for place in 0..9 {
            for (shift, fits) in [(z - 1, true), (z, false), (z + 1, false), (65_535, false)] {
                let mut grid = grid.clone();
                grid.blocks[place / 3][place % 3] = Some(shift);
                let refusal = sheet_refusal(grid.bytes(), &mut random);
                assert_eq!(refusal != NO_SHEET, fits, "shift {shift} of {z} at {place}");
            }
        }
    }
}

/// Every map of 3 × 3 places with as many shifts: a sheet where the block rows are alike, wherever the
/// set places stand and however many they are together.
#[test]
fn every_map() {
    let mut random = random(2627);
    let mut sheets = 0;
    for number in 0..512 {
        let map: [bool; 9] = subset(number);
        let grid = Grid::by([3, 3, 11], |r, c| {
            map[3 * r + c].then_some((5 * r + r * c) % 11)
        });
        let set = |r: usize| map[3 * r..3 * r + 3].iter().filter(|&&place| place).count();
        let alike = set(0) == set(1) && set(1) == set(2);
        let refusal = sheet_refusal(grid.bytes(), &mut random);
        assert_eq!(refusal != NO_SHEET, alike, "{map:?}");
        sheets += usize::from(alike);
    }
    assert_eq!(sheets, 1 + 27 + 27 + 1);
}

/// Sets a clear place or clears a set one; says whether it was set.
fn turn(grid: &mut Grid, r: usize, c: usize) -> bool {
    let block = &mut grid.blocks[r][c];
    let was_set = block.is_some();
    *block = (!was_set).then_some(0);
    was_set
}

/// A place of each block row in turn set or cleared; then one of another row the other way, so that as
/// many are set together.
#[test]
fn unlike_block_rows() {
    let mut random = random(2628);
    let grid = Grid::by([7, 9, 13], |r, c| ((r + c) % 3 > 0).then_some(r * c % 13));
    assert_eq!(sheet_refusal(grid.bytes(), &mut random), (0, 0));
    for r in 0..7 {
        for c in 0..9 {
            let mut other = grid.clone();
            let was_set = turn(&mut other, r, c);
            assert_eq!(sheet_refusal(other.bytes(), &mut random), NO_SHEET);
            let another = (r + 1 + random.below(6)) % 7;
            let clear_or_set = |at: &usize| other.blocks[another][*at].is_some() != was_set;
            let at = (0..9).find(clear_or_set).expect("a place");
            turn(&mut other, another, at);
            assert_eq!(sheet_refusal(other.bytes(), &mut random), NO_SHEET);
        }
    }
}

/// Each size at its limit and past it, by J, K, Z and the map.
#[test]
fn sizes_past_their_limits() {
    let mut random = random(2629);
    let array = |[j, k, z]: [usize; 3]| Grid::by([j, k, z], |r, c| Some(r * c % z)).bytes();
    for (sizes, expected) in [
        // n is 1,023 and 1,024, and so is m.
        ([1, 3, 341], (0, 0)),
        ([1, 2, 512], SIZES),
        ([1, 4, 256], SIZES),
        ([3, 2, 341], (0, 0)),
        ([2, 2, 512], SIZES),
        ([2, 3, 512], SIZES),
        // Rho is 1, 2, 32 and 33.
        ([1, 1, 31], SIZES),
        ([2, 1, 31], SIZES),
        ([1, 2, 31], (0, 0)),
        ([1, 32, 31], (0, 0)),
        ([1, 33, 31], SIZES),
        // Gamma is 32 and 33.
        ([32, 2, 31], (5, 0)),
        ([33, 2, 31], SIZES),
    ] {
        let refusal = sheet_refusal(array(sizes), &mut random);
        assert_eq!(refusal, expected, "{sizes:?}");
    }
    // Gamma is 0: each block column in turn is empty.
    for empty in 0..4 {
        let grid = Grid::by([3, 4, 5], |r, c| (c != empty).then_some(r * c % 5));
        assert_eq!(sheet_refusal(grid.bytes(), &mut random), SIZES);
    }
}

/// 33 to 40 set places in a block column, each in turn, and in two of them: the lower one's first
/// column is named.
#[test]
fn heavy_block_columns() {
    let mut random = random(2630);
    for z in [1, 2, 5, 25] {
        for count in [32, 33, 34, 40] {
            for heavy in 0..7 {
                // The row's other place goes round the other block columns.
                let other = |r: usize| (heavy + 1 + r % 6) % 7;
                let set = |r: usize, c: usize| c == other(r) || c == heavy;
                let grid = Grid::by([count, 7, z], |r, c| set(r, c).then_some(r * c % z));
                let (number, place) = sheet_refusal(grid.bytes(), &mut random);
                if count > 32 {
                    assert_eq!((number, place), (4, (heavy * z) as u64));
                } else {
                    assert_ne!(number, 4);
                }
            }
            if count > 32 {
                let grid = Grid::by([count, 9, z], |r, c| {
                    (c == 3 || c == 6 || c == [0, 1, 2, 4, 5, 7, 8][r % 7]).then_some(0)
                });
                let expected = (4, (3 * z) as u64);
                assert_eq!(sheet_refusal(grid.bytes(), &mut random), expected);
            }
        }
    }
}

/// Two block rows with one difference of shifts: the first row of the pair is named.
#[test]
fn overlapping_rows() {
    let mut random = random(2631);
    for p in [5, 7, 11] {
        let grid = Grid::by([p, 3, p], |r, c| Some(r * c % p));
        assert_eq!(sheet_refusal(grid.bytes(), &mut random), (0, 0));
        for a in 0..p {
            for b in a + 1..p {
                let mut other = grid.clone();
                other.blocks[b] = grid.blocks[a].clone();
                let expected = (5, (a * p) as u64);
                assert_eq!(sheet_refusal(other.bytes(), &mut random), expected);
            }
        }
    }
}

/// Where 4 and 5 are found in `grid_with`.
const PLACES: [u64; 5] = [0, 0, 165, 20, 0];

/// 33 block rows of blocks of 5, with the causes of the refusals 1, 4 and 5: block row r has the places
/// r and r + 1 around 33, and one of the three behind them. An empty block column for 1; all third
/// places in block column 33 for 4; block rows 4 and 11 equal for 5.
fn grid_with([sizes, weight, overlap]: [bool; 3]) -> Grid {
    let third = |r: usize| if weight { 33 } else { 33 + r % 3 };
    let columns = if weight { 34 } else { 36 };
    let mut grid = Grid::by([33, columns, 5], |r, c| match c {
        _ if c == r => Some(1),
        _ if c == (r + 1) % 33 || c == third(r) => Some(0),
        _ => None,
    });
    if overlap {
        grid.blocks[11] = grid.blocks[4].clone();
    }
    if sizes {
        grid.blocks.iter_mut().for_each(|row| row.push(None));
    }
    grid
}

/// The bytes of a grid made no sheet in each way that needs no other sizes.
fn no_sheets(grid: &Grid) -> Vec<Vec<u8>> {
    let bytes = grid.bytes();
    let last = bytes.len() - 2;
    let mut unlike = grid.clone();
    unlike.blocks[32][2] = Some(0);
    let mut all = vec![
        [&bytes[..], &[0]].concat(),
        bytes[..last + 1].to_vec(),
        with(&bytes, last, 5),
        with(&bytes, 0, 0),
        unlike.bytes(),
    ];
    let (places, map) = (33 * grid.blocks[0].len(), &bytes[6..]);
    if places % 8 > 0 {
        let at = places / 8;
        all.push(with(&bytes, 6 + at, map[at] | 1));
    }
    all
}

/// Each set of causes, 11, 1, 4, 5 and 7: the first of them is given.
#[test]
fn every_set_of_causes() {
    let mut random = random(2632);
    for number in 0..32 {
        let present: [bool; 5] = subset(number);
        let [no_sheet, sizes, weight, overlap, buffer] = present;
        let grid = grid_with([sizes, weight, overlap]);
        let lent = if no_sheet {
            no_sheets(&grid)
        } else {
            vec![grid.bytes()]
        };
        let first = present.iter().position(|&cause| cause);
        let expected = first.map_or((0, 0), |at| ([11, 1, 4, 5, 7][at], PLACES[at]));
        for bytes in lent {
            let sheet = LentSheet::new(bytes);
            let needed = 33 * 5 * 3;
            let rooms = match buffer {
                true => vec![[4, needed - 1], [3, needed], [0, 0]],
                false => vec![[4, needed], [9, needed + 9]],
            };
            for rooms in rooms {
                let (answer, _) = sheet.to_list(rooms, &mut random);
                assert_eq!((answer.refusal(), answer.place()), expected, "{present:?}");
            }
        }
    }
}

/// A sheet by chance, changed or not.
fn some_bytes(random: &mut Random) -> Vec<u8> {
    let mut bytes = match random.below(8) {
        0..4 => sheets::accepted(random).bytes(),
        4..7 => sheets::some(random).bytes(),
        _ => {
            let count = random.below(60);
            random.bytes(count)
        }
    };
    for _ in 0..random.below(3) {
        sheets::change(&mut bytes, random);
    }
    bytes
}

#[test]
fn calls_by_chance() {
    let mut random = random(2633);
    let mut seen = [0; 13];
    for _ in 0..cases(4000) {
        let sheet = LentSheet::new(some_bytes(&mut random));
        let near = (sheet.needed() + random.below(3)).saturating_sub(1);
        let (answer, _) = sheet.to_list([3 + random.below(4), near], &mut random);
        seen[answer.refusal() as usize] += 1;
    }
    for number in [0, 1, 5, 7, 11] {
        assert!(seen[number] > 50, "{seen:?}");
    }
}
