//! Circulant sheets: grids of blocks as bytes, accepted ones and ones by chance, and codes that are
//! such grids.

use crate::codes::{self, Code};
use crate::random::Random;

/// Blocks of `size` × `size`, block row by block row: none is a block of zeros, else the shift.
#[derive(Clone, Debug)]
pub struct Grid {
    pub size: usize,
    pub blocks: Vec<Vec<Option<usize>>>,
}

impl Grid {
    /// A grid whose block in row r and column c is what the function says.
    pub fn by(
        [rows, columns, size]: [usize; 3],
        block: impl Fn(usize, usize) -> Option<usize>,
    ) -> Grid {
        let row = |r: usize| (0..columns).map(|c| block(r, c)).collect();
        Grid {
            size,
            blocks: (0..rows).map(row).collect(),
        }
    }

    /// The sheet: J, K and Z, the map, and the shifts. Nothing is asked of the blocks.
    pub fn bytes(&self) -> Vec<u8> {
        let all = self.blocks.concat();
        let sizes = [self.blocks.len(), self.blocks[0].len(), self.size];
        let mut bytes = numbers(sizes);
        bytes.extend(all.chunks(8).map(map_byte));
        bytes.extend(numbers(all.into_iter().flatten()));
        bytes
    }

    /// The code of the grid, each block row of which has as many set blocks.
    pub fn code(&self) -> Code {
        codes::quasi_cyclic("a grid", self.size, &self.blocks)
    }
}

/// 16 bits each, low byte first; what is beyond them is cut off.
fn numbers(numbers: impl IntoIterator<Item = usize>) -> Vec<u8> {
    let bytes = |number: usize| (number as u16).to_le_bytes();
    numbers.into_iter().flat_map(bytes).collect()
}

/// Up to eight places, the first in the highest.
fn map_byte(eight: &[Option<usize>]) -> u8 {
    let places = eight.iter().enumerate();
    places.fold(0, |byte, (at, block)| {
        byte | u8::from(block.is_some()) << (7 - at)
    })
}

/// Bytes that begin with J, K and Z.
pub fn with_sizes(sizes: [usize; 3], rest: &[u8]) -> Vec<u8> {
    [&numbers(sizes), rest].concat()
}

/// Which of so many block columns are set in each block row: `set` of them.
fn some_map(rows: usize, columns: usize, set: usize, random: &mut Random) -> Vec<Vec<bool>> {
    let mut row = || {
        let mut row = vec![false; columns];
        for c in random.different(set, columns) {
            row[c] = true;
        }
        row
    };
    (0..rows).map(|_| row()).collect()
}

/// An accepted grid by chance, its blocks of a prime size p: the shift of the block in row i and
/// column j is i × j and numbers of the row's and the column's own. No more than p rows and p
/// columns, so that p divides no product of two differences: no two rows share two columns.
pub fn accepted(random: &mut Random) -> Grid {
    let size = match random.once_in(40) {
        true => 31,
        false => *random.pick(&[2, 3, 5, 7, 11, 13]),
    };
    let rows = 1 + random.below(size);
    let columns = 2 + random.below(size - 1);
    let set = 2 + random.below(columns - 1);
    let map = some_map(rows, columns, set, random);
    let mut own = |count: usize| -> Vec<usize> { (0..count).map(|_| random.below(size)).collect() };
    let (of_rows, of_columns) = (own(rows), own(columns));
    let shift = |r: usize, c: usize| (r * c + of_rows[r] + of_columns[c]) % size;
    let mut grid = Grid::by([rows, columns, size], |r, c| map[r][c].then(|| shift(r, c)));
    let empty = |c: &usize| map.iter().all(|row| !row[*c]);
    for c in (0..columns).filter(empty).rev() {
        grid.blocks.iter_mut().for_each(|row| {
            row.remove(c);
        });
    }
    grid
}

/// A grid by chance, of as many set blocks in each block row: a sheet, of a matrix that may be
/// refused.
pub fn some(random: &mut Random) -> Grid {
    let size = *random.pick(&[1, 2, 3, 4, 8, 16, 30, 64, 300]);
    let (rows, columns) = (1 + random.below(5), 1 + random.below(6));
    let set = random.below(columns + 1);
    let map = some_map(rows, columns, set, random);
    let blocks = map.into_iter().map(|row| {
        let places = row.into_iter();
        places
            .map(|place| place.then(|| random.below(size)))
            .collect()
    });
    let blocks = blocks.collect();
    Grid { size, blocks }
}

/// One change of a sheet's bytes by chance, most of which leave no sheet.
pub fn change(bytes: &mut Vec<u8>, random: &mut Random) {
    let at = random.below(bytes.len().max(1));
    match random.below(6) {
        0 => bytes.truncate(at),
        1 => bytes.push(random.byte()),
        2 if !bytes.is_empty() => bytes[at] = random.byte(),
        3 if bytes.len() >= 6 => {
            let number = *random.pick(&[0_u16, 1, 2, 255, 256, 1023, 1024, 65_535]);
            let at = 2 * random.below(3);
            bytes[at..at + 2].copy_from_slice(&number.to_le_bytes());
        }
        _ if !bytes.is_empty() => bytes[at] ^= 1 << random.below(8),
        _ => {}
    }
}

/// Codes that are grids, each with its block size.
pub fn known() -> Vec<(Code, u16)> {
    let mut known = vec![
        (codes::tanner155(), 31),
        (codes::qc961(), 31),
        (codes::qc961_721(), 31),
        (codes::array_code(31, 31, 31), 31),
        (codes::array_code(31, 6, 31), 31),
        (codes::array_code(341, 3, 3), 341),
        (codes::array_code(341, 3, 2), 341),
        (codes::array_code(93, 11, 11), 93),
        (codes::array_code(17, 16, 4), 17),
        (codes::array_code(11, 5, 9), 11),
        (codes::array_code_off_diagonal(11), 11),
        (codes::field_array(3), 7),
        (codes::field_array(4), 15),
        (codes::array_code(3, 2, 3), 3),
        (codes::array_code(5, 5, 2), 5),
    ];
    known.extend(codes::small().into_iter().map(|code| (code, 1)));
    known
}
