//! Document 02, card 5: circulant sheets, grids of shifted identity blocks.

use crate::matrix::sizes_fit;
use crate::numbers::{number_bytes, numbers};
use crate::word::places;
use crate::{check, pack, Matrix, Refusal};

/// "J, K and Z, the block rows, block columns and block size", and the blocks, block row by block
/// row: a set one has its shift, a clear one none.
struct Sheet {
    j: usize,
    k: usize,
    z: usize,
    blocks: Vec<Option<usize>>,
}

impl Sheet {
    /// The block in block row `r` and block column `c`.
    fn block(&self, r: usize, c: usize) -> Option<usize> {
        self.blocks[r * self.k + c]
    }

    /// "the set places in each block row".
    fn set_in_row(&self, r: usize) -> usize {
        (0..self.k).filter(|&c| self.block(r, c).is_some()).count()
    }

    /// The "set places in a block column".
    fn set_in_column(&self, c: usize) -> usize {
        (0..self.j).filter(|&r| self.block(r, c).is_some()).count()
    }

    /// Whether the matrix has a one there. "In a set block, row i has its one at column (i + shift)
    /// modulo Z of that block. A clear place is a block of zeros."
    fn has(&self, row: usize, column: usize) -> bool {
        match self.block(row / self.z, column / self.z) {
            Some(shift) => shifted_identity(self.z, shift, row % self.z, column % self.z),
            None => false,
        }
    }
}

/// "row i has its one at column (i + shift) modulo Z".
fn shifted_identity(z: usize, shift: usize, i: usize, column: usize) -> bool {
    (i + shift) % z == column
}

/// "New refusal 11, bytes that are not a sheet".
fn read(bytes: &[u8]) -> Result<Sheet, Refusal> {
    read_grid(bytes).ok_or(Refusal::plain(11))
}

/// None for "wrong length, a zero among J, K, Z, a spare map place set, a shift not below Z, block
/// rows with unlike numbers of set places".
fn read_grid(bytes: &[u8]) -> Option<Sheet> {
    // "A sheet starts with J, K and Z, [..] 16 bits each, low byte first."
    let head = numbers(bytes.get(..6)?);
    let [j, k, z] = [head[0], head[1], head[2]].map(usize::from);
    if j == 0 || k == 0 || z == 0 {
        return None;
    }
    // "Then stands a bit map of J × K places, row by row, highest place first, padded with zeros to a
    // byte."
    let map_bytes = (j * k + 7) / 8;
    let places = places(bytes[6..].get(..map_bytes)?);
    let (map, spare) = places.split_at(j * k);
    // "After it comes one 16-bit shift, low byte first, for each place that is set."
    let shifts = &bytes[6 + map_bytes..];
    let set = map.iter().filter(|&&place| place).count();
    if spare.contains(&true) || shifts.len() != 2 * set {
        return None;
    }
    let mut shifts = numbers(shifts).into_iter().map(usize::from);
    let mut blocks = Vec::new();
    for &place in map {
        blocks.push(if place { shifts.next() } else { None });
    }
    let sheet = Sheet { j, k, z, blocks };
    let too_far = sheet.blocks.iter().flatten().any(|&shift| shift >= z);
    let unlike = (0..j).any(|r| sheet.set_in_row(r) != sheet.set_in_row(0));
    (!too_far && !unlike).then_some(sheet)
}

/// "The sheet's n is K × Z, its m is J × Z, ρ the set places in each block row, and γ the fewest set
/// places in a block column." The list is left empty. None where 16 bits do not hold a size, which
/// is then out of its range.
fn sizes(sheet: &Sheet) -> Option<Matrix> {
    let gamma = (0..sheet.k).map(|c| sheet.set_in_column(c)).min()?;
    Some(Matrix {
        n: u16::try_from(sheet.k * sheet.z).ok()?,
        m: u16::try_from(sheet.j * sheet.z).ok()?,
        rho: u16::try_from(sheet.set_in_row(0)).ok()?,
        gamma: u16::try_from(gamma).ok()?,
        list: Vec::new(),
    })
}

/// "Turn a sheet into a list": refusals 11, and 1 to 5, as "the sizes and the list are then checked
/// as any others". All places of the matrix are asked.
pub fn matrix_of_sheet(bytes: &[u8]) -> Result<Matrix, Refusal> {
    let sheet = read(bytes)?;
    let mut h = match sizes(&sheet) {
        Some(h) if sizes_fit(&h) => h,
        _ => return Err(Refusal::plain(1)),
    };
    for row in 0..usize::from(h.m) {
        let ones = (0..h.n).filter(|&column| sheet.has(row, column.into()));
        h.list.extend(ones);
    }
    check(&h)?;
    Ok(h)
}

/// "before anything is written", 7 is asked: four numbers for the sizes, and the list. Cells beyond
/// them stay.
pub fn write_matrix(h: &Matrix, sizes: &mut [u16], list: &mut [u16]) -> Result<(), Refusal> {
    if sizes.len() < 4 || list.len() < h.list.len() {
        return Err(Refusal::plain(7));
    }
    sizes[..4].copy_from_slice(&[h.n, h.m, h.rho, h.gamma]);
    list[..h.list.len()].copy_from_slice(&h.list);
    Ok(())
}

/// A sheet into a list: refusals 11, 1 to 5, and 7.
pub fn sheet_to_list(bytes: &[u8], sizes: &mut [u16], list: &mut [u16]) -> Result<(), Refusal> {
    write_matrix(&matrix_of_sheet(bytes)?, sizes, list)
}

/// The matrix as zeros and ones, of which the block in block row `r` and block column `c` is asked.
struct Ones {
    z: usize,
    ones: Vec<Vec<bool>>,
}

impl Ones {
    fn new(h: &Matrix, z: usize) -> Ones {
        let mut ones = vec![vec![false; h.n.into()]; h.m.into()];
        for (i, row) in ones.iter_mut().enumerate() {
            h.columns(i).for_each(|column| row[column] = true);
        }
        Ones { z, ones }
    }

    /// Whether each place of the block is what is said of its row and column.
    fn is(&self, (r, c): (usize, usize), said: impl Fn(usize, usize) -> bool) -> bool {
        let z = self.z;
        (0..z).all(|i| (0..z).all(|at| self.ones[r * z + i][c * z + at] == said(i, at)))
    }

    /// What a sheet says of the block: nothing where it is of zeros, else the one of all shifts
    /// that describes it. 12 where there is none.
    fn block(&self, place: (usize, usize)) -> Result<Option<usize>, Refusal> {
        if self.is(place, |_, _| false) {
            return Ok(None);
        }
        let describes =
            |&shift: &usize| self.is(place, |i, at| shifted_identity(self.z, shift, i, at));
        let shift = (0..self.z).find(describes);
        shift.map(Some).ok_or(Refusal::plain(12))
    }
}

/// "an accepted list with a given Z into its sheet": "new 12, Z is 0 or no sheet with that Z
/// describes the list". A sheet with that Z has n and m that are multiples of Z.
///
/// The matrix is one that `check` has accepted.
pub fn sheet_of_accepted(h: &Matrix, z: u16) -> Result<Vec<u8>, Refusal> {
    let (n, m, z) = (usize::from(h.n), usize::from(h.m), usize::from(z));
    if z == 0 || n % z != 0 || m % z != 0 {
        return Err(Refusal::plain(12));
    }
    let (j, k, ones) = (m / z, n / z, Ones::new(h, z));
    let mut blocks = Vec::new();
    for r in 0..j {
        for c in 0..k {
            blocks.push(ones.block((r, c))?);
        }
    }
    let map: Vec<bool> = blocks.iter().map(Option::is_some).collect();
    let mut bytes = [j, k, z].map(number_bytes).concat();
    bytes.extend(pack(&map));
    bytes.extend(blocks.into_iter().flatten().flat_map(number_bytes));
    Ok(bytes)
}

/// The same of any matrix: refusals 1 to 5, and 12, which "comes after 5".
pub fn sheet_of(h: &Matrix, z: u16) -> Result<Vec<u8>, Refusal> {
    check(h)?;
    sheet_of_accepted(h, z)
}

/// Refusal 7, a buffer shorter than the sheet. Bytes beyond it stay; the answer is how many were
/// written.
pub fn write_sheet(own: &[u8], sheet: &mut [u8]) -> Result<usize, Refusal> {
    if sheet.len() < own.len() {
        return Err(Refusal::plain(7));
    }
    sheet[..own.len()].copy_from_slice(own);
    Ok(own.len())
}

/// A list into its sheet: refusals 1 to 5, 12, and 7.
pub fn list_to_sheet(h: &Matrix, z: u16, sheet: &mut [u8]) -> Result<usize, Refusal> {
    write_sheet(&sheet_of(h, z)?, sheet)
}
