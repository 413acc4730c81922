//! The incremental form, as fast as plain Rust was found to go: parities and votes are kept from
//! round to round. When a bit flips the parities of its rows turn over. A row that then begins to
//! fail adds 1 at its columns, and one that no longer fails takes 1 away; or all failing rows add
//! anew, where these are fewer.
//!
//! In two layouts: `Bytes`, a byte a parity and the numbers of each column's rows, and `Bits`, in
//! which a column's rows are bits too, so that a flip is a few exclusive-ors.

use crate::accumulate::{add_votes, update, Weights};
use crate::index;
use crate::optimised::is_regular;
use crate::whole::{vectors, Kept, Rounds, WIDTH};
use reference::Matrix;

/// A list of rows, as places of their first entry, or of columns.
type List = [u16; WIDTH];

/// The parities of all rows, and what they were before the last flips.
pub trait Parities {
    /// Of the word with no bit set.
    ///
    /// # Safety
    /// The check has accepted the matrix.
    unsafe fn of(h: &Matrix) -> Self;

    /// Back to that word.
    fn clear(&mut self);

    /// The bits of these columns flip.
    ///
    /// # Safety
    /// They are columns of the matrix.
    unsafe fn flip(&mut self, columns: &[u16]);

    /// How many checks fail.
    fn failing(&self) -> usize;

    /// How many of them turned by the last flips, or by those since `clear`.
    fn turned(&self) -> usize;

    /// Lists the rows that fail and did not, and those that did and do not; or with `anew` all that
    /// fail. Gives how many they are.
    ///
    /// # Safety
    /// RHO is the matrix's row weight.
    unsafe fn list<const RHO: usize>(
        &self,
        anew: bool,
        on: &mut List,
        off: &mut List,
    ) -> [usize; 2];
}

/// Adds to a list the places at which a word has ones.
///
/// # Safety
/// The list has room for them.
#[inline(always)]
unsafe fn list_ones(
    mut ones: u64,
    list: &mut List,
    count: &mut usize,
    at: impl Fn(usize) -> usize,
) {
    while ones != 0 {
        *list.get_unchecked_mut(*count) = at(ones.trailing_zeros() as usize) as u16;
        *count += 1;
        ones &= ones - 1;
    }
}

/// Eight bytes, the first in the lowest place.
///
/// # Safety
/// They are within the cells.
#[inline(always)]
unsafe fn eight(cells: &[u8; WIDTH], at: usize) -> u64 {
    u64::from_le(cells.as_ptr().add(at).cast::<u64>().read_unaligned())
}

/// Each row takes 1 away at its columns.
///
/// # Safety
/// As at `add_votes`; and the votes are there to be taken.
#[inline(always)]
unsafe fn take_votes<const RHO: usize>(list: &[u16], rows: &[u16], votes: &mut [u8; WIDTH]) {
    for &at in rows {
        for k in 0..RHO {
            let column = usize::from(*list.get_unchecked(usize::from(at) + k));
            *votes.get_unchecked_mut(column) -= 1;
        }
    }
}

pub struct Incremental<P> {
    parities: P,
    weights: Weights,
    votes: [u8; WIDTH],
    /// The bits before the round.
    before: [u8; WIDTH],
    flips: List,
    on: List,
    off: List,
}

impl<P: Parities> Incremental<P> {
    /// Turns the parities where the bits differ from those before.
    ///
    /// # Safety
    /// The two differ at columns of the matrix only.
    #[inline(always)]
    unsafe fn flip(&mut self, z: &[u8; WIDTH], vectors: usize) {
        let mut count = 0;
        for at in (0..vectors).step_by(8) {
            let ones = eight(z, at) ^ eight(&self.before, at);
            list_ones(ones, &mut self.flips, &mut count, |k| at + k / 8);
        }
        self.parities.flip(&self.flips[..count]);
    }
}

impl<P: Parities> Rounds for Incremental<P> {
    unsafe fn of(h: &Matrix) -> Incremental<P> {
        Incremental {
            parities: P::of(h),
            weights: Weights::of(h),
            votes: [0; WIDTH],
            before: [0; WIDTH],
            flips: [0; WIDTH],
            on: [0; WIDTH],
            off: [0; WIDTH],
        }
    }

    #[inline(always)]
    unsafe fn run<K: Kept, const RHO: usize>(
        &mut self,
        h: &Matrix,
        limit: u8,
        largest: K,
        x: &mut [K; WIDTH],
        z: &mut [u8; WIDTH],
    ) -> (u8, usize) {
        let (list, vectors) = (&h.list[..], vectors(h));
        self.parities.clear();
        self.before[..vectors].fill(0);
        self.flip(z, vectors);
        let mut rounds = 0;
        loop {
            let failing = self.parities.failing();
            if failing == 0 || rounds == limit {
                return (rounds, failing);
            }
            let anew = rounds == 0 || failing <= self.parities.turned();
            if anew {
                self.votes[..vectors].fill(0);
            }
            let (on, off) = (&mut self.on, &mut self.off);
            let [adding, taking] = self.parities.list::<RHO>(anew, on, off);
            add_votes::<RHO>(list, &on[..adding], &mut self.votes);
            take_votes::<RHO>(list, &off[..taking], &mut self.votes);
            self.before[..vectors].copy_from_slice(&z[..vectors]);
            update(x, z, &self.votes, &self.weights, largest, vectors);
            self.flip(z, vectors);
            rounds += 1;
        }
    }
}

pub struct Bytes {
    /// Gamma for each column, ascending; or of unlike columns where those of each begin, then they.
    rows_of: Vec<u16>,
    flip: unsafe fn(&[u16], &[u16], &mut [u8; WIDTH]),
    /// Rows, up to whole vectors.
    vectors: usize,
    now: [u8; WIDTH],
    was: [u8; WIDTH],
}

/// Turns over the parities of the rows of each column.
unsafe fn flip_bytes<const GAMMA: usize>(rows_of: &[u16], columns: &[u16], now: &mut [u8; WIDTH]) {
    for &column in columns {
        for k in 0..GAMMA {
            let row = *rows_of.get_unchecked(usize::from(column) * GAMMA + k);
            *now.get_unchecked_mut(usize::from(row)) ^= 1;
        }
    }
}

/// The same of unlike columns.
unsafe fn flip_unlike(rows_of: &[u16], columns: &[u16], now: &mut [u8; WIDTH]) {
    for &column in columns {
        let from = usize::from(*rows_of.get_unchecked(usize::from(column)));
        let to = usize::from(*rows_of.get_unchecked(usize::from(column) + 1));
        for &row in rows_of.get_unchecked(from..to) {
            *now.get_unchecked_mut(usize::from(row)) ^= 1;
        }
    }
}

/// The rows of each column, as the function for the column weight reads them.
///
/// # Safety
/// The check has accepted the matrix.
unsafe fn rows_of_columns(h: &Matrix) -> Vec<u16> {
    let places = usize::from(h.n) + 1;
    let mut index = vec![0; places + h.list.len()];
    index::build(h, &mut index);
    if is_regular(h) {
        return index.split_off(places);
    }
    index[..places]
        .iter_mut()
        .for_each(|start| *start += places as u16);
    index
}

impl Parities for Bytes {
    unsafe fn of(h: &Matrix) -> Bytes {
        macro_rules! for_each_weight {
            ($($weight:literal)*) => {
                match h.gamma {
                    _ if !is_regular(h) => flip_unlike,
                    $($weight => flip_bytes::<$weight>,)*
                    _ => unreachable!("the check has accepted the column weight"),
                }
            };
        }
        Bytes {
            rows_of: rows_of_columns(h),
            flip: for_each_weight!(1 2 3 4 5 6 7 8 9 10 11 12 13 14 15 16 17 18 19 20 21 22 23 24 25 26 27 28 29 30 31 32),
            vectors: usize::from(h.m).div_ceil(16) * 16,
            now: [0; WIDTH],
            was: [0; WIDTH],
        }
    }

    #[inline(always)]
    fn clear(&mut self) {
        self.now[..self.vectors].fill(0);
    }

    #[inline(always)]
    unsafe fn flip(&mut self, columns: &[u16]) {
        self.was[..self.vectors].copy_from_slice(&self.now[..self.vectors]);
        (self.flip)(&self.rows_of, columns, &mut self.now);
    }

    #[inline(always)]
    fn failing(&self) -> usize {
        let now = self.now[..self.vectors].iter();
        now.map(|&now| usize::from(now)).sum()
    }

    #[inline(always)]
    fn turned(&self) -> usize {
        let both = self.now[..self.vectors].iter().zip(&self.was);
        both.map(|(now, was)| usize::from(now ^ was)).sum()
    }

    #[inline(always)]
    unsafe fn list<const RHO: usize>(
        &self,
        anew: bool,
        on: &mut List,
        off: &mut List,
    ) -> [usize; 2] {
        let (mut adding, mut taking) = (0, 0);
        for at in (0..self.vectors).step_by(8) {
            let now = eight(&self.now, at);
            let was = if anew { 0 } else { eight(&self.was, at) };
            let place = |k: usize| (at + k / 8) * RHO;
            list_ones(now & !was, on, &mut adding, place);
            list_ones(was & !now, off, &mut taking, place);
        }
        [adding, taking]
    }
}

/// Words of 64 rows, at most.
const WORDS: usize = 16;

pub struct Bits {
    /// For each column so many words: bit i % 64 of word i / 64 is 1 where row i has the column.
    rows_of: Vec<u64>,
    /// As many as the rows need, up to a power of 2.
    words: usize,
    now: [u64; WORDS],
    was: [u64; WORDS],
}

/// Turns over the parities of the rows of each column.
#[inline(always)]
unsafe fn flip_bits<const W: usize>(rows_of: &[u64], columns: &[u16], now: &mut [u64; WORDS]) {
    let mut turned = [0; W];
    for &column in columns {
        let rows = rows_of.as_ptr().add(usize::from(column) * W);
        for (w, turned) in turned.iter_mut().enumerate() {
            *turned ^= *rows.add(w);
        }
    }
    for w in 0..W {
        now[w] ^= turned[w];
    }
}

impl Parities for Bits {
    unsafe fn of(h: &Matrix) -> Bits {
        let words = usize::from(h.m).div_ceil(64).next_power_of_two();
        let mut rows_of = vec![0; usize::from(h.n) * words];
        for (i, row) in h.list.chunks_exact(usize::from(h.rho)).enumerate() {
            for &column in row {
                rows_of[usize::from(column) * words + i / 64] |= 1 << (i % 64);
            }
        }
        Bits {
            rows_of,
            words,
            now: [0; WORDS],
            was: [0; WORDS],
        }
    }

    #[inline(always)]
    fn clear(&mut self) {
        self.now = [0; WORDS];
    }

    #[inline(always)]
    unsafe fn flip(&mut self, columns: &[u16]) {
        self.was = self.now;
        match self.words {
            1 => flip_bits::<1>(&self.rows_of, columns, &mut self.now),
            2 => flip_bits::<2>(&self.rows_of, columns, &mut self.now),
            4 => flip_bits::<4>(&self.rows_of, columns, &mut self.now),
            8 => flip_bits::<8>(&self.rows_of, columns, &mut self.now),
            _ => flip_bits::<16>(&self.rows_of, columns, &mut self.now),
        }
    }

    #[inline(always)]
    fn failing(&self) -> usize {
        let now = self.now[..self.words].iter();
        now.map(|now| now.count_ones() as usize).sum()
    }

    #[inline(always)]
    fn turned(&self) -> usize {
        let both = self.now[..self.words].iter().zip(&self.was);
        both.map(|(now, was)| (now ^ was).count_ones() as usize)
            .sum()
    }

    #[inline(always)]
    unsafe fn list<const RHO: usize>(
        &self,
        anew: bool,
        on: &mut List,
        off: &mut List,
    ) -> [usize; 2] {
        let (mut adding, mut taking) = (0, 0);
        for w in 0..self.words {
            let now = self.now[w];
            let was = if anew { 0 } else { self.was[w] };
            let place = |k: usize| (64 * w + k) * RHO;
            list_ones(now & !was, on, &mut adding, place);
            list_ones(was & !now, off, &mut taking, place);
        }
        [adding, taking]
    }
}
