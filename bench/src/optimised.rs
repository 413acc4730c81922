//! The matrix check and one-step voting, as fast as plain Rust was found to go.

use reference::{check as literal_check, Answer, Matrix, Outcome, Refusal};

/// The matrix check. Refused matrices may take longer.
pub fn check(h: &Matrix) -> Result<(), Refusal> {
    let (n, m) = (usize::from(h.n), usize::from(h.m));
    let (rho, gamma) = (usize::from(h.rho), usize::from(h.gamma));
    let in_range = (2..=1023).contains(&n)
        && (1..=1023).contains(&m)
        && (2..=32).contains(&rho)
        && (1..=32).contains(&gamma);
    if !in_range || m * rho < n * gamma {
        return Err(Refusal::plain(1));
    }
    if h.list.len() != m * rho {
        return Err(Refusal::plain(2));
    }
    let mut weights = [0_u16; 1024];
    if !rows_ascend(h, &mut weights) {
        return literal_check(h);
    }
    weights_fit(h, &weights[..n])?;
    let meetings = match (m, n) {
        (..=128, ..=256) => Met::<2, 256>::meetings(h),
        (..=128, _) => Met::<2, 1024>::meetings(h),
        (..=512, _) => Met::<8, 1024>::meetings(h),
        _ => Met::<16, 1024>::meetings(h),
    };
    // In each column every two of its rows meet. If the pairs of rows that meet are as many as that,
    // none meets twice.
    let pairs = |weight: usize| weight * (weight - 1) / 2;
    let all = match is_regular(h) {
        true => n * pairs(gamma),
        false => weights[..n].iter().map(|&w| pairs(w.into())).sum(),
    };
    if meetings != all as u64 {
        return literal_check(h);
    }
    Ok(())
}

/// Whether all columns of an accepted matrix weigh gamma: the ones are just enough for that.
pub fn is_regular(h: &Matrix) -> bool {
    u32::from(h.m) * u32::from(h.rho) == u32::from(h.n) * u32::from(h.gamma)
}

/// Refusal 4.
fn weights_fit(h: &Matrix, weights: &[u16]) -> Result<(), Refusal> {
    if is_regular(h) && !weights.iter().any(|&w| w != h.gamma) {
        return Ok(());
    }
    if let Some(j) = weights.iter().position(|&w| w < h.gamma || w > 32) {
        return Err(Refusal::at(4, j));
    }
    if !weights.contains(&h.gamma) {
        return Err(Refusal::at(4, h.n.into()));
    }
    Ok(())
}

/// How often each column stands in the list.
///
/// # Safety
/// The check has accepted the matrix.
#[inline(always)]
pub(crate) unsafe fn weights(h: &Matrix) -> [u8; 1024] {
    let mut weights = [0; 1024];
    for &c in &h.list {
        *weights.get_unchecked_mut(usize::from(c)) += 1;
    }
    weights
}

/// Whether every row ascends strictly and stays below n; counts the columns on the way.
fn rows_ascend(h: &Matrix, weights: &mut [u16; 1024]) -> bool {
    let mut good = true;
    for row in h.list.chunks_exact(usize::from(h.rho)) {
        let mut before = -1;
        for &c in row {
            good &= before < i32::from(c);
            before = i32::from(c);
            weights[usize::from(c) % 1024] += 1;
        }
        // The last of an ascending row is the largest.
        good &= before < i32::from(h.n);
    }
    good
}

/// For each column the rows that have it, as a set of W × 64 bits.
struct Met<const W: usize, const N: usize> {
    rows_of: [[u64; W]; N],
}

impl<const W: usize, const N: usize> Met<W, N> {
    /// How many pairs of rows have a column in common.
    fn meetings(h: &Matrix) -> u64 {
        let mut met = Met {
            rows_of: [[0; W]; N],
        };
        let m = usize::from(h.m);
        let mut meetings = 0;
        // Row i meets rows below it only: 128 rows need one more pair of words each time.
        for from in (0..m).step_by(128) {
            let to = m.min(from + 128);
            meetings += match from / 128 {
                0 => met.block::<2>(h, from, to),
                1 => met.block::<4>(h, from, to),
                2 => met.block::<6>(h, from, to),
                3 => met.block::<8>(h, from, to),
                4 => met.block::<10>(h, from, to),
                5 => met.block::<12>(h, from, to),
                6 => met.block::<14>(h, from, to),
                _ => met.block::<16>(h, from, to),
            };
        }
        meetings
    }

    /// The same for the rows from `from` to `to`, of which the first K words can be set.
    fn block<const K: usize>(&mut self, h: &Matrix, from: usize, to: usize) -> u64 {
        let rho = usize::from(h.rho);
        let mut meetings = 0;
        for i in from..to {
            let row = &h.list[i * rho..(i + 1) * rho];
            let mut union = [0; K];
            for &c in row {
                let rows = &self.rows_of[usize::from(c) % N];
                for w in 0..K.min(W) {
                    union[w] |= rows[w];
                }
            }
            meetings += union.iter().map(|w| u64::from(w.count_ones())).sum::<u64>();
            for &c in row {
                self.rows_of[usize::from(c) % N][i / 64 % W] |= 1 << (i % 64);
            }
        }
        meetings
    }
}

/// A byte times this has bit 7 - k of the byte at place 8 k + 7, and eight bytes of 0 or 1 times
/// this have byte k at place 63 - k.
const SPREAD: u64 = 0x8040_2010_0804_0201;

/// One byte of 0 or 1 for each bit.
fn unpack(packed: &[u8], bits: &mut [u8; 1024]) {
    for (byte, eight) in packed.iter().zip(bits.chunks_exact_mut(8)) {
        let spread = u64::from(*byte).wrapping_mul(SPREAD) >> 7 & 0x0101_0101_0101_0101;
        eight.copy_from_slice(&spread.to_le_bytes());
    }
}

fn pack(bits: &[u8; 1024], packed: &mut [u8]) {
    for (byte, eight) in packed.iter_mut().zip(bits.chunks_exact(8)) {
        let eight = u64::from_le_bytes(eight.try_into().unwrap());
        *byte = (eight.wrapping_mul(SPREAD) >> 56) as u8;
    }
}

/// One-step voting.
///
/// # Safety
/// The matrix has been accepted by the check: its columns index arrays without a test.
pub unsafe fn one_step_accepted(
    h: &Matrix,
    received: &[u8],
    word: &mut [u8],
) -> Result<Answer, Refusal> {
    let n = usize::from(h.n);
    let needed = n.div_ceil(8);
    if received.len() != needed || word.len() < needed {
        return Err(Refusal::plain(7));
    }
    if n % 8 != 0 && received[needed - 1] & (0xFF >> (n % 8)) != 0 {
        return Err(Refusal::plain(9));
    }
    // A loop that is unrolled for long rows loses on short ones.
    let answer = if h.rho < 12 {
        vote(h, received, &mut word[..needed], parity_of_short)
    } else {
        vote(h, received, &mut word[..needed], parity_of_long)
    };
    Ok(answer)
}

/// # Safety
/// The columns of the row are below 1024. The same holds of the next function.
#[inline(always)]
unsafe fn parity_of_long(row: &[u16], bits: &[u8; 1024]) -> u8 {
    let mut parity = 0;
    for &c in row {
        parity ^= bits.get_unchecked(usize::from(c));
    }
    parity
}

#[inline(always)]
unsafe fn parity_of_short(row: &[u16], bits: &[u8; 1024]) -> u8 {
    let bit = |c: u16| bits.get_unchecked(usize::from(c));
    let mut parity = 0;
    let mut fours = row.chunks_exact(4);
    for four in &mut fours {
        parity ^= bit(four[0]) ^ bit(four[1]) ^ bit(four[2]) ^ bit(four[3]);
    }
    for &c in fours.remainder() {
        parity ^= bit(c);
    }
    parity
}

#[inline(always)]
unsafe fn vote(
    h: &Matrix,
    received: &[u8],
    word: &mut [u8],
    parity: unsafe fn(&[u16], &[u8; 1024]) -> u8,
) -> Answer {
    let (n, rho) = (usize::from(h.n), usize::from(h.rho));
    let mut bits = [0; 1024];
    unpack(received, &mut bits);

    // Every row is listed, and the list's end moves on when the row fails.
    let mut list = [0_u16; 1024];
    let mut failing = 0;
    for (i, row) in h.list.chunks_exact(rho).enumerate() {
        list[failing % 1024] = i as u16;
        failing += usize::from(parity(row, &bits));
    }

    let (mut rounds, mut changed) = (0, 0);
    if failing != 0 {
        let mut votes = [0_u8; 1024];
        for &i in &list[..failing] {
            for &c in &h.list[usize::from(i) * rho..][..rho] {
                *votes.get_unchecked_mut(usize::from(c)) += 1;
            }
        }
        let flip = |bit: &mut u8, votes: u8, half: u8| {
            let flip = u8::from(votes > half);
            *bit ^= flip;
            usize::from(flip)
        };
        let bits_and_votes = bits[..n].iter_mut().zip(&votes);
        if is_regular(h) {
            let half = (h.gamma / 2) as u8;
            bits_and_votes.for_each(|(bit, votes)| changed += flip(bit, *votes, half));
        } else {
            let own = weights(h);
            let all = bits_and_votes.zip(&own);
            all.for_each(|((bit, votes), own)| changed += flip(bit, *votes, own / 2));
        }
        rounds = 1;
        failing = 0;
        for row in h.list.chunks_exact(rho) {
            failing += usize::from(parity(row, &bits));
        }
    }
    pack(&bits, word);
    Answer {
        outcome: if failing == 0 {
            Outcome::Decoded
        } else {
            Outcome::Failed
        },
        rounds,
        failing,
        changed,
    }
}
