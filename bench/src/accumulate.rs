//! The accumulate form, as fast as plain Rust was found to go: parities are taken anew from the
//! bits in each round, failing rows are listed without a branch and add 1 at their columns.

use crate::optimised::{is_regular, weights};
use crate::whole::{vectors, Kept, Rounds, WIDTH};
use reference::Matrix;

/// Lists the failing rows, as places of their first entry; gives how many they are.
///
/// # Safety
/// The list has m rows of RHO columns below WIDTH, and `failing` has room for m + 1 places.
#[inline(always)]
pub(crate) unsafe fn list_failing<const RHO: usize>(
    list: &[u16],
    z: &[u8; WIDTH],
    failing: &mut [u16; WIDTH + 1],
) -> usize {
    let mut count = 0;
    let mut at = 0;
    while at < list.len() {
        let mut parity = 0;
        for k in 0..RHO {
            let column = usize::from(*list.get_unchecked(at + k));
            parity ^= *z.get_unchecked(column);
        }
        *failing.get_unchecked_mut(count) = at as u16;
        count += usize::from(parity);
        at += RHO;
    }
    count
}

/// Each failing row adds 1 at its columns.
///
/// # Safety
/// As above, and each place is one of a row.
#[inline(always)]
pub(crate) unsafe fn add_votes<const RHO: usize>(
    list: &[u16],
    failing: &[u16],
    votes: &mut [u8; WIDTH],
) {
    for &at in failing {
        for k in 0..RHO {
            let column = usize::from(*list.get_unchecked(usize::from(at) + k));
            *votes.get_unchecked_mut(column) += 1;
        }
    }
}

/// R becomes R + E, cut to ±L, in the biased form; z is 1 where R is above 0.
///
/// E is votes' doubles less the weight where z is 0, its negative where z is 1. One of the two
/// parts, what is above the weight and what is below, is always 0, so no cut hides the other.
#[inline(always)]
fn update_one<K: Kept>(x: &mut K, z: &mut u8, votes: u8, weight: u8, largest: K) {
    let doubled = votes + votes;
    let above = doubled.saturating_sub(weight);
    let below = weight.saturating_sub(doubled);
    let ones = 0_u8.wrapping_sub(*z);
    let up = (above & !ones) | (below & ones);
    let down = (below & !ones) | (above & ones);
    let raised = x.plus(up.into()).min(largest.plus(largest));
    *x = raised.less(down.into());
    *z = u8::from(*x > largest);
}

/// The column weights of a matrix: one number where they are alike.
pub(crate) enum Weights {
    Alike(u8),
    Own(Box<[u8; WIDTH]>),
}

impl Weights {
    /// # Safety
    /// The check has accepted the matrix.
    pub(crate) unsafe fn of(h: &Matrix) -> Weights {
        match is_regular(h) {
            true => Weights::Alike(h.gamma as u8),
            false => Weights::Own(Box::new(weights(h))),
        }
    }
}

/// The same for all columns.
#[inline(always)]
pub(crate) fn update<K: Kept>(
    x: &mut [K; WIDTH],
    z: &mut [u8; WIDTH],
    votes: &[u8; WIDTH],
    weights: &Weights,
    largest: K,
    vectors: usize,
) {
    let all = x[..vectors].iter_mut().zip(&mut z[..vectors]).zip(votes);
    match weights {
        Weights::Alike(gamma) => {
            for ((x, z), votes) in all {
                update_one(x, z, *votes, *gamma, largest);
            }
        }
        Weights::Own(own) => {
            for (((x, z), votes), weight) in all.zip(&own[..]) {
                update_one(x, z, *votes, *weight, largest);
            }
        }
    }
}

pub struct Accumulate {
    weights: Weights,
    votes: [u8; WIDTH],
    failing: [u16; WIDTH + 1],
}

impl Rounds for Accumulate {
    unsafe fn of(h: &Matrix) -> Accumulate {
        Accumulate {
            weights: Weights::of(h),
            votes: [0; WIDTH],
            failing: [0; WIDTH + 1],
        }
    }

    #[inline(always)]
    unsafe fn run<K: Kept, const RHO: usize>(
        &mut self,
        h: &Matrix,
        limit: u8,
        largest: K,
        x: &mut [K; WIDTH],
        z: &mut [u8; WIDTH],
    ) -> (u8, usize) {
        let (list, vectors) = (&h.list[..], vectors(h));
        let mut rounds = 0;
        loop {
            let failing = list_failing::<RHO>(list, z, &mut self.failing);
            if failing == 0 || rounds == limit {
                return (rounds, failing);
            }
            self.votes[..vectors].fill(0);
            add_votes::<RHO>(list, &self.failing[..failing], &mut self.votes);
            update(x, z, &self.votes, &self.weights, largest, vectors);
            rounds += 1;
        }
    }
}
