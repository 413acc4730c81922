//! The program around the rounds, which each hand-optimised form brings itself: reads head and
//! blocks through one buffer, quantises in floating point, prints the lines. The code is made anew
//! for each row weight, with levels of a byte and of two.

use crate::optimised;
use reference::Matrix;
use std::fs::File;
use std::io::{Read, Write};
use std::mem::ManuallyDrop;
use std::os::fd::FromRawFd;

const HEADING: &[u8] = b"block end rounds failing changed word\n";
const MOST_BLOCKS: usize = 65_535;

/// Columns, in a multiple of the widest vector.
pub const WIDTH: usize = 1024;

/// More than the longest head and than a block.
const BUFFER: usize = 160 * 1024;

/// A level kept as R + L: a byte where b is at most 8, else two.
pub trait Kept: Copy + Ord + From<u8> {
    /// Of a number that it has room for.
    fn of(number: i32) -> Self;

    /// The sum, at most the largest that there is room for.
    fn plus(self, other: Self) -> Self;

    /// The difference, at least 0.
    fn less(self, other: Self) -> Self;
}

macro_rules! kept_as {
    ($cell:ty) => {
        impl Kept for $cell {
            #[inline(always)]
            fn of(number: i32) -> $cell {
                number as $cell
            }

            #[inline(always)]
            fn plus(self, other: $cell) -> $cell {
                self.saturating_add(other)
            }

            #[inline(always)]
            fn less(self, other: $cell) -> $cell {
                self.saturating_sub(other)
            }
        }
    };
}

kept_as!(u8);
kept_as!(u16);

/// Standard input through one buffer.
struct Source<R> {
    from: R,
    buffer: Vec<u8>,
    start: usize,
    end: usize,
}

impl<R: Read> Source<R> {
    fn new(from: R) -> Source<R> {
        Source {
            from,
            buffer: vec![0; BUFFER],
            start: 0,
            end: 0,
        }
    }

    /// Reads on until `count` bytes are at hand or the input ends; gives how many there are, at
    /// most `count`.
    fn fill(&mut self, count: usize) -> usize {
        if self.end - self.start < count {
            self.buffer.copy_within(self.start..self.end, 0);
            self.end -= self.start;
            self.start = 0;
            while self.end < count {
                match self.from.read(&mut self.buffer[self.end..]) {
                    Ok(0) => break,
                    Ok(more) => self.end += more,
                    Err(error) if error.kind() == std::io::ErrorKind::Interrupted => {}
                    Err(_) => break,
                }
            }
        }
        count.min(self.end - self.start)
    }

    /// The next bytes, which `fill` has brought.
    fn take(&mut self, count: usize) -> &[u8] {
        self.start += count;
        &self.buffer[self.start - count..self.start]
    }
}

/// A quantiser's numbers: level = ⌊|sample| × scale + 1/2⌋, at most L.
///
/// The exact quotient lies on a half-way or at least 2^−37 of its size away from it, as sample
/// and step have 24 bits each and the gain eleven. The two roundings err by 2^−52 together, and the
/// scale is raised by 2^−50: a half-way then comes out at or above itself, and nothing else
/// reaches it.
struct Quantiser {
    scale: f64,
    largest: u16,
}

impl Quantiser {
    fn new(bits: u8, kind: u8, step: f32) -> Option<Quantiser> {
        let in_range = (1.0 / 1_048_576.0..=1_048_576.0).contains(&step);
        if !(2..=12).contains(&bits) || kind > 1 || !in_range {
            return None;
        }
        let largest = (1_u16 << (bits - 1)) - 1;
        let gain = if kind == 0 { 1.0 } else { f64::from(largest) };
        Some(Quantiser {
            scale: gain / f64::from(step) * (1.0 + 2.0_f64.powi(-50)),
            largest,
        })
    }

    /// Levels as R + L and hard bits, or the first place of a sample that is not finite.
    #[inline(always)]
    fn run<K: Kept>(
        &self,
        block: &[u8],
        x: &mut [K; WIDTH],
        z: &mut [u8; WIDTH],
    ) -> Result<(), usize> {
        let largest = i32::from(self.largest);
        let most = f64::from(largest);
        let mut not_finite = 0;
        for ((four, x), z) in block.chunks_exact(4).zip(x).zip(z) {
            let sample = f32::from_le_bytes(four.try_into().unwrap());
            let bits = sample.to_bits() as i32;
            not_finite |= i32::from(bits & 0x7FFF_FFFF >= 0x7F80_0000);
            let quotient = f64::from(sample.abs()) * self.scale + 0.5;
            let cut = if quotient < most { quotient } else { most };
            // SAFETY: a NaN compares as not below, so the number lies from 0 to L.
            let magnitude = unsafe { cut.to_int_unchecked::<i32>() };
            // The sign as 0 or −1; a number is turned by (number ^ sign) − sign.
            let sign = bits >> 31;
            *x = K::of(largest + ((magnitude ^ sign) - sign));
            *z = u8::from(bits > 0);
        }
        if not_finite == 0 {
            return Ok(());
        }
        let exponent = |four: &[u8]| u16::from_le_bytes([four[2], four[3]]) & 0x7F80;
        let first = block
            .chunks_exact(4)
            .position(|four| exponent(four) == 0x7F80);
        Err(first.unwrap_or(0))
    }
}

/// The rounds of a block, and what they keep for all blocks of a matrix.
pub trait Rounds {
    /// # Safety
    /// The check has accepted the matrix.
    unsafe fn of(h: &Matrix) -> Self;

    /// From the first test on, in place of levels (as R + L) and hard bits; gives the rounds done
    /// and the failing checks. Places beyond n are 0 and stay so.
    ///
    /// # Safety
    /// The check has accepted the matrix, of row weight RHO, and it is the one of `of`.
    unsafe fn run<K: Kept, const RHO: usize>(
        &mut self,
        h: &Matrix,
        limit: u8,
        largest: K,
        x: &mut [K; WIDTH],
        z: &mut [u8; WIDTH],
    ) -> (u8, usize);
}

/// Columns, up to whole vectors.
pub fn vectors(h: &Matrix) -> usize {
    usize::from(h.n).div_ceil(16) * 16
}

/// What stays the same for all blocks.
struct Run {
    h: Matrix,
    quantiser: Quantiser,
    limit: u8,
}

/// The cells of one block. A mark is the hard bit, and 2 more where the level at opening is 0.
struct Cells<K> {
    x: [K; WIDTH],
    z: [u8; WIDTH],
    marks: [u8; WIDTH],
}

impl<K: Kept> Cells<K> {
    /// Marks the places, with levels and bits as the quantiser left them.
    #[inline(always)]
    fn mark(&mut self, largest: K, vectors: usize) {
        let opened = self.x[..vectors].iter().zip(&self.z[..vectors]);
        for (mark, (x, z)) in self.marks[..vectors].iter_mut().zip(opened) {
            *mark = z | u8::from(*x == largest) << 1;
        }
    }

    /// How many bits of places that had a level are others now: those that differ from their mark in
    /// the lowest place alone.
    #[inline(always)]
    fn changed(&self, n: usize) -> u16 {
        let turned = |(z, mark): (&u8, &u8)| u16::from(z ^ mark == 1);
        self.z[..n].iter().zip(&self.marks).map(turned).sum()
    }
}

/// Lines are written when there are so many bytes of them.
const LINES: usize = 1 << 16;

impl Run {
    /// Decodes a block and appends its line.
    #[inline(always)]
    fn block<R: Rounds, K: Kept, const RHO: usize>(
        &self,
        rounds: &mut R,
        cells: &mut Cells<K>,
        number: usize,
        block: &[u8],
        out: &mut Vec<u8>,
    ) {
        let n = usize::from(self.h.n);
        decimal(number, out);
        if let Err(place) = self.quantiser.run(block, &mut cells.x, &mut cells.z) {
            out.extend(b" refused 8 ");
            decimal(place, out);
            out.push(b'\n');
            return;
        }
        let largest = K::of(self.quantiser.largest.into());
        cells.mark(largest, vectors(&self.h));
        // SAFETY: the check has accepted the matrix, and RHO is its row weight.
        let (rounds, failing) = unsafe {
            rounds.run::<K, RHO>(&self.h, self.limit, largest, &mut cells.x, &mut cells.z)
        };
        let changed = cells.changed(n);
        out.extend(if failing == 0 {
            &b" decoded "[..]
        } else {
            b" failed "
        });
        decimal(usize::from(rounds), out);
        out.push(b' ');
        decimal(failing, out);
        out.push(b' ');
        decimal(usize::from(changed), out);
        out.push(b' ');
        hexadecimal(&cells.z, n, out);
        out.push(b'\n');
    }

    /// Decodes all blocks, with levels of a byte if they have room there.
    fn blocks<R: Rounds, const RHO: usize>(
        &self,
        source: &mut Source<impl Read>,
        out: &mut Vec<u8>,
        to: &mut impl Write,
    ) {
        match self.quantiser.largest {
            ..=127 => self.blocks_kept::<R, u8, RHO>(source, out, to),
            _ => self.blocks_kept::<R, u16, RHO>(source, out, to),
        }
    }

    /// A function of its own for each: where one had both, the code for bytes came out a tenth slower.
    #[inline(never)]
    fn blocks_kept<R: Rounds, K: Kept, const RHO: usize>(
        &self,
        source: &mut Source<impl Read>,
        out: &mut Vec<u8>,
        to: &mut impl Write,
    ) {
        let mut cells = Cells {
            x: [K::of(0); WIDTH],
            z: [0; WIDTH],
            marks: [0; WIDTH],
        };
        // SAFETY: the check has accepted the matrix.
        let mut rounds = unsafe { R::of(&self.h) };
        let bytes = 4 * usize::from(self.h.n);
        for number in 0..MOST_BLOCKS {
            match source.fill(bytes) {
                0 => return,
                count if count < bytes => {
                    out.extend(b"short\n");
                    return;
                }
                _ => {
                    let block = source.take(bytes);
                    self.block::<R, K, RHO>(&mut rounds, &mut cells, number, block, out);
                    if out.len() > LINES - 512 {
                        to.write_all(out).expect("standard output");
                        out.clear();
                    }
                }
            }
        }
    }
}

/// A number below 65,536 in decimal.
fn decimal(number: usize, out: &mut Vec<u8>) {
    let mut digits = [0; 5];
    let (mut rest, mut at) = (number, 5);
    loop {
        at -= 1;
        digits[at] = b'0' + (rest % 10) as u8;
        rest /= 10;
        if rest == 0 {
            break;
        }
    }
    out.extend(&digits[at..]);
}

/// The bits packed eight to a byte, two digits a byte. Places beyond n are 0.
fn hexadecimal(z: &[u8; WIDTH], n: usize, out: &mut Vec<u8>) {
    const DIGITS: &[u8; 16] = b"0123456789abcdef";
    let mut digits = [0; WIDTH / 4];
    let bytes = n.div_ceil(8);
    for (two, eight) in digits
        .chunks_exact_mut(2)
        .zip(z.chunks_exact(8))
        .take(bytes)
    {
        let byte = packed(eight.try_into().unwrap());
        two.copy_from_slice(&[DIGITS[byte >> 4], DIGITS[byte & 15]]);
    }
    out.extend(&digits[..2 * bytes]);
}

/// Eight bits in eight bytes, the first in the highest place.
fn packed(eight: [u8; 8]) -> usize {
    let spread = u64::from_le_bytes(eight).wrapping_mul(0x8040_2010_0804_0201);
    (spread >> 56) as usize
}

/// Prints what the program prints for an input.
pub fn program<R: Rounds>(input: impl Read, mut output: impl Write) {
    let mut out = Vec::with_capacity(LINES);
    out.extend(HEADING);
    lines::<R>(input, &mut out, &mut output);
    output.write_all(&out).expect("standard output");
}

/// The same, with a rest of the lines left in `out`.
fn lines<R: Rounds>(input: impl Read, out: &mut Vec<u8>, output: &mut impl Write) {
    let mut source = Source::new(input);
    if source.fill(8) < 8 {
        out.extend(b"short\n");
        return;
    }
    let sizes = numbers(source.take(8));
    let (m, rho) = (usize::from(sizes[1]), usize::from(sizes[2]));
    let mut h = Matrix {
        n: sizes[0],
        m: sizes[1],
        rho: sizes[2],
        gamma: sizes[3],
        list: Vec::new(),
    };
    // With an empty list the check can say no more than 1 or 2.
    if optimised::check(&h).is_err_and(|refusal| refusal.number == 1) {
        out.extend(b"refused 1 0\n");
        return;
    }
    let head = 2 * m * rho + 7;
    if source.fill(head) < head {
        out.extend(b"short\n");
        return;
    }
    h.list = numbers(source.take(2 * m * rho));
    let setting = source.take(7);
    let (bits, limit, kind) = (setting[0], setting[1], setting[2]);
    let step = f32::from_le_bytes(setting[3..].try_into().unwrap());
    if let Err(refusal) = optimised::check(&h) {
        out.extend(b"refused ");
        decimal(usize::from(refusal.number), out);
        out.push(b' ');
        decimal(usize::from(refusal.place), out);
        out.push(b'\n');
        return;
    }
    let Some(quantiser) = Quantiser::new(bits, kind, step) else {
        out.extend(b"refused 6 0\n");
        return;
    };
    let run = Run {
        h,
        quantiser,
        limit,
    };
    macro_rules! for_each_weight {
        ($($weight:literal)*) => {
            match rho {
                $($weight => run.blocks::<R, $weight>(&mut source, out, output),)*
                _ => unreachable!("the check has accepted the row weight"),
            }
        };
    }
    for_each_weight!(2 3 4 5 6 7 8 9 10 11 12 13 14 15 16 17 18 19 20 21 22 23 24 25 26 27 28 29 30 31 32);
}

/// The program on standard input and output, without the buffers of Rust's own.
pub fn on_standard_streams<R: Rounds>() {
    // SAFETY: the two are open as long as the program runs, and are not closed here.
    let [input, output] = [0, 1].map(|fd| ManuallyDrop::new(unsafe { File::from_raw_fd(fd) }));
    program::<R>(&*input, &*output);
}

/// 16-bit numbers, low byte first.
fn numbers(bytes: &[u8]) -> Vec<u16> {
    bytes
        .chunks_exact(2)
        .map(|two| u16::from_le_bytes(two.try_into().unwrap()))
        .collect()
}

#[cfg(test)]
mod tests {
    use super::{Quantiser, WIDTH};
    use generator::{settings, Random};
    use reference::{hard_bit, largest_level, level};

    /// Every float beside a half-way, for steps of all kinds.
    #[test]
    fn levels_are_the_references() {
        let mut random = Random::new(31);
        let mut steps = vec![
            2.0_f32.powi(-20),
            0.1,
            1.0 / 3.0,
            0.5,
            1.0,
            127.0,
            1_048_576.0,
        ];
        steps.extend((0..40).map(|_| settings::some_step(&mut random)));
        for step in steps {
            for bits in 2..=12 {
                for setting in [
                    settings::level_step(bits, 0, step),
                    settings::full_scale(bits, 0, step),
                ] {
                    let largest = largest_level(bits);
                    let gain = if setting.kind == 0 { 1 } else { largest };
                    for k in 1..=largest + 1 {
                        let half_way = f64::from(2 * k - 1) * f64::from(step) / f64::from(2 * gain);
                        let near = (half_way as f32).to_bits();
                        let samples: Vec<f32> = (near - 2..=near + 2)
                            .flat_map(|bits| [f32::from_bits(bits), -f32::from_bits(bits)])
                            .collect();
                        compare(&setting, &samples);
                    }
                }
            }
        }
        let ends = [
            0.0,
            -0.0,
            f32::from_bits(1),
            -f32::from_bits(1),
            f32::MAX,
            f32::MIN,
        ];
        for _ in 0..100 {
            compare(&settings::some(&mut random), &ends);
        }
    }

    fn compare(setting: &reference::Setting, samples: &[f32]) {
        let quantiser = Quantiser::new(setting.bits as u8, setting.kind as u8, setting.step);
        let bytes: Vec<u8> = samples.iter().flat_map(|y| y.to_le_bytes()).collect();
        let (mut x, mut z) = ([0_u16; WIDTH], [0; WIDTH]);
        let quantiser = quantiser.expect("the setting is in range");
        assert_eq!(quantiser.run(&bytes, &mut x, &mut z), Ok(()));
        for (at, &sample) in samples.iter().enumerate() {
            let biased = level(setting, sample) + largest_level(setting.bits);
            assert_eq!(i32::from(x[at]), biased, "{sample:e}, {setting:?}");
            assert_eq!(z[at] == 1, hard_bit(sample), "{sample:e}");
        }
    }
}
