//! The places at which two runs of bytes of one length differ, in plain Rust: byte by byte, and by words
//! of eight bytes. The byte-by-byte loops differ in the width of their sum alone: the compiler takes
//! several bytes at a time where it can, and how many depends on that.
//!
//! No bounds checks in the loops, and no inlining, as the library's count is a call too.

/// Byte by byte, with a sum of 64 bits, as the library's loop over words has.
#[inline(never)]
pub fn bytes_64(a: &[u8], b: &[u8]) -> u64 {
    a.iter()
        .zip(b)
        .map(|(x, y)| u64::from((x ^ y).count_ones()))
        .sum()
}

/// The same with a sum of 32 bits.
#[inline(never)]
pub fn bytes_32(a: &[u8], b: &[u8]) -> u32 {
    a.iter().zip(b).map(|(x, y)| (x ^ y).count_ones()).sum()
}

/// The same with a sum of 16 bits, as the library's loop had before document 02's card 4.
#[inline(never)]
pub fn bytes_16(a: &[u8], b: &[u8]) -> u16 {
    a.iter()
        .zip(b)
        .map(|(x, y)| (x ^ y).count_ones() as u16)
        .sum()
}

/// The word that eight bytes are.
fn word(bytes: &[u8]) -> u64 {
    u64::from_le_bytes(bytes.try_into().expect("eight bytes"))
}

/// By words of eight bytes, the last bytes singly.
#[inline(never)]
pub fn words(a: &[u8], b: &[u8]) -> u64 {
    let (a, b) = (a.chunks_exact(8), b.chunks_exact(8));
    let last = a.remainder().iter().zip(b.remainder());
    let singly: u64 = last.map(|(x, y)| u64::from((x ^ y).count_ones())).sum();
    let words = a.zip(b);
    singly
        + words
            .map(|(x, y)| u64::from((word(x) ^ word(y)).count_ones()))
            .sum::<u64>()
}
