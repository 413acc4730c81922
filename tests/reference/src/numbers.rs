//! 16-bit numbers in bytes, "low byte first".

/// The numbers of the bytes. A last byte without a second one is no number.
pub(crate) fn numbers(bytes: &[u8]) -> Vec<u16> {
    bytes
        .chunks_exact(2)
        .map(|pair| u16::from(pair[0]) + 256 * u16::from(pair[1]))
        .collect()
}

/// The bytes of a number.
pub(crate) fn number_bytes(number: usize) -> [u8; 2] {
    assert!(number < 65_536);
    [(number % 256) as u8, (number / 256) as u8]
}
