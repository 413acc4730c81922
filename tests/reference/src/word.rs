/// "in (n + 7) / 8 bytes rounded down."
pub fn byte_count(n: u16) -> usize {
    (usize::from(n) + 7) / 8
}

/// Every place of the bytes: "eight to a byte, bit 0 in the highest place of byte 0".
pub(crate) fn places(bytes: &[u8]) -> Vec<bool> {
    let mut places = Vec::new();
    for byte in bytes {
        for weight in [128, 64, 32, 16, 8, 4, 2, 1] {
            places.push(byte / weight % 2 == 1);
        }
    }
    places
}

/// "A word is n bits": the first n places of its bytes.
pub fn unpack(n: u16, bytes: &[u8]) -> Vec<bool> {
    places(bytes)[..usize::from(n)].to_vec()
}

/// The bytes of a word. "The spare low places of the last byte are zero."
pub fn pack(word: &[bool]) -> Vec<u8> {
    let mut bytes = Vec::new();
    for eight in word.chunks(8) {
        let mut byte = 0;
        for (bit, weight) in eight.iter().zip([128, 64, 32, 16, 8, 4, 2, 1]) {
            if *bit {
                byte += weight;
            }
        }
        bytes.push(byte);
    }
    bytes
}

/// "9: a spare place set in a received word."
pub(crate) fn spare_place_set(n: u16, bytes: &[u8]) -> bool {
    places(bytes)[usize::from(n)..].contains(&true)
}
