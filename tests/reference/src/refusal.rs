/// "Refused for the input": "Each has a place, 0 unless named." Document 02 adds 10, "an index that
/// is not exactly the matrix's own or a buffer too short to build it in", 11, "bytes that are not a
/// sheet", and 12, "Z is 0 or no sheet with that Z describes the list", whose places are 0; and 13, "a
/// level that doesn't fit when taken back", whose place is "its first index".
#[derive(Clone, Copy, Debug, PartialEq, Eq)]
pub struct Refusal {
    pub number: u16,
    pub place: u16,
}

impl Refusal {
    /// A refusal whose place is not named.
    pub fn plain(number: u16) -> Refusal {
        Refusal { number, place: 0 }
    }

    /// A refusal with its place. Every place is an index below 1,023 × 32, or of at most 65,536 levels.
    pub fn at(number: u16, place: usize) -> Refusal {
        Refusal {
            number,
            place: u16::try_from(place).expect("a place fits 16 bits"),
        }
    }
}
