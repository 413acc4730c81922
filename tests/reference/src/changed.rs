use crate::answer::positions_that_differ;
use crate::word::places;
use crate::Refusal;

/// The bytes of the longest word, of 1,023 bits.
const MOST_BYTES: usize = 128;

/// Card 4: "for any two runs of bytes of equal length, from none to 128, [..] the number of places at
/// which they differ", place by place. Runs of unlike lengths and longer ones are refused by 7.
pub fn changed(a: &[u8], b: &[u8]) -> Result<usize, Refusal> {
    if a.len() != b.len() || a.len() > MOST_BYTES {
        return Err(Refusal::plain(7));
    }
    Ok(positions_that_differ(&places(a), &places(b)))
}
