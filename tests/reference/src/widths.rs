//! Document 02, card 7: "Old stored levels can be brought over and, where they lie within −127 to 127,
//! taken back, each level the same number."

use crate::Refusal;

/// A place has 16 bits: so many levels are taken back in one call.
const MOST_LEVELS: usize = 65_536;

/// "Old stored levels can be brought over": every number of eight bits. A shorter output is 7; cells
/// beyond the first needed ones stay.
pub fn widen(old: &[i8], levels: &mut [i16]) -> Result<(), Refusal> {
    if levels.len() < old.len() {
        return Err(Refusal::plain(7));
    }
    for (at, &number) in old.iter().enumerate() {
        levels[at] = i16::from(number);
    }
    Ok(())
}

/// "where they lie within −127 to 127, taken back": 7 for more levels than a place can name and for a
/// shorter output; then "new refusal 13, a level that doesn't fit when taken back, has its first index
/// as place and follows 7."
pub fn narrow(levels: &[i16], old: &mut [i8]) -> Result<(), Refusal> {
    if levels.len() > MOST_LEVELS || old.len() < levels.len() {
        return Err(Refusal::plain(7));
    }
    for (index, &level) in levels.iter().enumerate() {
        if !(-127..=127).contains(&level) {
            return Err(Refusal::at(13, index));
        }
    }
    for (at, &level) in levels.iter().enumerate() {
        old[at] = i8::try_from(level).expect("within −127 to 127");
    }
    Ok(())
}
