use crate::answer::positions_that_differ;
use crate::word::spare_place_set;
use crate::{byte_count, check, pack, unpack, Answer, Matrix, Outcome, Refusal};

/// "A check that has an odd number fails."
fn fails(h: &Matrix, z: &[bool], i: usize) -> bool {
    h.columns(i).filter(|&c| z[c]).count() % 2 == 1
}

/// How many checks of the word fail.
pub fn failing_checks(h: &Matrix, z: &[bool]) -> usize {
    (0..usize::from(h.m)).filter(|&i| fails(h, z, i)).count()
}

/// Card 2: "A bit is flipped when more than half of its own checks fail". "A tie keeps the bit."
fn is_flipped(h: &Matrix, z: &[bool], j: usize) -> bool {
    let own = h.checks_of(j);
    let failing = own.iter().filter(|&&i| fails(h, z, i)).count();
    2 * failing > own.len()
}

/// "7: [..] a received word not exactly its bytes, or a written buffer shorter than needed."
pub(crate) fn lengths(h: &Matrix, received: &[u8], written: Option<&[u8]>) -> Result<(), Refusal> {
    let needed = byte_count(h.n);
    if received.len() != needed || written.is_some_and(|word| word.len() < needed) {
        return Err(Refusal::plain(7));
    }
    Ok(())
}

/// The bits of a received word of the right length, or refusal 9.
pub(crate) fn received_bits(h: &Matrix, received: &[u8]) -> Result<Vec<bool>, Refusal> {
    if spare_place_set(h.n, received) {
        return Err(Refusal::plain(9));
    }
    Ok(unpack(h.n, received))
}

/// "a count of failing checks in a received word": refusals 1 to 5, 7 and 9.
pub fn failing(h: &Matrix, received: &[u8]) -> Result<usize, Refusal> {
    check(h)?;
    failing_accepted(h, received)
}

/// The same for a matrix that `check` has accepted.
pub fn failing_accepted(h: &Matrix, received: &[u8]) -> Result<usize, Refusal> {
    lengths(h, received, None)?;
    let z = received_bits(h, received)?;
    Ok(failing_checks(h, &z))
}

/// "One-step voting": refusals 1 to 5, 7 and 9. "No refused call writes to a buffer."
pub fn one_step(h: &Matrix, received: &[u8], word: &mut [u8]) -> Result<Answer, Refusal> {
    check(h)?;
    one_step_accepted(h, received, word)
}

/// The same for a matrix that `check` has accepted.
pub fn one_step_accepted(h: &Matrix, received: &[u8], word: &mut [u8]) -> Result<Answer, Refusal> {
    lengths(h, received, Some(word))?;
    let received = received_bits(h, received)?;

    // "1. If no check of the received word fails, the word is decoded as it is, rounds 0."
    let mut z = received.clone();
    let mut rounds = 0;
    if failing_checks(h, &received) != 0 {
        // "2. Else each bit [..] is flipped, all at once from the same received word. [..]
        // Rounds is 1."
        for j in 0..usize::from(h.n) {
            if is_flipped(h, &received, j) {
                z[j] = !received[j];
            }
        }
        rounds = 1;
    }

    // "3. If no check of the new word fails it is decoded, else failed."
    let failing = failing_checks(h, &z);
    let outcome = if failing == 0 {
        Outcome::Decoded
    } else {
        Outcome::Failed
    };
    let changed = positions_that_differ(&z, &received);

    // "The word is written in either outcome." "Bytes [..] beyond the first needed ones stay."
    word[..byte_count(h.n)].copy_from_slice(&pack(&z));
    Ok(Answer {
        outcome,
        rounds,
        failing,
        changed,
    })
}
