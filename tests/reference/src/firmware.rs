//! Document 02, cards 3 and 7: the iterative decoder as the firmware calls it, over numbers and bytes.

use crate::matrix::sizes_fit;
use crate::numbers::{number_bytes, numbers};
use crate::quantiser::check_setting;
use crate::{byte_count, check, iterative_accepted, Answer, Matrix, Outcome, Refusal, Setting};

/// What a call reads. Nothing here is known to hold.
///
/// "The list comes as low-byte-first 16-bit numbers, samples as low-byte-first single floats, the
/// step as a kind (0 level step, 1 full scale, any other refusal 6) and its 32 bits".
#[derive(Clone, Copy, Debug)]
pub struct Call<'a> {
    pub n: u16,
    pub m: u16,
    pub rho: u16,
    pub gamma: u16,
    pub list: &'a [u8],
    pub bits: u16,
    pub limit: u16,
    pub kind: u16,
    pub step: u32,
    pub samples: &'a [u8],
}

/// "An eight-byte report".
const REPORT_BYTES: usize = 8;

/// Card 7: "two bytes a level".
const LEVEL_BYTES: usize = 2;

/// "low-byte-first single floats". The last bytes, where fewer than four, are no sample.
fn samples(bytes: &[u8]) -> Vec<f32> {
    let float = |four: &[u8]| {
        let mut bits = 0;
        for &byte in four.iter().rev() {
            bits = 256 * bits + u32::from(byte);
        }
        f32::from_bits(bits)
    };
    bytes.chunks_exact(4).map(float).collect()
}

/// "A wrong byte length is 2 for the list": the bytes are counted and not the entries, so an odd
/// length is 2. Refusals 1 to 5 else as in the matrix check, places counted in entries.
pub fn check_bytes(call: &Call) -> Result<Matrix, Refusal> {
    let h = Matrix {
        n: call.n,
        m: call.m,
        rho: call.rho,
        gamma: call.gamma,
        list: numbers(call.list),
    };
    if !sizes_fit(&h) {
        return Err(Refusal::plain(1));
    }
    if call.list.len() != 2 * usize::from(h.m) * usize::from(h.rho) {
        return Err(Refusal::plain(2));
    }
    check(&h)?;
    Ok(h)
}

/// "A wrong byte length is 2 for the list, else 7; written buffers may be longer."
fn lengths_fit(call: &Call, word: &[u8], levels: &[u8], report: &[u8]) -> Result<(), Refusal> {
    let n = usize::from(call.n);
    if call.samples.len() != 4 * n
        || word.len() < byte_count(call.n)
        || levels.len() < LEVEL_BYTES * n
        || report.len() < REPORT_BYTES
    {
        return Err(Refusal::plain(7));
    }
    Ok(())
}

/// "levels leave as one byte each in two's complement." Card 7: "The C face writes two bytes a level,
/// low byte first."
fn level_bytes(level: i16) -> [u8; LEVEL_BYTES] {
    let level = i32::from(level);
    let number = if level < 0 { 65_536 + level } else { level };
    number_bytes(number as usize)
}

/// "takes rounds, failing, changed and a zero, 16 bits each, low byte first."
fn report_bytes(answer: &Answer) -> [u8; REPORT_BYTES] {
    let numbers = [answer.rounds, answer.failing, answer.changed, 0];
    let bytes = numbers.map(number_bytes).concat();
    bytes.try_into().expect("two bytes a number")
}

/// Refusals 6 to 8, then iterative voting. Bytes beyond the first needed ones stay.
fn decode_accepted(
    h: &Matrix,
    call: &Call,
    word: &mut [u8],
    levels: &mut [u8],
    report: &mut [u8],
) -> Result<Outcome, Refusal> {
    let setting = Setting {
        bits: call.bits,
        limit: call.limit,
        kind: call.kind,
        step: f32::from_bits(call.step),
    };
    check_setting(&setting)?;
    lengths_fit(call, word, levels, report)?;
    let mut own = vec![0; usize::from(h.n)];
    let answer = iterative_accepted(h, &setting, &samples(call.samples), word, &mut own)?;
    for (bytes, &level) in levels.chunks_exact_mut(LEVEL_BYTES).zip(&own) {
        bytes.copy_from_slice(&level_bytes(level));
    }
    report[..REPORT_BYTES].copy_from_slice(&report_bytes(&answer));
    Ok(answer.outcome)
}

/// "The returned 32-bit number is 0 for decoded, 1 for failed, else refusal number × 65,536 +
/// place."
fn returned(answer: Result<Outcome, Refusal>) -> u32 {
    match answer {
        Ok(Outcome::Decoded) => 0,
        Ok(Outcome::Failed) => 1,
        Ok(Outcome::Working) => unreachable!("a whole call is decoded or failed"),
        Err(refusal) => u32::from(refusal.number) * 65_536 + u32::from(refusal.place),
    }
}

/// "The routine is handed to the firmware as a C function over numbers and byte slices."
///
/// Word, levels and report are written whether decoded or failed. "No refused call writes to a
/// buffer."
pub fn decode(call: &Call, word: &mut [u8], levels: &mut [u8], report: &mut [u8]) -> u32 {
    decode_checked(&check_bytes(call), call, word, levels, report)
}

/// The same with the verdict of `check_bytes` at hand.
pub fn decode_checked(
    verdict: &Result<Matrix, Refusal>,
    call: &Call,
    word: &mut [u8],
    levels: &mut [u8],
    report: &mut [u8],
) -> u32 {
    returned(match verdict {
        Ok(h) => decode_accepted(h, call, word, levels, report),
        Err(refusal) => Err(*refusal),
    })
}
