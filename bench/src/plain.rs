//! The program in the incremental form, as one writes it in Rust without unsafe code and without
//! making it anew for each weight: parities, a byte each, and votes are kept from round to round.
//! When a bit flips the parities of its rows turn over. A row that then begins to fail adds 1 at its
//! columns, and one that no longer fails takes 1 away; or all failing rows add anew, where these are
//! fewer.

use crate::optimised;
use reference::{Matrix, Refusal};
use std::io::{self, BufWriter, Read, Write};

const MOST_BLOCKS: usize = 65_535;

/// A float's magnitude: digits × 2^shift, in units of the smallest one.
fn magnitude(float: f32) -> (u64, u32) {
    let bits = float.to_bits();
    let (field, digits) = (bits >> 23 & 0xFF, u64::from(bits & 0x7F_FFFF));
    match field {
        0 => (digits, 0),
        _ => (digits | 0x80_0000, field - 1),
    }
}

/// A quantiser's numbers.
struct Quantiser {
    gain: u64,
    largest: i16,
    step: (u64, u32),
}

impl Quantiser {
    fn new(bits: u8, kind: u8, step: f32) -> Option<Quantiser> {
        let in_range = (1.0 / 1_048_576.0..=1_048_576.0).contains(&step);
        if !(2..=12).contains(&bits) || kind > 1 || !in_range {
            return None;
        }
        let largest = (1 << (bits - 1)) - 1;
        Some(Quantiser {
            gain: if kind == 0 { 1 } else { largest as u64 },
            largest,
            step: magnitude(step),
        })
    }

    /// The nearest level of a finite sample, half-ways away from 0. Beyond 27 places of difference
    /// the quotient is 0 or above the largest level, as it is at 27.
    fn level(&self, sample: f32) -> i16 {
        let (digits, shift) = magnitude(sample);
        let (step_digits, step_shift) = self.step;
        let dividend = (self.gain * digits) << shift.saturating_sub(step_shift).min(27);
        let divisor = step_digits << step_shift.saturating_sub(shift).min(27);
        let quotient = (2 * dividend + divisor) / (2 * divisor);
        let level = quotient.min(self.largest as u64) as i16;
        if sample.is_sign_negative() {
            -level
        } else {
            level
        }
    }
}

/// The columns of each row, the rows of each column and how many these are.
struct Code {
    h: Matrix,
    rows_of: Vec<Vec<u16>>,
    weights: Vec<i16>,
}

impl Code {
    fn of(h: Matrix) -> Code {
        let mut rows_of = vec![Vec::new(); usize::from(h.n)];
        for (i, row) in h.list.chunks_exact(usize::from(h.rho)).enumerate() {
            for &column in row {
                rows_of[usize::from(column)].push(i as u16);
            }
        }
        let weights = rows_of.iter().map(|rows| rows.len() as i16).collect();
        Code {
            h,
            rows_of,
            weights,
        }
    }

    /// The rows, as their columns.
    fn rows(&self) -> impl Iterator<Item = &[u16]> {
        self.h.list.chunks_exact(usize::from(self.h.rho))
    }
}

/// 1 where an odd number of the bits at these columns are 1.
fn parity(row: &[u16], bits: &[u8]) -> u8 {
    row.iter().fold(0, |sum, &j| sum ^ bits[usize::from(j)])
}

/// What a block is while it is decoded.
struct Block {
    levels: Vec<i16>,
    bits: Vec<u8>,
    /// For each row 1 where it fails.
    parities: Vec<u8>,
    /// For each column how many of its rows fail.
    votes: Vec<u8>,
}

impl Block {
    /// With the parities of all rows and the votes of those that fail.
    fn open(code: &Code, quantiser: &Quantiser, samples: &[f32]) -> Block {
        let bits: Vec<u8> = samples.iter().map(|&y| u8::from(y > 0.0)).collect();
        let mut block = Block {
            levels: samples.iter().map(|&y| quantiser.level(y)).collect(),
            parities: code.rows().map(|row| parity(row, &bits)).collect(),
            votes: vec![0; samples.len()],
            bits,
        };
        block.vote_anew(code);
        block
    }

    fn failing(&self) -> usize {
        self.parities
            .iter()
            .map(|&parity| usize::from(parity))
            .sum()
    }

    /// Turns over the parities of the rows of each bit that is another than before.
    fn flip(&mut self, code: &Code, before: &[u8]) {
        let bits = self.bits.iter().zip(before);
        for ((now, before), rows) in bits.zip(&code.rows_of) {
            if now != before {
                for &row in rows {
                    self.parities[usize::from(row)] ^= 1;
                }
            }
        }
    }

    /// All failing rows add 1 at their columns.
    fn vote_anew(&mut self, code: &Code) {
        self.votes.fill(0);
        for (row, &parity) in code.rows().zip(&self.parities) {
            if parity == 1 {
                for &column in row {
                    self.votes[usize::from(column)] += 1;
                }
            }
        }
    }

    /// Rows that fail and did not add 1 at their columns, those that did and do not take it away.
    fn vote_turned(&mut self, code: &Code, before: &[u8]) {
        let parities = self.parities.iter().zip(before);
        for (row, (now, before)) in code.rows().zip(parities) {
            if now > before {
                for &column in row {
                    self.votes[usize::from(column)] += 1;
                }
            } else if now < before {
                for &column in row {
                    self.votes[usize::from(column)] -= 1;
                }
            }
        }
    }

    /// Brings the votes up to the parities, from what these were before.
    fn vote(&mut self, code: &Code, before: &[u8]) {
        let parities = self.parities.iter().zip(before);
        let turned: usize = parities
            .map(|(now, before)| usize::from(now ^ before))
            .sum();
        if self.failing() <= turned {
            self.vote_anew(code);
        } else {
            self.vote_turned(code, before);
        }
    }

    /// A failing row speaks for the other bit, each other row for the bit that stands.
    fn update(&mut self, code: &Code, largest: i16) {
        let cells = self.levels.iter_mut().zip(&mut self.bits);
        for ((level, bit), (&votes, weight)) in cells.zip(self.votes.iter().zip(&code.weights)) {
            let e = 2 * i16::from(votes) - weight;
            *level = (*level + if *bit == 1 { -e } else { e }).clamp(-largest, largest);
            *bit = u8::from(*level > 0);
        }
    }

    fn round(&mut self, code: &Code, largest: i16) {
        let (bits, parities) = (self.bits.clone(), self.parities.clone());
        self.update(code, largest);
        self.flip(code, &bits);
        self.vote(code, &parities);
    }
}

/// The bits packed eight to a byte, two digits a byte.
fn hexadecimal(bits: &[u8]) -> Vec<u8> {
    const DIGITS: &[u8; 16] = b"0123456789abcdef";
    let byte = |eight: &[u8]| {
        let places = eight.iter().enumerate();
        places.fold(0, |byte, (k, bit)| byte | bit << (7 - k))
    };
    bits.chunks(8)
        .map(byte)
        .flat_map(|byte| [byte >> 4, byte & 15])
        .map(|digit| DIGITS[usize::from(digit)])
        .collect()
}

/// Decodes a block and prints what follows its number.
fn decode(
    code: &Code,
    quantiser: &Quantiser,
    limit: u8,
    samples: &[f32],
    out: &mut impl Write,
) -> io::Result<()> {
    if let Some(place) = samples.iter().position(|sample| !sample.is_finite()) {
        return writeln!(out, "refused 8 {place}");
    }
    let mut block = Block::open(code, quantiser, samples);
    let (opened, received) = (block.levels.clone(), block.bits.clone());
    let (mut rounds, mut failing) = (0, block.failing());
    while failing > 0 && rounds < limit {
        block.round(code, quantiser.largest);
        failing = block.failing();
        rounds += 1;
    }
    let bits = block.bits.iter().zip(&received).zip(&opened);
    let changed = bits
        .filter(|((now, before), &level)| level != 0 && now != before)
        .count();
    let outcome = if failing == 0 { "decoded" } else { "failed" };
    write!(out, "{outcome} {rounds} {failing} {changed} ")?;
    out.write_all(&hexadecimal(&block.bits))?;
    out.write_all(b"\n")
}

/// Why a run ends before its blocks.
enum End {
    Short,
    Refused(Refusal),
    Io(io::Error),
}

impl From<io::Error> for End {
    fn from(error: io::Error) -> End {
        match error.kind() {
            io::ErrorKind::UnexpectedEof => End::Short,
            _ => End::Io(error),
        }
    }
}

impl From<Refusal> for End {
    fn from(refusal: Refusal) -> End {
        End::Refused(refusal)
    }
}

fn numbers(input: &mut impl Read, count: usize) -> io::Result<Vec<u16>> {
    let mut bytes = vec![0; 2 * count];
    input.read_exact(&mut bytes)?;
    let pairs = bytes.chunks_exact(2);
    Ok(pairs
        .map(|two| u16::from_le_bytes([two[0], two[1]]))
        .collect())
}

/// Matrix, quantiser and limit.
fn head(input: &mut impl Read) -> Result<(Matrix, Quantiser, u8), End> {
    let sizes = numbers(input, 4)?;
    let mut h = Matrix {
        n: sizes[0],
        m: sizes[1],
        rho: sizes[2],
        gamma: sizes[3],
        list: Vec::new(),
    };
    // With an empty list the check can say no more than 1 or 2.
    if let Err(refusal) = optimised::check(&h) {
        if refusal.number == 1 {
            return Err(refusal.into());
        }
    }
    h.list = numbers(input, usize::from(h.m) * usize::from(h.rho))?;
    let mut setting = [0; 7];
    input.read_exact(&mut setting)?;
    optimised::check(&h)?;
    let [bits, limit, kind, step @ ..] = setting;
    let quantiser = Quantiser::new(bits, kind, f32::from_le_bytes(step));
    Ok((h, quantiser.ok_or(Refusal::plain(6))?, limit))
}

/// Prints what the program prints for an input.
pub fn program(mut input: impl Read, output: impl Write) -> io::Result<()> {
    let mut out = BufWriter::new(output);
    out.write_all(b"block end rounds failing changed word\n")?;
    let (h, quantiser, limit) = match head(&mut input) {
        Ok(head) => head,
        Err(End::Short) => {
            out.write_all(b"short\n")?;
            return out.flush();
        }
        Err(End::Refused(refusal)) => {
            writeln!(out, "refused {} {}", refusal.number, refusal.place)?;
            return out.flush();
        }
        Err(End::Io(error)) => return Err(error),
    };
    let code = Code::of(h);
    let length = 4 * usize::from(code.h.n);
    let mut bytes = Vec::with_capacity(length);
    for number in 0..MOST_BLOCKS {
        bytes.clear();
        let mut block = input.by_ref().take(length as u64);
        match block.read_to_end(&mut bytes)? {
            0 => break,
            count if count < length => {
                out.write_all(b"short\n")?;
                break;
            }
            _ => {}
        }
        let fours = bytes.chunks_exact(4);
        let samples: Vec<f32> = fours
            .map(|four| f32::from_le_bytes([four[0], four[1], four[2], four[3]]))
            .collect();
        write!(out, "{number} ")?;
        decode(&code, &quantiser, limit, &samples, &mut out)?;
    }
    out.flush()
}
