use crate::matrix::sizes_fit;
use crate::quantiser::check_setting;
use crate::{byte_count, check, iterative_accepted, Answer, Matrix, Outcome, Refusal, Setting};

/// "Blocks are decoded by iterative voting; at most 65,535 are read, then the run ends."
const MOST_BLOCKS: usize = 65_535;

/// What is left of standard input.
struct Input<'a>(&'a [u8]);

/// "Input that ends before the step is whole, or inside a block".
struct Short;

impl<'a> Input<'a> {
    fn take(&mut self, count: usize) -> Result<&'a [u8], Short> {
        if self.0.len() < count {
            return Err(Short);
        }
        let (front, rest) = self.0.split_at(count);
        self.0 = rest;
        Ok(front)
    }

    fn byte(&mut self) -> Result<u8, Short> {
        Ok(self.take(1)?[0])
    }

    /// "16-bit numbers, low byte first".
    fn number(&mut self) -> Result<u16, Short> {
        let bytes = self.take(2)?;
        Ok(u16::from(bytes[0]) + 256 * u16::from(bytes[1]))
    }

    /// "single-format floats, low byte first."
    fn float(&mut self) -> Result<f32, Short> {
        let bytes = self.take(4)?;
        let mut bits = 0;
        for &byte in bytes.iter().rev() {
            bits = 256 * bits + u32::from(byte);
        }
        Ok(f32::from_bits(bits))
    }
}

/// Why a run ends before its blocks.
enum End {
    Short,
    Refused(Refusal),
}

impl From<Short> for End {
    fn from(_: Short) -> End {
        End::Short
    }
}

impl From<Refusal> for End {
    fn from(refusal: Refusal) -> End {
        End::Refused(refusal)
    }
}

/// "n, m, ρ, γ and the list as 16-bit numbers [..]; one byte each for b, round limit and step
/// kind [..]; the step". "1 is asked before the list is read, the rest after the step."
fn head(input: &mut Input) -> Result<(Matrix, Setting), End> {
    let mut h = Matrix {
        n: input.number()?,
        m: input.number()?,
        rho: input.number()?,
        gamma: input.number()?,
        list: Vec::new(),
    };
    if !sizes_fit(&h) {
        return Err(Refusal::plain(1).into());
    }
    for _ in 0..usize::from(h.m) * usize::from(h.rho) {
        h.list.push(input.number()?);
    }
    let setting = Setting {
        bits: input.byte()?.into(),
        limit: input.byte()?.into(),
        kind: input.byte()?.into(),
        step: input.float()?,
    };
    check(&h)?;
    check_setting(&setting)?;
    Ok((h, setting))
}

/// "word in lower-case hexadecimal without gaps".
fn hexadecimal(word: &[u8]) -> String {
    word.iter().map(|byte| format!("{byte:02x}")).collect()
}

/// "block number from 0 (refused blocks count), outcome, rounds, failing, changed, word [..];
/// numbers are decimal, fields one space apart." "A block refused by 8 prints its number,
/// "refused", 8, place."
fn block_line(number: usize, answer: Result<Answer, Refusal>, word: &[u8]) -> String {
    match answer {
        Ok(answer) => {
            let outcome = match answer.outcome {
                Outcome::Decoded => "decoded",
                Outcome::Failed => "failed",
                Outcome::Working => unreachable!("a whole call is decoded or failed"),
            };
            format!(
                "{number} {outcome} {} {} {} {}\n",
                answer.rounds,
                answer.failing,
                answer.changed,
                hexadecimal(word)
            )
        }
        Err(refusal) => format!("{number} refused {} {}\n", refusal.number, refusal.place),
    }
}

/// The program: what it prints for an input.
pub fn program(input: &[u8]) -> Vec<u8> {
    // "The heading line is always printed first".
    let mut output = String::from("block end rounds failing changed word\n");
    let mut input = Input(input);
    match head(&mut input) {
        Ok((h, setting)) => blocks(&h, &setting, &mut input, &mut output),
        // "A refusal by 1 to 6 prints "refused", number and place, and ends the run".
        Err(End::Refused(refusal)) => {
            output += &format!("refused {} {}\n", refusal.number, refusal.place);
        }
        // "Input that ends before the step is whole, or inside a block, prints "short" last."
        Err(End::Short) => output += "short\n",
    }
    output.into_bytes()
}

/// "then blocks of n samples".
fn blocks(h: &Matrix, setting: &Setting, input: &mut Input, output: &mut String) {
    let n = usize::from(h.n);
    let mut number = 0;
    while number < MOST_BLOCKS && !input.0.is_empty() {
        let Ok(block) = input.take(4 * n) else {
            *output += "short\n";
            return;
        };
        let mut block = Input(block);
        let samples: Vec<f32> = (0..n).map_while(|_| block.float().ok()).collect();
        let mut word = vec![0; byte_count(h.n)];
        let mut levels = vec![0; n];
        let answer = iterative_accepted(h, setting, &samples, &mut word, &mut levels);
        *output += &block_line(number, answer, &word);
        number += 1;
    }
}
