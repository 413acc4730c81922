//! A file of received words, one a line, for one-step voting: hexadecimal digits, with or without
//! `x` or `0x` before them, or zeros and ones.

use crate::amount::counted;
use crate::fault::Fault;
use crate::lines::{refuse_percent, without_comment, Lines};
use crate::program::bytes;

pub struct WordsFile {
    lines: Lines,
    n: usize,
    header: bool,
}

impl WordsFile {
    pub fn open(file: &str, n: u16, header: bool) -> Result<WordsFile, Fault> {
        Ok(WordsFile {
            lines: Lines::open(file)?,
            n: usize::from(n),
            header,
        })
    }

    /// The next word and its line; none at the end.
    pub fn next_word(&mut self) -> Result<Option<(usize, Vec<u8>)>, Fault> {
        while self.lines.advance()? {
            let place = self.lines.place();
            let line = without_comment(self.lines.text());
            if line.trim().is_empty() || std::mem::take(&mut self.header) {
                continue;
            }
            refuse_percent(place, line)?;
            return match word(self.n, line) {
                Ok(word) => Ok(Some((place.line, word))),
                Err((what, remedy)) => Err(place.fault(what, remedy)),
            };
        }
        Ok(None)
    }

    /// How much of the file has been read, where that is known.
    pub fn share(&self) -> Option<f64> {
        self.lines.share()
    }
}

/// The bytes of a word of n bits, or what is wrong with its line.
fn word(n: usize, line: &str) -> Result<Vec<u8>, (String, String)> {
    let written: String = line.chars().filter(|c| !" \t,;\"".contains(*c)).collect();
    let marked = written.strip_prefix("0x").or(written.strip_prefix('x'));
    let digits = marked.unwrap_or(&written);
    let is_bits = written.len() == n && written.bytes().all(|b| b == b'0' || b == b'1');
    let is_digits = digits.len() == 2 * n.div_ceil(8);
    let remedy = format!(
        "write {n} zeros and ones, or {} hexadecimal digits with x before them",
        2 * n.div_ceil(8)
    );
    let divided = written != line.trim();
    if is_bits && is_digits && marked.is_none() && !divided {
        let remedy = "write x before digits, or a blank between bits";
        return Err((
            format!("`{written}` could be bits or digits"),
            remedy.into(),
        ));
    }
    if is_bits && marked.is_none() {
        return Ok(packed(written.as_bytes()));
    }
    let found = bytes(digits).filter(|_| is_digits);
    found.ok_or_else(|| {
        let what = format!(
            "this is no word of {n} bits: it has {}",
            counted(digits.len(), "character")
        );
        (what, remedy)
    })
}

/// Zeros and ones eight to a byte, the first in the highest place.
fn packed(bits: &[u8]) -> Vec<u8> {
    let byte = |eight: &[u8]| {
        let bits = eight.iter().enumerate();
        bits.fold(0, |byte, (at, bit)| byte | (bit & 1) << (7 - at))
    };
    bits.chunks(8).map(byte).collect()
}

#[cfg(test)]
mod tests {
    use super::word;

    #[test]
    fn words_of_seven_bits() {
        for line in [
            "2e",
            "2E",
            "x2e",
            "0x2e",
            "0010111",
            "0 0 1 0 1 1 1",
            "0,0,1,0,1,1,1",
        ] {
            assert_eq!(word(7, line), Ok(vec![0x2e]), "{line}");
        }
        assert_eq!(word(9, "000000001"), Ok(vec![0x00, 0x80]));
        for line in ["2", "2e00", "0010112", "x0010111", "xyz"] {
            assert!(word(7, line).is_err(), "{line}");
        }
        assert!(word(2, "10").is_err());
        assert_eq!(word(2, "x80"), Ok(vec![0x80]));
        assert_eq!(word(2, "1 0"), Ok(vec![0x80]));
    }
}
