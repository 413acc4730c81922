//! A file read line by line, in memory that does not grow with it.

use crate::amount::thousands;
use crate::fault::{Fault, Place};
use crate::number;
use std::fs::File;
use std::io::{self, BufRead, BufReader, Read};

/// The longest line that is read, in bytes: 1,023 samples take some 20 thousand.
const LONGEST: u64 = 1 << 20;

/// The bytes by which a spreadsheet marks a file as UTF-8.
const MARK: &[u8] = b"\xEF\xBB\xBF";

/// A file's name as messages show it.
pub fn shown(file: &str) -> &str {
    match file {
        "-" => "standard input",
        _ => file,
    }
}

/// A reader of lines. What is no text is refused with what to do about it.
pub struct Lines {
    file: String,
    input: Box<dyn BufRead + Send>,
    text: String,
    number: usize,
    bytes: u64,
    size: Option<u64>,
}

impl Lines {
    /// A file, or standard input for `-`.
    pub fn open(file: &str) -> Result<Lines, Fault> {
        if file == "-" {
            return Ok(Lines::of(file, BufReader::new(io::stdin()), None));
        }
        let opened = File::open(file).map_err(|error| Fault::system(file, &error))?;
        let size = opened.metadata().ok().filter(|data| data.is_file());
        let input = BufReader::with_capacity(1 << 16, opened);
        Ok(Lines::of(file, input, size.map(|data| data.len())))
    }

    /// Lines from anything that can be read, under a name for messages.
    pub fn of(file: &str, input: impl BufRead + Send + 'static, size: Option<u64>) -> Lines {
        Lines {
            file: shown(file).into(),
            input: Box::new(input),
            text: String::new(),
            number: 0,
            bytes: 0,
            size,
        }
    }

    /// Goes on to the next line. False at the end.
    pub fn advance(&mut self) -> Result<bool, Fault> {
        let mut line = std::mem::take(&mut self.text).into_bytes();
        line.clear();
        let mut input = self.input.by_ref().take(LONGEST);
        let read = input.read_until(b'\n', &mut line);
        let read = read.map_err(|error| Fault::system(&self.file, &error))?;
        if read == 0 {
            return Ok(false);
        }
        self.number += 1;
        self.bytes += read as u64;
        self.text = self.checked(line)?;
        Ok(true)
    }

    /// The bytes of a line as text, without its end.
    fn checked(&self, mut line: Vec<u8>) -> Result<String, Fault> {
        if self.number == 1 && line.starts_with(MARK) {
            line.drain(..MARK.len());
        }
        let wide = [&b"\xFF\xFE"[..], b"\xFE\xFF"];
        let marked = self.number == 1 && wide.iter().any(|mark| line.starts_with(mark));
        if marked || line.contains(&0) {
            let remedy = "save it as UTF-8, or: iconv -f UTF-16 -t UTF-8 old > new";
            return Err(self.place().fault("this is UTF-16 text or no text", remedy));
        }
        let whole = line.last() == Some(&b'\n');
        if whole {
            line.pop();
        }
        if line.last() == Some(&b'\r') {
            line.pop();
        }
        if line.contains(&b'\r') {
            let remedy = "save it with line feeds, or: tr '\\r' '\\n' < old > new";
            let what = "its lines end with a carriage return alone";
            return Err(self.place().fault(what, remedy));
        }
        if !whole && line.len() as u64 >= LONGEST - 1 {
            let what = format!("this line is longer than {} bytes", thousands(LONGEST));
            let remedy = "is this the right file? Each block or row has a line of its own";
            return Err(self.place().fault(what, remedy));
        }
        String::from_utf8(line).map_err(|error| {
            let at = error.utf8_error().valid_up_to();
            let what = format!("byte {} of this line is no UTF-8 text", at + 1);
            self.place().fault(what, "save it as UTF-8")
        })
    }

    /// The line that was read last.
    pub fn text(&self) -> &str {
        &self.text
    }

    /// Where that line stands.
    pub fn place(&self) -> Place<'_> {
        Place {
            file: &self.file,
            line: self.number.max(1),
        }
    }

    /// How much of the file has been read, from 0 to 1, where its size is known.
    pub fn share(&self) -> Option<f64> {
        let size = self.size.filter(|&size| size > 0)?;
        Some(self.bytes as f64 / size as f64)
    }
}

/// A line without its comment. A comment is a `#` at the line's beginning, after a blank or before
/// one; but `#N/A` and its like are what a spreadsheet writes for a missing value.
pub fn without_comment(line: &str) -> &str {
    let blank = |byte: Option<&u8>| matches!(byte, None | Some(b' ' | b'\t'));
    let bytes = line.as_bytes();
    for (at, _) in line.match_indices('#') {
        let before = at.checked_sub(1).map(|at| &bytes[at]);
        let word = line[at..].split([' ', '\t', ',', ';']).next();
        let missing = word.is_some_and(number::is_error);
        if blank(bytes.get(at + 1)) || (blank(before) && !missing) {
            return &line[..at];
        }
    }
    line
}

/// Refuses a comment as other tools write it.
pub fn refuse_percent(place: Place, line: &str) -> Result<(), Fault> {
    if line.trim_start().starts_with('%') {
        let remedy = "put # and a blank in place of the %, or: sed 's/^ *%/# /' old > new";
        return Err(place.fault("a comment with % is not read", remedy));
    }
    Ok(())
}

#[cfg(test)]
mod tests {
    use super::{without_comment, Lines};

    fn read(bytes: &[u8]) -> Result<Vec<String>, String> {
        let mut lines = Lines::of("t", std::io::Cursor::new(bytes.to_vec()), None);
        let mut all = Vec::new();
        while lines.advance().map_err(|fault| fault.to_string())? {
            all.push(lines.text().to_string());
        }
        Ok(all)
    }

    #[test]
    fn marks_and_line_ends_are_left_out() {
        assert_eq!(
            read(b"\xEF\xBB\xBF7 7\r\n3\n\n1").unwrap(),
            ["7 7", "3", "", "1"]
        );
        assert_eq!(read(b"").unwrap(), Vec::<String>::new());
    }

    #[test]
    fn what_is_no_text() {
        let message = |bytes: &[u8]| read(bytes).unwrap_err();
        let wide = "t:1: this is UTF-16 text or no text, save it as UTF-8, or: iconv -f UTF-16 \
                    -t UTF-8 old > new";
        assert_eq!(message(b"\xFF\xFE7\0 \0"), wide);
        assert_eq!(message(b"7\0 \0"), wide);
        assert_eq!(
            message(b"1\r2\r3\r"),
            "t:1: its lines end with a carriage return alone, save it with line feeds, or: \
             tr '\\r' '\\n' < old > new"
        );
        assert_eq!(
            message(b"1\n12\xFF\n"),
            "t:2: byte 3 of this line is no UTF-8 text, save it as UTF-8"
        );
        assert!(message(&vec![b'1'; 3 << 20]).starts_with("t:1: this line is longer than"));
    }

    #[test]
    fn comments() {
        for line in ["1 2 # three", "1 2 #three", "1 2 #", "1 2 ## three"] {
            assert_eq!(without_comment(line), "1 2 ");
        }
        assert_eq!(without_comment("#"), "");
        assert_eq!(without_comment("#shade 4109"), "");
        assert_eq!(without_comment("#N/A,1 # b"), "#N/A,1 ");
        assert_eq!(without_comment("1 #DIV/0! 2"), "1 #DIV/0! 2");
        assert_eq!(without_comment("1,#six,2"), "1,#six,2");
    }
}
