//! A small file as lines of fields, for matrices and settings: fields are separated by blanks, or
//! by one comma or semicolon.

use crate::fault::{short, Fault, Place};
use crate::lines::{refuse_percent, Lines};
use std::str::FromStr;

/// More fields than any matrix has that could be accepted.
const MOST_FIELDS: usize = 4_000_000;

/// A line with at least one field.
#[derive(Clone, Debug)]
pub(crate) struct Line {
    pub(crate) number: usize,
    text: String,
    spans: Vec<(u32, u32)>,
}

impl Line {
    pub(crate) fn len(&self) -> usize {
        self.spans.len()
    }

    /// A field, counted from 0.
    pub(crate) fn field(&self, at: usize) -> &str {
        let (start, end) = self.spans[at];
        &self.text[start as usize..end as usize]
    }

    /// Whether a comma stands between two digits, as in 0,5.
    pub(crate) fn has_decimal_comma(&self) -> bool {
        let digit = |byte: u8| byte.is_ascii_digit();
        let three = |three: &[u8]| digit(three[0]) && three[1] == b',' && digit(three[2]);
        self.text.as_bytes().windows(3).any(three)
    }

    pub(crate) fn fields(&self) -> impl Iterator<Item = &str> {
        (0..self.len()).map(|at| self.field(at))
    }
}

/// A file's lines. Empty lines and comments are left out.
#[derive(Clone, Debug)]
pub(crate) struct Text {
    pub(crate) file: String,
    pub(crate) lines: Vec<Line>,
    /// The number of the file's last line.
    pub(crate) last: usize,
}

impl Text {
    pub(crate) fn open(file: &str) -> Result<Text, Fault> {
        Text::read(Lines::open(file)?)
    }

    /// A text that is at hand, under a name for messages.
    pub(crate) fn of(file: &str, contents: &str) -> Result<Text, Fault> {
        let input = std::io::Cursor::new(contents.as_bytes().to_vec());
        Text::read(Lines::of(file, input, None))
    }

    fn read(mut from: Lines) -> Result<Text, Fault> {
        let (mut lines, mut held) = (Vec::new(), 0);
        while from.advance()? {
            let place = from.place();
            let text = from.text().split('#').next().unwrap_or_default();
            refuse_percent(place, text)?;
            let spans = spans(place, text)?;
            held += spans.len();
            if held > MOST_FIELDS {
                let what = format!("there are more than {MOST_FIELDS} numbers up to here");
                return Err(place.fault(what, "is this the right file?"));
            }
            if !spans.is_empty() {
                lines.push(Line {
                    number: place.line,
                    text: text.into(),
                    spans,
                });
            }
        }
        let (file, last) = (from.place().file.into(), from.place().line);
        Ok(Text { file, lines, last })
    }

    /// The place of a line.
    pub(crate) fn place(&self, line: usize) -> Place<'_> {
        Place {
            file: &self.file,
            line,
        }
    }

    /// A fault at a field, counted from 0.
    pub(crate) fn at(&self, line: &Line, field: usize, what: String, remedy: &str) -> Fault {
        self.place(line.number).at(field + 1, what, remedy)
    }

    /// A fault of a whole line.
    pub(crate) fn of_line(&self, line: &Line, what: String, remedy: &str) -> Fault {
        self.place(line.number).fault(what, remedy)
    }

    /// A fault at the end of the file.
    pub(crate) fn at_end(&self, what: String, remedy: &str) -> Fault {
        self.place(self.last).fault(what, remedy)
    }

    /// A whole number from 0 to `most` in a field, counted from 0.
    pub(crate) fn whole<T>(&self, line: &Line, at: usize, what: &str, most: T) -> Result<T, Fault>
    where
        T: FromStr + PartialOrd + std::fmt::Display,
    {
        let written = line.field(at);
        if !written.bytes().all(|byte| byte.is_ascii_digit()) {
            let what = format!("{what}: `{}` is not a whole number", short(written));
            return Err(self.at(line, at, what, "write a number such as 7 there"));
        }
        match written.parse() {
            Ok(number) if number <= most => Ok(number),
            _ => {
                let what = format!("{what}: {} is above {most}", short(written));
                Err(self.at(line, at, what, "is this the right number?"))
            }
        }
    }
}

/// Where the fields of a line begin and end.
fn spans(place: Place, text: &str) -> Result<Vec<(u32, u32)>, Fault> {
    let mut spans: Vec<(u32, u32)> = Vec::new();
    let remedy = "write it, or take the separator away";
    // Whether a field is being read, and the separator that still wants a field after it.
    let (mut inside, mut open) = (false, None);
    for (at, character) in text.char_indices() {
        match character {
            ',' | ';' => {
                if spans.is_empty() || open.is_some() {
                    let what = format!("a number is missing before `{character}`");
                    return Err(place.at(spans.len() + 1, what, remedy));
                }
                (inside, open) = (false, Some(character));
            }
            _ if character.is_whitespace() => inside = false,
            _ => {
                let end = (at + character.len_utf8()) as u32;
                match spans.last_mut() {
                    Some(last) if inside => last.1 = end,
                    _ => spans.push((at as u32, end)),
                }
                (inside, open) = (true, None);
            }
        }
    }
    match open {
        Some(separator) => {
            let what = format!("a number is missing after the last `{separator}`");
            Err(place.at(spans.len() + 1, what, remedy))
        }
        None => Ok(spans),
    }
}

#[cfg(test)]
mod tests {
    use super::Text;

    #[test]
    fn fields_of_lines() {
        let text = Text::of("t", "# a comment\n\n 1, 22;3\t4 # more\r\n\n5\n").unwrap();
        let lines: Vec<(usize, Vec<&str>)> = text
            .lines
            .iter()
            .map(|line| (line.number, line.fields().collect()))
            .collect();
        assert_eq!(lines, [(3, vec!["1", "22", "3", "4"]), (5, vec!["5"])]);
        assert_eq!(text.last, 5);
    }

    #[test]
    fn missing_fields() {
        let message = |contents: &str| Text::of("t", contents).unwrap_err().to_string();
        let remedy = "write it, or take the separator away";
        for (contents, what) in [
            ("1,,2", "t:1:2: a number is missing before `,`"),
            ("\n, 2", "t:2:1: a number is missing before `,`"),
            ("1; 2;", "t:1:3: a number is missing after the last `;`"),
            (
                "1 2, # end",
                "t:1:3: a number is missing after the last `,`",
            ),
        ] {
            assert_eq!(message(contents), format!("{what}, {remedy}"));
        }
        assert!(message("% 7 7").contains("# and a blank"));
    }
}
