//! One line of samples as fields: what separates them is found out, and a mixture that could be
//! read in two ways is refused.

use crate::fault::{short, Fault, Place};

/// What stands between the fields of a line.
#[derive(Clone, Copy, Debug, PartialEq, Eq)]
pub enum Separator {
    Comma,
    Semicolon,
    Tab,
    Blank,
}

impl Separator {
    /// As messages name it.
    pub fn shown(self) -> &'static str {
        match self {
            Separator::Comma => "`,`",
            Separator::Semicolon => "`;`",
            Separator::Tab => "a tab",
            Separator::Blank => "a blank",
        }
    }

    fn is(self, byte: u8) -> bool {
        match self {
            Separator::Comma => byte == b',',
            Separator::Semicolon => byte == b';',
            Separator::Tab => byte == b'\t',
            Separator::Blank => byte == b' ' || byte == b'\t',
        }
    }
}

/// Where a field begins and ends in its line, quotation marks left out.
#[derive(Clone, Copy, Debug)]
pub struct Span {
    start: usize,
    end: usize,
    pub quoted: bool,
}

impl Span {
    /// Whether one character alone stands between this field and the next.
    pub fn close_to(&self, next: &Span) -> bool {
        !self.quoted && !next.quoted && next.start == self.end + 1
    }

    /// From the beginning of this field to the end of another.
    pub fn to(&self, other: &Span) -> Span {
        Span {
            end: other.end,
            ..*self
        }
    }

    pub fn of<'a>(&self, line: &'a str) -> &'a str {
        &line[self.start..self.end]
    }
}

/// The fields of a line; kept from line to line, so that no memory is asked for.
#[derive(Clone, Debug, Default)]
pub struct Fields {
    pub spans: Vec<Span>,
}

/// What of the separators a line has, outside of quotation marks.
#[derive(Default)]
struct Seen {
    comma: bool,
    semicolon: bool,
    tab: bool,
    quotes: usize,
}

impl Fields {
    /// Splits a line, and says by what. Its first `labels` fields may have other separators in
    /// them.
    pub fn split(
        &mut self,
        place: Place,
        line: &str,
        decimal_comma: bool,
        labels: usize,
    ) -> Result<Separator, Fault> {
        let seen = look(line, decimal_comma);
        let separator = match seen.separator(place) {
            Ok(separator) => separator,
            Err(fault) => alone_after(line, decimal_comma, labels).ok_or(fault)?,
        };
        self.split_by(place, line, separator)?;
        Ok(separator)
    }

    /// Splits a line by what is known to separate its fields.
    pub fn split_by(
        &mut self,
        place: Place,
        line: &str,
        separator: Separator,
    ) -> Result<(), Fault> {
        self.spans.clear();
        let mut start = 0;
        for at in places(line, separator) {
            self.push(line, start, at, separator);
            start = at + 1;
        }
        self.push(line, start, line.len(), separator);
        match line.matches('"').count() % 2 {
            0 => Ok(()),
            _ => {
                let remedy = "close it, or take the quotation marks away";
                Err(place.fault("a quotation mark is open at the line's end", remedy))
            }
        }
    }

    /// Keeps one field, without the blanks and quotation marks around it.
    fn push(&mut self, line: &str, start: usize, end: usize, separator: Separator) {
        let bytes = line.as_bytes();
        let (mut start, mut end) = (start, end);
        let blank = |byte: u8| byte == b' ' || byte == b'\t';
        while start < end && blank(bytes[start]) {
            start += 1;
        }
        while start < end && blank(bytes[end - 1]) {
            end -= 1;
        }
        if start == end && separator == Separator::Blank {
            return;
        }
        let quoted = end - start >= 2 && bytes[start] == b'"' && bytes[end - 1] == b'"';
        if quoted {
            (start, end) = (start + 1, end - 1);
        }
        self.spans.push(Span { start, end, quoted });
    }
}

/// Where a separator stands, outside of quotation marks.
fn places(line: &str, separator: Separator) -> impl Iterator<Item = usize> + '_ {
    let mut quoted = false;
    line.bytes().enumerate().filter_map(move |(at, byte)| {
        quoted ^= byte == b'"';
        (separator.is(byte) && !quoted).then_some(at)
    })
}

/// The separator that has no other beside it after so many labels, whatever stands in them. There
/// is one at most: the labels of two would end at different places, and the earlier ones' rest has
/// the other separator in it.
fn alone_after(line: &str, decimal_comma: bool, labels: usize) -> Option<Separator> {
    let last = labels.checked_sub(1)?;
    let all = [Separator::Comma, Separator::Semicolon, Separator::Tab];
    all.into_iter().find(|&separator| {
        let end = places(line, separator).nth(last);
        end.is_some_and(|end| look(&line[end + 1..], decimal_comma).has_but(separator))
    })
}

/// Finds the separators of a line.
fn look(line: &str, decimal_comma: bool) -> Seen {
    let mut seen = Seen::default();
    let bytes = line.as_bytes();
    for (at, byte) in bytes.iter().enumerate() {
        match byte {
            b'"' => seen.quotes += 1,
            _ if seen.quotes % 2 == 1 => {}
            b';' => seen.semicolon = true,
            b'\t' => seen.tab = true,
            // A decimal comma has no quotation mark beside it.
            b',' if decimal_comma => {
                let before = at > 0 && bytes[at - 1] == b'"';
                seen.comma |= before || bytes.get(at + 1) == Some(&b'"');
            }
            b',' => seen.comma = true,
            _ => {}
        }
    }
    seen
}

impl Seen {
    /// Whether there is none but this one.
    fn has_but(&self, separator: Separator) -> bool {
        let others = [
            (Separator::Comma, self.comma),
            (Separator::Semicolon, self.semicolon),
            (Separator::Tab, self.tab),
        ];
        others
            .iter()
            .all(|&(other, seen)| other == separator || !seen)
    }

    /// The one separator of the line.
    fn separator(&self, place: Place) -> Result<Separator, Fault> {
        match (self.comma, self.semicolon, self.tab) {
            (true, false, false) => Ok(Separator::Comma),
            (false, true, false) => Ok(Separator::Semicolon),
            (false, false, true) => Ok(Separator::Tab),
            (false, false, false) => Ok(Separator::Blank),
            (true, semicolon, _) => {
                let other = if semicolon { "`;`" } else { "a tab" };
                let what = format!("a comma beside {other} could be read in two ways");
                Err(place.fault(what, DECIMAL_COMMA))
            }
            (false, _, _) => {
                let what = "`;` and tabs separate fields of one line";
                Err(place.fault(what, "use one of them"))
            }
        }
    }
}

const DECIMAL_COMMA: &str =
    "if commas are decimal signs, give --decimal-comma; if not, use one separator";

/// Refuses a field that has a blank in it where something else separates the fields.
pub fn refuse_blank(
    place: Place,
    field: usize,
    text: &str,
    separator: Separator,
) -> Result<(), Fault> {
    if separator == Separator::Blank || !text.contains([' ', '\t']) {
        return Ok(());
    }
    let what = format!(
        "`{}` has a blank, and {} separates the fields: this could be read in two ways",
        short(text),
        separator.shown()
    );
    let remedy = match separator {
        Separator::Comma => DECIMAL_COMMA,
        _ => "use one separator, and no blanks within numbers",
    };
    Err(place.at(field, what, remedy))
}

/// The letters by which a spreadsheet calls a column, counted from 1.
pub fn column_letters(column: usize) -> String {
    let mut letters = Vec::new();
    let mut rest = column;
    while rest > 0 {
        rest -= 1;
        letters.push(char::from(b'A' + (rest % 26) as u8));
        rest /= 26;
    }
    letters.iter().rev().collect()
}

#[cfg(test)]
mod tests {
    use super::{column_letters, Fields, Separator};
    use crate::fault::Place;

    const PLACE: Place = Place { file: "t", line: 1 };

    fn split(line: &str, decimal_comma: bool) -> Result<(Separator, Vec<String>), String> {
        after_labels(line, decimal_comma, 0)
    }

    fn after_labels(
        line: &str,
        decimal_comma: bool,
        labels: usize,
    ) -> Result<(Separator, Vec<String>), String> {
        let mut fields = Fields::default();
        let separator = fields.split(PLACE, line, decimal_comma, labels);
        let separator = separator.map_err(|fault| fault.to_string())?;
        let texts = fields.spans.iter().map(|span| span.of(line).to_string());
        Ok((separator, texts.collect()))
    }

    #[test]
    fn each_separator() {
        for (line, decimal_comma, separator) in [
            ("1, -2.5 ,0", false, Separator::Comma),
            ("\"1\",\"-2.5\",\"0\"", false, Separator::Comma),
            ("1;-2.5; 0", false, Separator::Semicolon),
            ("1\t-2.5\t0", false, Separator::Tab),
            ("  1  -2.5 0 ", false, Separator::Blank),
        ] {
            let (found, fields) = split(line, decimal_comma).unwrap();
            assert_eq!(found, separator, "{line}");
            assert_eq!(fields, ["1", "-2.5", "0"], "{line}");
        }
        for line in ["0,5;-1;2,5", "\"0,5\",\"-1\",\"2,5\"", "0,5 -1 2,5"] {
            assert_eq!(split(line, true).unwrap().1, ["0,5", "-1", "2,5"], "{line}");
        }
        assert_eq!(split("1;;2;", false).unwrap().1, ["1", "", "2", ""]);
        assert_eq!(split("\"a b;c\";1", false).unwrap().1, ["a b;c", "1"]);
    }

    #[test]
    fn mixtures() {
        for line in ["0,5;1", "0,5\t1", "0;5\t1", "0,5;1\t2", "\"0.5"] {
            assert!(split(line, false).is_err(), "{line}");
        }
    }

    /// What stands in a label is no separator.
    #[test]
    fn mixtures_in_labels() {
        for (line, labels, separator, first) in [
            (
                "Soho, London;0.5;-1",
                1,
                Separator::Semicolon,
                "Soho, London",
            ),
            ("Soho; London,0.5,-1", 1, Separator::Comma, "Soho; London"),
            ("a,b;c\t0.5\t-1", 1, Separator::Tab, "a,b;c"),
            ("7;Soho, London;0.5", 2, Separator::Semicolon, "7"),
            ("x;y,z;0.5,-1", 2, Separator::Comma, "x;y"),
        ] {
            let (found, fields) = after_labels(line, false, labels).unwrap();
            assert_eq!((found, fields[0].as_str()), (separator, first), "{line}");
        }
        let (found, _) = after_labels("\"a\",b;0,5;-1,0", true, 1).unwrap();
        assert_eq!(found, Separator::Semicolon);
        for (line, labels) in [("a;0,5;-1,0", 1), ("a, b;0.5;-1", 0), ("a, b;0.5", 2)] {
            assert!(after_labels(line, false, labels).is_err(), "{line}");
        }
    }

    #[test]
    fn letters() {
        let letters = [1, 3, 26, 27, 52, 53, 702, 703].map(column_letters);
        assert_eq!(letters, ["A", "C", "Z", "AA", "AZ", "BA", "ZZ", "AAA"]);
    }
}
