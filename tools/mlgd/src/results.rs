//! The results table: one line a block, to be opened in a spreadsheet and read again by `map`.

use crate::amount::counted;
use crate::fault::{short, Fault};
use crate::fields::{Fields, Separator};
use crate::lines::Lines;
use crate::program::bytes;
use std::io::Write;

/// The table's first line.
pub const COLUMNS: &str =
    "line,block,outcome,rounds,failing,changed,wrong_bits,within_half,reason,word";

/// The largest count of a block's rounds, checks or bits.
const MOST_COUNTED: usize = 1_023;

#[derive(Clone, Copy, Debug, PartialEq, Eq)]
pub enum Outcome {
    Decoded,
    Failed,
    Refused,
}

impl Outcome {
    pub fn shown(self) -> &'static str {
        match self {
            Outcome::Decoded => "decoded",
            Outcome::Failed => "failed",
            Outcome::Refused => "refused",
        }
    }

    fn read(text: &str) -> Option<Outcome> {
        let all = [Outcome::Decoded, Outcome::Failed, Outcome::Refused];
        all.into_iter().find(|outcome| outcome.shown() == text)
    }
}

/// What was counted for a block that was not refused.
#[derive(Clone, Debug, PartialEq, Eq)]
pub struct Counts {
    pub rounds: usize,
    pub failing: usize,
    /// In how many places whose sample has a level the word differs from the hard bits, as the program
    /// counted them; of one-step voting in how many of all.
    pub changed: usize,
    /// In how many of all places it does, counted by this tool.
    pub wrong_bits: usize,
    pub word: Vec<u8>,
}

/// A block's line of the table.
#[derive(Clone, Debug, PartialEq, Eq)]
pub struct Row {
    /// The line of the samples' file at which the block begins.
    pub line: usize,
    pub block: usize,
    pub outcome: Outcome,
    pub counts: Option<Counts>,
    pub within_half: bool,
    pub reason: String,
}

impl Row {
    /// Puts the line to a text. A word has an `x` before it: no spreadsheet takes it for a number.
    pub fn put(&self, text: &mut Vec<u8>) {
        let mut put = |part: std::fmt::Arguments| text.write_fmt(part).expect("writing to memory");
        put(format_args!(
            "{},{},{},",
            self.line,
            self.block,
            self.outcome.shown()
        ));
        match &self.counts {
            Some(c) => put(format_args!(
                "{},{},{},{}",
                c.rounds, c.failing, c.changed, c.wrong_bits
            )),
            None => put(format_args!(",,,")),
        }
        let within = if self.within_half { "yes" } else { "no" };
        put(format_args!(",{within},{},", quoted(&self.reason)));
        if let Some(counts) = &self.counts {
            put(format_args!("x"));
            for byte in &counts.word {
                put(format_args!("{byte:02x}"));
            }
        }
        text.push(b'\n');
    }
}

/// A field, in quotation marks where it needs them.
fn quoted(text: &str) -> String {
    match text.contains(['"', ',', ';', '\n']) {
        true => format!("\"{}\"", text.replace('"', "\"\"")),
        false => text.into(),
    }
}

/// A reader of results tables, by the names of the columns. Further columns do no harm.
pub struct Table {
    lines: Lines,
    names: Vec<String>,
    /// What separates the names, and so the fields of every row.
    separator: Separator,
    fields: Fields,
}

impl Table {
    pub fn open(file: &str) -> Result<Table, Fault> {
        let mut lines = Lines::open(file)?;
        let mut fields = Fields::default();
        let (mut names, mut separator) = (Vec::new(), Separator::Comma);
        if lines.advance()? {
            separator = separator_of(&lines, &mut fields)?;
            names = split(&lines, separator, &mut fields)?;
        }
        let table = Table {
            lines,
            names,
            separator,
            fields,
        };
        for name in COLUMNS.split(',') {
            table.column(name)?;
        }
        Ok(table)
    }

    /// Which column has this name, from 0.
    pub fn column(&self, name: &str) -> Result<usize, Fault> {
        let found = self.names.iter().position(|known| known == name);
        found.ok_or_else(|| {
            let what = format!("there is no column `{name}`");
            self.lines
                .place()
                .fault(what, "is this a table of mlgd decode?")
        })
    }

    /// The fields of the next line.
    pub fn next_fields(&mut self) -> Result<Option<Vec<String>>, Fault> {
        while self.lines.advance()? {
            if self.lines.text().trim().is_empty() {
                continue;
            }
            let found = split(&self.lines, self.separator, &mut self.fields)?;
            if found.len() != self.names.len() {
                let (fields, names) = (found.len(), self.names.len());
                let (fields, names) = (counted(fields, "field"), counted(names, "name"));
                let what = format!("{fields} below {names}");
                let remedy = "is the table whole?";
                return Err(self.lines.place().fault(what, remedy));
            }
            return Ok(Some(found));
        }
        Ok(None)
    }

    /// The next line as a row.
    pub fn next_row(&mut self) -> Result<Option<Row>, Fault> {
        let fields = self.next_fields()?;
        let table = &*self;
        let cells = fields.map(|fields| Cells { table, fields });
        cells.map(|cells| cells.row()).transpose()
    }
}

/// A line of the table, by the names of its columns.
struct Cells<'a> {
    table: &'a Table,
    fields: Vec<String>,
}

impl Cells<'_> {
    fn text(&self, name: &str) -> Result<&str, Fault> {
        Ok(&self.fields[self.table.column(name)?])
    }

    /// What to say of a text that no run has written there.
    fn odd(&self, name: &str) -> Fault {
        let field = self.table.column(name).map_or(1, |at| at + 1);
        let written = short(self.text(name).unwrap_or_default());
        let what = format!("{name}: `{written}` does not belong there");
        let place = self.table.lines.place();
        place.at(field, what, "is this a table of mlgd decode?")
    }

    fn whole(&self, name: &str, most: usize) -> Result<usize, Fault> {
        let number = self.text(name)?.parse().ok();
        let number = number.filter(|&number| number <= most);
        number.ok_or_else(|| self.odd(name))
    }

    fn counts(&self) -> Result<Counts, Fault> {
        let count = |name: &str| self.whole(name, MOST_COUNTED);
        let word = self.text("word")?.strip_prefix('x').and_then(bytes);
        Ok(Counts {
            rounds: count("rounds")?,
            failing: count("failing")?,
            changed: count("changed")?,
            wrong_bits: count("wrong_bits")?,
            word: word.ok_or_else(|| self.odd("word"))?,
        })
    }

    fn row(&self) -> Result<Row, Fault> {
        let outcome = Outcome::read(self.text("outcome")?);
        let outcome = outcome.ok_or_else(|| self.odd("outcome"))?;
        let within_half = match (self.text("within_half")?, outcome) {
            ("yes", Outcome::Decoded) => true,
            ("no", _) | ("", Outcome::Refused) => false,
            _ => return Err(self.odd("within_half")),
        };
        let counts = match outcome {
            Outcome::Refused => None,
            _ => Some(self.counts()?),
        };
        Ok(Row {
            line: self.whole("line", usize::MAX)?,
            block: self.whole("block", usize::MAX)?,
            outcome,
            counts,
            within_half,
            reason: self.text("reason")?.into(),
        })
    }
}

/// What separates the names: a table that a spreadsheet has saved may have semicolons or tabs.
fn separator_of(lines: &Lines, fields: &mut Fields) -> Result<Separator, Fault> {
    let no_table = |fault: Fault| fault.remedy("is this a table of mlgd decode?");
    match fields.split(lines.place(), lines.text(), false, 0) {
        Ok(Separator::Blank) => {
            let what = "this line has one field";
            Err(no_table(lines.place().fault(what, "")))
        }
        found => found.map_err(no_table),
    }
}

/// The fields of a line. Another separator than the names' is part of a field, quoted or not.
fn split(lines: &Lines, by: Separator, fields: &mut Fields) -> Result<Vec<String>, Fault> {
    let line = lines.text();
    fields.split_by(lines.place(), line, by)?;
    let text = |span: &crate::fields::Span| span.of(line).replace("\"\"", "\"");
    Ok(fields.spans.iter().map(text).collect())
}
