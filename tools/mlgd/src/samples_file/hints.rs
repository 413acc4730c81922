//! What to say of a line of samples that cannot be read: most often an option is missing.

use super::doubts::SAVE_ANEW;
use super::SamplesFile;
use crate::fault::{short, Fault};
use crate::fields::{column_letters, refuse_blank, Separator};
use crate::lines::without_comment;
use crate::number;

impl SamplesFile {
    /// What to say of the first field that is no number; `at` counts from 0.
    pub(super) fn no_number(&self, at: usize, separator: Separator) -> Fault {
        let place = self.lines.place();
        if let Some(fault) = self.ends_empty(at, separator) {
            return fault;
        }
        let written = self.field(at);
        let column = format!("column {}", column_letters(at + 1));
        if let Some(remedy) = self.labels(at).or_else(|| self.heading(at)) {
            let what = match written {
                "" => "the field is empty".into(),
                _ => format!("`{}` is not a number", short(written)),
            };
            return place.at(at + 1, format!("{column}: {what}"), remedy);
        }
        if let Err(fault) = refuse_blank(place, at + 1, written, separator) {
            return fault;
        }
        let (what, remedy) = number::complaint(written, self.form.decimal_comma);
        place.at(at + 1, format!("{column}: {what}"), remedy)
    }

    fn field(&self, at: usize) -> &str {
        self.fields.spans[at].of(without_comment(self.lines.text()))
    }

    /// A line with nothing in its fields from this one on.
    fn ends_empty(&self, at: usize, separator: Separator) -> Option<Fault> {
        let (place, count) = (self.lines.place(), self.fields.spans.len());
        if !(at..count).all(|at| self.field(at).is_empty()) {
            return None;
        }
        if (0..at).all(|at| self.field(at).is_empty()) {
            let remedy = "an empty row of the spreadsheet? Take the line away";
            return Some(place.fault("every field of this line is empty", remedy));
        }
        if at == self.form.skip {
            return None;
        }
        let (by, first, last) = (
            separator.shown(),
            column_letters(at + 1),
            column_letters(count),
        );
        let (empty, them) = match at + 1 == count {
            true => (format!("column {first} is"), "that separator"),
            false => (format!("columns {first} to {last} are"), "those separators"),
        };
        let missing = match count - self.form.skip > self.n {
            true => "",
            false => "write nan for a missing value; if none is missing, ",
        };
        let what = format!("the line ends with {by}: {empty} empty");
        let remedy = format!("{missing}take {them} away, or: sed 's/[;,\\t]*\\r*$//' old > new");
        Some(place.at(at + 1, what, remedy))
    }

    /// The option to give where labels stand before the samples: the line has more than n fields
    /// and ends with n numbers, or it has fewer and text before its numbers. Empty fields at its
    /// end do not count.
    fn labels(&self, at: usize) -> Option<String> {
        let skip = self.form.skip;
        let mut all = 0..self.fields.spans.len();
        let count = all.rfind(|&at| !self.field(at).is_empty())? + 1;
        let sample = |at| is_number(self.field(at)) || number::is_missing(self.field(at));
        let labels = match count.checked_sub(self.n) {
            Some(labels) if at < labels && (labels..count).all(sample) => labels,
            None if at == skip && is_text(self.field(at)) => {
                let texts = (at..count).take_while(|&at| !sample(at)).count();
                Some(at + texts).filter(|&labels| labels < count && (labels..count).all(sample))?
            }
            _ => return None,
        };
        Some(format!("give --skip-columns {labels} if these are labels"))
    }

    /// The option to give where this looks like a heading: the first line, and more text in it
    /// than numbers.
    fn heading(&self, at: usize) -> Option<String> {
        let first = self.blocks == 0 && self.shape.is_empty() && !self.form.header;
        let all = self.form.skip..self.fields.spans.len();
        let (fields, numbers) = (
            all.len(),
            all.filter(|&at| is_number(self.field(at))).count(),
        );
        let heading = first && is_text(self.field(at)) && fields > 2 * numbers;
        heading.then(|| "give --header if this line is a heading".into())
    }

    /// A line with more samples than a block has.
    pub(super) fn too_many(&self, count: usize) -> Fault {
        let (place, n) = (self.lines.place(), self.n);
        let decimal = self.separator.and_then(|separator| self.decimal(separator));
        let decimal = match decimal {
            Some(_) => format!("; if commas are decimal signs, {SAVE_ANEW}"),
            None => String::new(),
        };
        if count.is_multiple_of(n) {
            let blocks = count / n;
            let what = format!("this line has {count} samples, {blocks} blocks of {n}");
            let remedy =
                format!("put each block on a line of its own, and look at the matrix's n{decimal}");
            return place.fault(what, remedy);
        }
        let extra = self.form.skip + count - n;
        let labels = match extra < n {
            true => format!(" If the first fields are labels, give --skip-columns {extra}"),
            false => String::new(),
        };
        let what = format!("this line has {count} samples, and a block has {n}");
        let remedy = format!("is this the right matrix?{labels}{decimal}");
        place.fault(what, remedy)
    }
}

/// Whether a text is a number, with or without a decimal comma.
fn is_number(written: &str) -> bool {
    number::read(written, false).is_some() || number::read(written, true).is_some()
}

/// Whether this looks like a word of a heading or a label, and not like several numbers.
fn is_text(written: &str) -> bool {
    let word = written.chars().any(char::is_alphabetic) && !number::is_missing(written);
    word && !written.split([' ', '\t']).all(is_number)
}
