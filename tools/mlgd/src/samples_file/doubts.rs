//! Lines of samples that could be read in two ways: they are refused, with a hint how to say what
//! they are.

use super::SamplesFile;
use crate::fault::{Fault, Place};
use crate::fields::{Separator, Span};
use crate::number;

/// What to do about commas that both separate fields and stand in numbers.
pub(super) const SAVE_ANEW: &str =
    "save it with ; or tabs between the fields and give --decimal-comma";

impl SamplesFile {
    /// Refuses a line that could be something else. Where a longer line could have decimal commas,
    /// the other lines decide: in whole numbers some second field has a sign sooner or later.
    pub(super) fn two_ways(&mut self, separator: Separator, first: bool) -> Result<(), Fault> {
        if first && !self.form.header {
            self.refuse_counting()?;
        }
        if first {
            let line = self.lines.place().line;
            self.decimals = self.decimal(separator).map(|written| (line, written));
        } else if self.decimals.is_some() && self.decimal(separator).is_none() {
            self.decimals = None;
        }
        if self.fields.spans.len() - self.form.skip > 2 {
            return Ok(());
        }
        match self.decimal(separator) {
            Some(written) => {
                let what = format!("`{written}` could be one number or two");
                let remedy = "give --decimal-comma if it is one, or separate the two by a blank";
                Err(self.lines.place().at(self.form.skip + 1, what, remedy))
            }
            None => Ok(()),
        }
    }

    /// The first two fields, if the line could also have half as many numbers with decimal commas:
    /// 0,5,-1,0.
    pub(super) fn decimal(&self, separator: Separator) -> Option<String> {
        let spans = &self.fields.spans[self.form.skip..];
        if separator != Separator::Comma || !spans.len().is_multiple_of(2) {
            return None;
        }
        let line = self.lines.text();
        let one = |pair: &[Span]| {
            let written = pair[0].to(&pair[1]).of(line);
            let number = number::read(written, true).filter(|_| pair[0].close_to(&pair[1]));
            number.map(|_| written)
        };
        let mut pairs = spans.chunks_exact(2);
        let first = pairs.next().and_then(one)?;
        pairs.all(|pair| one(pair).is_some()).then(|| first.into())
    }

    /// At the end of the file: refuses it where every line could have decimal commas.
    pub(super) fn refuse_decimals(&self) -> Result<(), Fault> {
        let Some((line, written)) = &self.decimals else {
            return Ok(());
        };
        let place = Place {
            line: *line,
            ..self.lines.place()
        };
        let what = format!(
            "`{written}` could be one number or two, and so could every two fields of the file"
        );
        let remedy = format!("if one, {SAVE_ANEW}; if two, put a blank after each comma");
        Err(place.at(self.form.skip + 1, what, remedy))
    }

    /// Refuses a first line that counts 1 2 3 or 0 1 2: such a heading would be a block.
    fn refuse_counting(&self) -> Result<(), Fault> {
        let line = self.lines.text();
        let spans = &self.fields.spans[self.form.skip..];
        let counts = |from: &usize| {
            let mut spans = spans.iter().enumerate();
            spans.all(|(at, span)| span.of(line).parse() == Ok(from + at))
        };
        match [0, 1].into_iter().find(counts) {
            Some(from) if spans.len() > 2 => {
                let last = from + spans.len() - 1;
                let what = format!("the fields of the first line count from {from} to {last}");
                let remedy = format!(
                    "give --header if it is a heading, or write {from}.0 for {from} if it is a block"
                );
                Err(self.lines.place().fault(what, remedy))
            }
            _ => Ok(()),
        }
    }
}
