//! Bare rows: a line of columns for each row, sizes derived.

use super::{smallest_weight, At, Form, Matrix, MatrixFile};
use crate::amount::counted;
use crate::fault::Fault;
use crate::text::{Line, Text};

pub(super) fn read(text: &Text, from_one: bool) -> Result<MatrixFile, Fault> {
    let rho = text.lines[0].len();
    let read = rows(text, rho, from_one)?;
    let largest = read.list.iter().zip(&read.entries).max();
    let n = largest.map_or(0, |(&column, _)| usize::from(column)) + 1;
    let n_at = largest.map(|(_, &at)| at);
    let m_at = read.entries.last().copied();
    let gamma = smallest_weight(text, n, &read.list)?;
    let matrix = Matrix {
        n: size(text, n, "n")?,
        m: size(text, text.lines.len(), "m")?,
        rho: size(text, rho, "rho")?,
        gamma,
        list: read.list,
    };
    Ok(MatrixFile {
        file: text.file.clone(),
        form: Form::Rows,
        matrix,
        first: read.first,
        sizes: [n_at, m_at, None, None],
        entries: read.entries,
    })
}

/// Rows that have rho columns each.
fn rows(text: &Text, rho: usize, from_one: bool) -> Result<Entries<'_>, Fault> {
    let mut read = Entries::new(text, from_one);
    for (i, line) in text.lines.iter().enumerate() {
        if line.len() != rho {
            let what = format!(
                "row {} has {} and row {} has {rho}: the decoder takes rows of one weight",
                i + read.first,
                counted(line.len(), "column"),
                read.first
            );
            return Err(text.of_line(line, what, "is a number missing, or one too many?"));
        }
        read.row(line)?;
    }
    Ok(read)
}

/// A size that goes into 16 bits.
fn size(text: &Text, size: usize, what: &str) -> Result<u16, Fault> {
    u16::try_from(size).map_err(|_| {
        let what = format!("{what}: {size} is above 65535");
        text.at_end(what, "is this the right file?")
    })
}

/// Column numbers with their places, as they stand in the file.
pub(super) struct Entries<'a> {
    text: &'a Text,
    pub(super) first: usize,
    pub(super) list: Vec<u16>,
    pub(super) entries: Vec<At>,
}

impl Entries<'_> {
    pub(super) fn new(text: &Text, from_one: bool) -> Entries<'_> {
        Entries {
            text,
            first: usize::from(from_one),
            list: Vec::new(),
            entries: Vec::new(),
        }
    }

    /// The columns of one line.
    pub(super) fn row(&mut self, line: &Line) -> Result<(), Fault> {
        for at in 0..line.len() {
            let column: u16 = self.text.whole(line, at, "column", u16::MAX)?;
            let Some(column) = column.checked_sub(self.first as u16) else {
                let what = "column 0 beside --from-one".to_string();
                return Err(self.text.at(line, at, what, "leave --from-one out"));
            };
            self.list.push(column);
            self.entries.push((line.number, at + 1));
        }
        Ok(())
    }
}
