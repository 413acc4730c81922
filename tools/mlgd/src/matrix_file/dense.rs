//! A matrix of zeros and ones, with or without blanks between them.

use super::{smallest_weight, At, Form, Matrix, MatrixFile};
use crate::amount::counted;
use crate::fault::Fault;
use crate::text::{Line, Text};

pub(super) fn read(text: &Text) -> Result<MatrixFile, Fault> {
    let n = width(&text.lines[0]);
    if u16::try_from(n.max(text.lines.len())).is_err() {
        let (columns, rows) = (counted(n, "column"), counted(text.lines.len(), "row"));
        let what = format!("{columns} and {rows} are too many");
        return Err(text.at_end(what, "the decoder takes up to 1023 of each"));
    }
    let (list, entries) = rows(text, n)?;
    let gamma = smallest_weight(text, n, &list)?;
    Ok(MatrixFile {
        file: text.file.clone(),
        form: Form::Dense,
        matrix: Matrix {
            n: n as u16,
            m: text.lines.len() as u16,
            rho: (list.len() / text.lines.len()) as u16,
            gamma,
            list,
        },
        first: 1,
        sizes: [None; 4],
        entries,
    })
}

/// The columns of all rows, and their places.
fn rows(text: &Text, n: usize) -> Result<(Vec<u16>, Vec<At>), Fault> {
    let rho = ones(&text.lines[0]).len();
    let (mut list, mut entries) = (Vec::new(), Vec::new());
    for (i, line) in text.lines.iter().enumerate() {
        let ones = ones(line);
        if width(line) != n || ones.len() != rho {
            let (places, ones) = (counted(width(line), "place"), counted(ones.len(), "one"));
            let what = format!(
                "row {} has {places} and {ones}, row 1 has {n} and {rho}: \
                 the decoder takes rows of one weight",
                i + 1
            );
            return Err(text.of_line(line, what, "is a number missing, or one too many?"));
        }
        entries.extend(ones.iter().map(|column| (line.number, column + 1)));
        list.extend(ones.iter().map(|&column| column as u16));
    }
    Ok((list, entries))
}

/// How many places a line has.
pub(super) fn width(line: &Line) -> usize {
    line.fields().map(str::len).sum()
}

/// The places of its ones.
fn ones(line: &Line) -> Vec<usize> {
    let bits = line.fields().flat_map(str::bytes).enumerate();
    bits.filter(|(_, bit)| *bit == b'1')
        .map(|(at, _)| at)
        .collect()
}
