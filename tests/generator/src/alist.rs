//! A parity-check matrix as an alist file: n and m; the largest column and row weight; the weight
//! of each column; of each row; then a line of row numbers for each column and a line of column
//! numbers for each row, counted from 1 and padded with zeros.

use crate::codes::Code;
use std::fmt::Write;

pub fn text(code: &Code) -> String {
    let (columns, rows) = (code.columns(), code.rows());
    let widest = |lists: &[Vec<usize>]| lists.iter().map(Vec::len).max().unwrap_or(0);
    let (gamma, rho) = (widest(&columns), widest(&rows));
    let mut text = format!("{} {}\n{gamma} {rho}\n", columns.len(), rows.len());
    for lists in [&columns, &rows] {
        line(&mut text, lists.iter().map(Vec::len));
    }
    for (lists, width) in [(&columns, gamma), (&rows, rho)] {
        for list in lists {
            let padding = std::iter::repeat_n(0, width - list.len());
            line(&mut text, list.iter().map(|at| at + 1).chain(padding));
        }
    }
    text
}

fn line(text: &mut String, numbers: impl Iterator<Item = usize>) {
    for (at, number) in numbers.enumerate() {
        let gap = if at == 0 { "" } else { " " };
        write!(text, "{gap}{number}").expect("writing to a string");
    }
    text.push('\n');
}
