//! A matrix as text.

use super::Matrix;
use std::fmt::Write;

impl Matrix {
    /// n m rho gamma, then a line of columns for each row.
    pub fn plain(&self) -> String {
        let sizes = format!("{} {} {} {}\n", self.n, self.m, self.rho, self.gamma);
        sizes + &self.bare_rows()
    }

    /// A line of columns for each row.
    pub fn bare_rows(&self) -> String {
        let mut text = String::new();
        for row in self.rows() {
            line(&mut text, row.iter().map(|&c| usize::from(c)));
        }
        text
    }

    /// The same as an alist file, if every column is below n, gamma is the smallest of their
    /// weights and not 0, and every row has different columns. Lighter columns end with zeros.
    pub fn alist(&self) -> Option<String> {
        let columns = self.columns()?;
        let (n, m, rho) = (columns.len(), usize::from(self.m), usize::from(self.rho));
        let weights: Vec<usize> = columns.iter().map(Vec::len).collect();
        let (least, most) = (*weights.iter().min()?, *weights.iter().max()?);
        let right_weights = least > 0 && least == usize::from(self.gamma);
        if m == 0 || rho == 0 || self.list.len() != m * rho || !right_weights {
            return None;
        }
        let mut text = format!("{n} {m}\n{most} {rho}\n");
        line(&mut text, weights.into_iter());
        line(&mut text, std::iter::repeat_n(rho, m));
        for rows in &columns {
            let padding = std::iter::repeat_n(0, most - rows.len());
            line(&mut text, rows.iter().map(|i| i + 1).chain(padding));
        }
        for row in self.rows() {
            line(&mut text, row.iter().map(|&c| usize::from(c) + 1));
        }
        Some(text)
    }

    /// The rows of each column.
    fn columns(&self) -> Option<Vec<Vec<usize>>> {
        let mut columns = vec![Vec::new(); usize::from(self.n)];
        for (i, row) in self.rows().enumerate() {
            for &c in row {
                let rows: &mut Vec<usize> = columns.get_mut(usize::from(c))?;
                if rows.last() == Some(&i) {
                    return None;
                }
                rows.push(i);
            }
        }
        Some(columns)
    }
}

fn line(text: &mut String, numbers: impl Iterator<Item = usize>) {
    for (at, number) in numbers.enumerate() {
        let gap = if at == 0 { "" } else { " " };
        write!(text, "{gap}{number}").expect("writing to a string");
    }
    text.push('\n');
}
