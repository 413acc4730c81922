//! A plain list: n m rho gamma, then m rows of rho columns. The columns are taken as they stand.

use super::rows::Entries;
use super::{Form, Matrix, MatrixFile};
use crate::amount::counted;
use crate::fault::Fault;
use crate::text::{Line, Text};

pub(super) fn read(text: &Text, from_one: bool) -> Result<MatrixFile, Fault> {
    let (first, rows) = (&text.lines[0], &text.lines[1..]);
    let mut sizes = [0; 4];
    for (at, what) in ["n", "m", "rho", "gamma"].into_iter().enumerate() {
        sizes[at] = text.whole(first, at, what, u16::MAX)?;
    }
    let [n, m, rho, gamma] = sizes;
    let mut read = Entries::new(text, from_one);
    entries(text, rows, (m, rho), &mut read)?;
    let list = read.list;
    let matrix = Matrix {
        n,
        m,
        rho,
        gamma,
        list,
    };
    Ok(MatrixFile {
        file: text.file.clone(),
        form: Form::List,
        matrix,
        first: read.first,
        sizes: [1, 2, 3, 4].map(|field| Some((first.number, field))),
        entries: read.entries,
    })
}

/// The columns of m rows.
fn entries(
    text: &Text,
    rows: &[Line],
    (m, rho): (u16, u16),
    read: &mut Entries,
) -> Result<(), Fault> {
    let count = if rho == 0 { 0 } else { usize::from(m) };
    for (i, row) in rows.iter().enumerate() {
        if i == count {
            let what = format!("a line after {}, and m is {m}", counted(count, "row"));
            return Err(text.of_line(row, what, "correct m, or take the line away"));
        }
        if row.len() != usize::from(rho) {
            let (i, has) = (i + read.first, counted(row.len(), "column"));
            let what = format!("row {i} has {has}, and rho is {rho}");
            return Err(text.of_line(row, what, "is a number missing, or one too many?"));
        }
        read.row(row)?;
    }
    if rows.len() < count {
        let what = format!(
            "the list ends after {}, and m is {m}",
            counted(rows.len(), "row")
        );
        return Err(text.at_end(what, "correct m, or add the rows"));
    }
    Ok(())
}

#[cfg(test)]
mod tests {
    use crate::matrix_file::MatrixFile;

    /// A list is taken as it stands, so that the check's refusals can be seen.
    #[test]
    fn as_it_stands() {
        let odd = "3 3 2 9\n1 0\n7 7\n0 65535\n";
        let matrix = MatrixFile::of("h", odd).unwrap().matrix;
        assert_eq!(matrix.list, [1, 0, 7, 7, 0, 65_535]);
        assert_eq!(matrix.plain(), odd);
        assert_eq!(matrix.alist(), None);
    }

    #[test]
    fn what_is_wrong() {
        for (contents, expected) in [
            ("3 65536 2 2\n0 1\n", "h:1:2: m: 65536 is above 65535"),
            (
                "3 3 2 2\n0 1\n1\n0 2\n",
                "h:3: row 1 has 1 column, and rho is 2",
            ),
            (
                "3 3 2 2\n0 1\n1 2 0\n0 2\n",
                "h:3: row 1 has 3 columns, and rho is 2",
            ),
            (
                "3 3 2 2\n0 1\n1 2\n",
                "h:3: the list ends after 2 rows, and m is 3",
            ),
            (
                "3 3 2 2\n0 1\n1 2\n0 2\n\n1 1\n",
                "h:6: a line after 3 rows, and m is 3",
            ),
            (
                "3 3 2 2\n0 -1\n1 2\n0 2\n",
                "h:2:2: column: `-1` is not a whole number",
            ),
        ] {
            let message = MatrixFile::of("h", contents).unwrap_err().to_string();
            assert!(message.starts_with(expected), "{message}");
        }
    }
}
