//! A parity-check matrix from a file: alist, a plain list with its sizes, bare rows, zeros and ones,
//! or a circulant sheet. Whether it is accepted is for the proved check to say: see
//! [`crate::checked`].

mod alist;
mod dense;
mod list;
mod rows;
mod sheet;
mod write;

use crate::fault::Fault;
use crate::text::{Line, Text};

/// Sizes and list, as the program reads them. Gamma is the smallest column weight.
#[derive(Clone, Debug, PartialEq, Eq)]
pub struct Matrix {
    pub n: u16,
    pub m: u16,
    pub rho: u16,
    pub gamma: u16,
    pub list: Vec<u16>,
}

impl Matrix {
    /// How many wrong bits are always undone: t, half of gamma rounded down.
    pub fn guaranteed(&self) -> usize {
        usize::from(self.gamma / 2)
    }

    /// The bytes of a word.
    pub fn word_bytes(&self) -> usize {
        usize::from(self.n).div_ceil(8)
    }

    /// The weight of each column.
    pub fn weights(&self) -> Vec<usize> {
        weights(self.n.into(), &self.list)
    }

    /// The smallest and the largest column weight, if they differ.
    pub fn unlike_weights(&self) -> Option<(usize, usize)> {
        let weights = self.weights();
        let (least, most) = (*weights.iter().min()?, *weights.iter().max()?);
        (least < most).then_some((least, most))
    }

    /// The columns of each row.
    pub fn rows(&self) -> std::slice::Chunks<'_, u16> {
        self.list.chunks(usize::from(self.rho).max(1))
    }
}

/// How a file writes a matrix.
#[derive(Clone, Copy, Debug, PartialEq, Eq)]
pub enum Form {
    /// MacKay's: sizes, weights, the rows of each column, the columns of each row, from 1.
    Alist,
    /// n m rho gamma, then the columns of each row, from 0.
    List,
    /// The columns of each row, from 0.
    Rows,
    /// Zeros and ones.
    Dense,
    /// Blocks that are zeros or shifted identities: so many block rows, block columns, and their
    /// size.
    Sheet([u16; 3]),
}

impl Form {
    pub fn shown(self) -> String {
        match self {
            Form::Alist => "alist".into(),
            Form::List => "a list with sizes".into(),
            Form::Rows => "rows without sizes".into(),
            Form::Dense => "zeros and ones".into(),
            Form::Sheet([rows, columns, size]) => {
                format!("a sheet of {rows} × {columns} blocks of {size}")
            }
        }
    }
}

/// Line and field, both from 1.
pub(crate) type At = (usize, usize);

/// A matrix and where its parts stand in the file.
#[derive(Clone, Debug)]
pub struct MatrixFile {
    pub file: String,
    pub form: Form,
    pub matrix: Matrix,
    /// What the file calls the first row and column: 0 or 1.
    pub(crate) first: usize,
    /// Where n, m, rho and gamma stand or follow from, if there is such a place.
    pub(crate) sizes: [Option<At>; 4],
    /// Where each entry of the list stands.
    pub(crate) entries: Vec<At>,
}

impl MatrixFile {
    /// Reads a file of any form. With `from_one` the columns of a list or of bare rows are
    /// counted from 1.
    pub fn open(file: &str, from_one: bool) -> Result<MatrixFile, Fault> {
        if sheet::is_named(file) {
            let read = sheet::open(file)?;
            refuse_from_one(file, read.form, from_one)?;
            return Ok(read);
        }
        MatrixFile::read(&Text::open(file)?, from_one)
    }

    /// Reads a file of any form that is text.
    pub(crate) fn read(text: &Text, from_one: bool) -> Result<MatrixFile, Fault> {
        let form = form_of(text)?;
        refuse_from_one(&text.file, form, from_one)?;
        match form {
            Form::Alist => alist::read(text),
            Form::List => list::read(text, from_one),
            Form::Dense => dense::read(text),
            _ => rows::read(text, from_one),
        }
    }

    /// The same from a text at hand.
    pub fn of(file: &str, contents: &str) -> Result<MatrixFile, Fault> {
        MatrixFile::read(&Text::of(file, contents)?, false)
    }

    /// The line of a row, counted from 0.
    pub(crate) fn line_of_row(&self, row: usize) -> usize {
        let at = row * usize::from(self.matrix.rho);
        self.entries.get(at).map_or(1, |at| at.0)
    }

    /// "n 155, m 93, rho 5, gamma 3, t 1"
    pub fn summary(&self) -> String {
        let h = &self.matrix;
        let (n, m, rho, gamma, t) = (h.n, h.m, h.rho, h.gamma, h.guaranteed());
        format!("n {n}, m {m}, rho {rho}, gamma {gamma}, t {t}")
    }
}

/// Refuses an output whose name says that it is what it is not: a sheet's name ends in .sheet, that
/// of a text does not. Standard output has no name.
pub(crate) fn refuse_misnamed(out: Option<&str>, is_sheet: bool) -> Result<(), Fault> {
    let Some(name) = out.filter(|name| *name != "-") else {
        return Ok(());
    };
    let (what, remedy) = match (is_sheet, sheet::is_named(name)) {
        (true, false) => (
            "a sheet of this name would be read as text",
            "give it a name like code.sheet",
        ),
        (false, true) => (
            "a text of this name would be read as a sheet",
            "give it a name that does not end in .sheet",
        ),
        _ => return Ok(()),
    };
    Err(Fault::new(name, what).remedy(remedy))
}

/// Refuses --from-one where the form says from what columns are counted.
fn refuse_from_one(file: &str, form: Form, from_one: bool) -> Result<(), Fault> {
    if !from_one || matches!(form, Form::List | Form::Rows) {
        return Ok(());
    }
    let form = form.shown();
    let what = format!("this file is {form}, which --from-one does not fit");
    Err(Fault::new(file, what).remedy("leave --from-one out"))
}

/// A line's fields as numbers, if all are; one that is too large for any size is the largest.
fn numbers(line: &Line) -> Option<Vec<u64>> {
    let digits = |field: &str| field.bytes().all(|byte| byte.is_ascii_digit());
    let number = |field: &str| digits(field).then(|| field.parse().unwrap_or(u64::MAX));
    line.fields().map(number).collect()
}

/// Whether a line consists of zeros and ones alone.
fn zeros_and_ones(line: &Line) -> bool {
    let bits = |field: &str| field.bytes().all(|byte| byte == b'0' || byte == b'1');
    line.fields().all(bits) && (line.len() == 1 || line.fields().all(|field| field.len() == 1))
}

/// Whether lines of as many zeros and ones as a size says stand under sizes. A list of the one row
/// 0 1 has rho columns in each line.
fn sizes_before_bits(head: &[u64], rows: &[Line]) -> bool {
    let Some(row) = rows.first() else {
        return false;
    };
    let width = dense::width(row);
    let bits = |line: &Line| zeros_and_ones(line) && dense::width(line) == width;
    let is_list = head.len() == 4 && head[2] == row.len() as u64;
    let is_size = head.len() <= 4 && head.contains(&(width as u64));
    is_size && !is_list && rows.iter().all(bits)
}

/// Tells the forms apart. An accepted list's first line never ascends: rho is at most n.
fn form_of(text: &Text) -> Result<Form, Fault> {
    let Some(first) = text.lines.first() else {
        return Err(text.at_end("a matrix is missing".into(), "is this the right file?"));
    };
    if text.lines.iter().all(zeros_and_ones) {
        if text.lines.iter().all(|line| line.fields().eq(["0", "1"])) {
            let what = "`0 1` could be columns or bits".to_string();
            let remedy = "write n m rho gamma on a line before it";
            return Err(text.of_line(first, what, remedy));
        }
        return Ok(Form::Dense);
    }
    let alike = text.lines.iter().all(|line| line.len() == first.len());
    let head = numbers(first).unwrap_or_default();
    let ascends = head.windows(2).all(|pair| pair[0] < pair[1]);
    if !(alike && ascends && head.len() > 1) && sizes_before_bits(&head, &text.lines[1..]) {
        let what = "a line of sizes before zeros and ones".to_string();
        return Err(text.of_line(first, what, "leave the sizes line out"));
    }
    match head[..] {
        [_, _] if !(alike && ascends) => Ok(Form::Alist),
        [n, m, rho, gamma] => {
            let (by_rows, by_columns) = (m.checked_mul(rho), n.checked_mul(gamma));
            let enough = rho == first.len() as u64 && by_rows >= by_columns;
            let counted = m == text.lines.len() as u64 - 1 || by_rows == by_columns || enough;
            let sizes = !ascends && (counted || !alike);
            Ok(if sizes { Form::List } else { Form::Rows })
        }
        _ => Ok(Form::Rows),
    }
}

/// The gamma of these columns of n: the smallest weight.
fn smallest_weight(text: &Text, n: usize, list: &[u16]) -> Result<u16, Fault> {
    let smallest = weights(n, list).into_iter().min().unwrap_or(0);
    let too_many = |_| text.at_end("there are too many rows".into(), "is this the right file?");
    u16::try_from(smallest).map_err(too_many)
}

/// How often each of n columns stands in the list; columns that are not below n are left out.
fn weights(n: usize, list: &[u16]) -> Vec<usize> {
    let mut weights = vec![0; n];
    for &column in list {
        if let Some(weight) = weights.get_mut(usize::from(column)) {
            *weight += 1;
        }
    }
    weights
}

pub(crate) const COUNTED_FROM_1: &str = "counted from 1? Then give --from-one";

#[cfg(test)]
mod tests {
    use super::{Form, Matrix, MatrixFile};

    fn triangle() -> Matrix {
        Matrix {
            n: 3,
            m: 3,
            rho: 2,
            gamma: 2,
            list: vec![0, 1, 1, 2, 0, 2],
        }
    }

    #[test]
    fn every_form() {
        let alist = "3 3\n2 2\n2 2 2\n2 2 2\n1 3\n1 2\n2 3\n1 2\n2 3\n1 3\n";
        for (contents, form) in [
            (alist, Form::Alist),
            (
                "3 3 # n m\n2 2\n2 2 2\n2 2 2\n\n3 1 0 0\n1 2\n2 3\n2,1\n3,2\n3,1\n",
                Form::Alist,
            ),
            ("3 3 2 2\n0 1\n1 2\n0 2\n", Form::List),
            ("0 1\n1 2\n0 2\n", Form::Rows),
            ("1 1 0\n0 1 1\n1 0 1\n", Form::Dense),
            ("110\n011\n101\n", Form::Dense),
        ] {
            let file = MatrixFile::of("h", contents).unwrap();
            assert_eq!((file.form, &file.matrix), (form, &triangle()), "{contents}");
        }
        assert_eq!(
            MatrixFile::of("h", alist).unwrap().matrix.alist().unwrap(),
            alist
        );
    }

    /// The same columns of 2, 1 and 1 ones in every form.
    #[test]
    fn unlike_columns_in_every_form() {
        let fork = MatrixFile::of("h", "3 2 2 1\n0 1\n0 2\n").unwrap().matrix;
        assert_eq!((fork.gamma, &fork.list[..]), (1, &[0, 1, 0, 2][..]));
        for (contents, form) in [
            ("3 2\n2 2\n2 1 1\n2 2\n1 2\n1\n2\n1 2\n1 3\n", Form::Alist),
            ("3 2 2 1\n0 1\n0 2\n", Form::List),
            ("0 1\n0 2\n", Form::Rows),
            ("1 1 0\n1 0 1\n", Form::Dense),
        ] {
            let file = MatrixFile::of("h", contents).unwrap();
            assert_eq!((file.form, &file.matrix), (form, &fork), "{contents}");
        }
        assert_eq!(fork.unlike_weights(), Some((1, 2)));
        assert_eq!(triangle().unlike_weights(), None);
    }

    /// Rows of four columns are no sizes, whatever stands first.
    #[test]
    fn rows_of_four() {
        let rows = "0 1 2 3\n4 5 6 7\n";
        let file = MatrixFile::of("h", rows).unwrap();
        assert_eq!(
            (file.form, file.matrix.n, file.matrix.gamma),
            (Form::Rows, 8, 1)
        );
        assert_eq!(file.matrix.bare_rows(), rows);
        let file = MatrixFile::of("h", "8 2 4 1\n0 1 2 3\n4 5 6 7\n").unwrap();
        assert_eq!((file.form, file.matrix.m), (Form::List, 2));
        // Unlike columns and a row too few: sizes all the same.
        let short = MatrixFile::of("h", "10 3 4 1\n0 1 2 3\n0 4 5 6\n").unwrap_err();
        let expected = "h:3: the list ends after 2 rows, and m is 3";
        assert!(short.to_string().starts_with(expected), "{short}");
    }

    #[test]
    fn what_has_no_form() {
        let message = |contents: &str| MatrixFile::of("h", contents).unwrap_err().to_string();
        assert!(message("").starts_with("h:1: a matrix is missing"));
        assert!(message("0 1\n").starts_with("h:1: `0 1` could be columns or bits"));
        let huge = "99999999999999999999";
        let said = message(&format!("{huge} 1 2 3\n0 1\n"));
        assert!(
            said.starts_with(&format!("h:1:1: n: {huge} is above 65535")),
            "{said}"
        );
        let said = message("4294967295 4294967295\n4294967295 4294967295\n");
        assert!(
            said.starts_with("h:1:1: the sizes n and m: 4294967295 is above 65535"),
            "{said}"
        );
    }
}
