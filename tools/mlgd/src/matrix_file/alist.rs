//! MacKay's alist: n and m; the largest column and row weight; the weight of each column; of each
//! row; then a line of row numbers for each column and a line of column numbers for each row,
//! counted from 1, with or without zeros at the end of a line.

use super::{At, Form, Matrix, MatrixFile};
use crate::amount::counted;
use crate::fault::Fault;
use crate::text::{Line, Text};

/// A number and where it stands.
type Number = (u16, At);

/// What stands in a column or row: places from 0, ascending, each with its field.
type Places = Vec<(usize, At)>;

pub(super) fn read(text: &Text) -> Result<MatrixFile, Fault> {
    let mut alist = Alist {
        text,
        lines: text.lines.iter(),
    };
    let sizes = alist.numbers(2, "the sizes n and m")?;
    let largest = alist.numbers(2, "the largest weights")?;
    let [(n, n_at), (m, m_at)] = sizes[..] else {
        unreachable!("two numbers");
    };
    let weights = alist.weights(n, largest[0], "column")?;
    let (rho, rho_at) = alist.one_weight(m, largest[1])?;
    let (gamma, gamma_at) = *weights.iter().min().expect("n is not 0");
    alist.same_ones(&weights, m, (rho, rho_at))?;
    let columns = alist.columns(&weights, m)?;
    let (list, entries) = alist.rows(n, m, rho, &columns)?;
    if let Some(line) = alist.lines.next() {
        let what = format!("a line after {}", counted(m.into(), "row"));
        return Err(text.of_line(line, what, "correct m, or take the line away"));
    }
    Ok(MatrixFile {
        file: text.file.clone(),
        form: Form::Alist,
        matrix: Matrix {
            n,
            m,
            rho,
            gamma,
            list,
        },
        first: 1,
        sizes: [n_at, m_at, rho_at, gamma_at].map(Some),
        entries,
    })
}

/// A reader of alist files.
struct Alist<'a> {
    text: &'a Text,
    lines: std::slice::Iter<'a, Line>,
}

impl<'a> Alist<'a> {
    fn line(&mut self, what: &str, remedy: &str) -> Result<&'a Line, Fault> {
        let missing = || {
            let what = format!("the file ends before {what}");
            self.text.at_end(what, remedy)
        };
        self.lines.next().ok_or_else(missing)
    }

    /// A line of exactly `count` numbers from 1 to 65,535.
    fn numbers(&mut self, count: usize, what: &str) -> Result<Vec<Number>, Fault> {
        let line = self.line(what, "is the file whole?")?;
        if line.len() != count {
            let has = counted(line.len(), "number");
            let what = format!("{what}: {has} where {count} are due");
            let remedy = match line.len() < count && count > 2 {
                true => "is the line wrapped? Write all weights on one line",
                false => "an alist has n m, two weights, n column weights, m row weights",
            };
            return Err(self.text.of_line(line, what, remedy));
        }
        let mut numbers = Vec::with_capacity(count);
        for at in 0..count {
            let number = self.text.whole(line, at, what, u16::MAX)?;
            if number == 0 {
                let what = format!("{what}: 0 is too small");
                let remedy = "an alist begins with n m and counts from 1: bare rows of unlike \
                              lengths are not taken";
                return Err(self.text.at(line, at, what, remedy));
            }
            numbers.push((number, (line.number, at + 1)));
        }
        Ok(numbers)
    }

    /// The weights of all columns or all rows, the heaviest of which is the one given.
    fn weights(&mut self, count: u16, most: Number, what: &str) -> Result<Vec<Number>, Fault> {
        let weights = self.numbers(usize::from(count), &format!("the weights of the {what}s"))?;
        let heaviest = weights.iter().map(|weight| weight.0).max();
        if heaviest != Some(most.0) {
            let (line, field) = most.1;
            let said = format!(
                "the largest weight of a {what} is given as {}, and the {what}s have {}",
                most.0,
                heaviest.unwrap_or(0)
            );
            let place = self.text.place(line);
            return Err(place.at(field, said, "correct one of them"));
        }
        Ok(weights)
    }

    /// The weight of all rows, which is one.
    fn one_weight(&mut self, m: u16, most: Number) -> Result<Number, Fault> {
        let weights = self.weights(m, most, "row")?;
        let first = weights[0].0;
        if let Some(at) = weights.iter().position(|weight| weight.0 != first) {
            let (weight, (line, field)) = weights[at];
            let said = format!(
                "row {} has weight {weight} and row 1 has {first}: \
                 the decoder takes rows of one weight",
                at + 1
            );
            let remedy = "take a code whose checks have equally many bits";
            return Err(self.text.place(line).at(field, said, remedy));
        }
        Ok(most)
    }

    /// Columns and rows have the same ones.
    fn same_ones(&self, weights: &[Number], m: u16, (rho, at): Number) -> Result<(), Fault> {
        let by_columns: u32 = weights.iter().map(|weight| u32::from(weight.0)).sum();
        let by_rows = u32::from(m) * u32::from(rho);
        if by_columns == by_rows {
            return Ok(());
        }
        let what = format!("the weights make {by_columns} ones by columns and {by_rows} by rows");
        let place = self.text.place(at.0);
        Err(place.at(at.1, what, "correct the sizes or the weights"))
    }

    /// The rows of each column.
    fn columns(&mut self, weights: &[Number], m: u16) -> Result<Vec<Places>, Fault> {
        let mut columns = Vec::with_capacity(weights.len());
        for (j, &(weight, _)) in weights.iter().enumerate() {
            columns.push(self.places("column", j + 1, weight, "row", m, "is the file whole?")?);
        }
        Ok(columns)
    }

    /// The columns of each row, which are to be those of the first half.
    fn rows(
        &mut self,
        n: u16,
        m: u16,
        rho: u16,
        columns: &[Places],
    ) -> Result<(Vec<u16>, Vec<At>), Fault> {
        let remedy = "the half with the columns of each row is missing: give the rows alone as \
                      lines of columns, or the matrix as zeros and ones";
        let (mut list, mut entries) = (Vec::new(), Vec::new());
        for i in 1..=usize::from(m) {
            for (j, at) in self.places("row", i, rho, "column", n, remedy)? {
                let rows = &columns[j];
                if rows
                    .binary_search_by_key(&(i - 1), |(row, _)| *row)
                    .is_err()
                {
                    let j = j + 1;
                    let what = format!("row {i} has column {j}, but column {j} has no row {i}");
                    let remedy = format!("compare line {} with line {}", at.0, rows[0].1 .0);
                    return Err(self.text.place(at.0).at(at.1, what, remedy));
                }
                list.push(j as u16);
                entries.push(at);
            }
        }
        Ok((list, entries))
    }

    /// The places of one column or row, counted from 1, zeros at the end left out.
    fn places(
        &mut self,
        what: &str,
        number: usize,
        weight: u16,
        others: &str,
        most: u16,
        remedy: &str,
    ) -> Result<Places, Fault> {
        let line = self.line(&format!("{what} {number}"), remedy)?;
        let mut places: Places = Vec::with_capacity(usize::from(weight));
        let mut ended = false;
        for at in 0..line.len() {
            let place: u16 = self.text.whole(line, at, others, most)?;
            if place > 0 && ended {
                let said = format!("{what} {number} has a {others} after a 0");
                return Err(self.text.at(line, at, said, "zeros stand at the end only"));
            }
            ended = place == 0;
            if !ended {
                places.push((usize::from(place) - 1, (line.number, at + 1)));
            }
        }
        if places.len() != usize::from(weight) {
            let has = counted(places.len(), others);
            let said = format!("{what} {number} has {has}, and its weight is {weight}");
            return Err(self
                .text
                .of_line(line, said, "correct the line or the weight"));
        }
        places.sort_unstable();
        if let Some(pair) = places.windows(2).find(|pair| pair[0].0 == pair[1].0) {
            let said = format!("{others} {} stands twice in {what} {number}", pair[1].0 + 1);
            let place = self.text.place(line.number);
            return Err(place.at(pair[1].1 .1, said, "take one of them away"));
        }
        Ok(places)
    }
}

#[cfg(test)]
mod tests {
    use crate::matrix_file::MatrixFile;

    const ALIST: &str = "3 3\n2 2\n2 2 2\n2 2 2\n1 3\n1 2\n2 3\n1 2\n2 3\n1 3\n";

    /// The message for the file with one of its lines replaced.
    fn message(at: usize, line: &str) -> String {
        let mut lines: Vec<&str> = ALIST.lines().collect();
        lines[at] = line;
        let contents = lines.join("\n");
        MatrixFile::of("h", &contents).unwrap_err().to_string()
    }

    /// A line, what to put in its place, and how the message begins.
    const WRONG: &[(usize, &str, &str)] = &[
        (0, "3 0", "h:1:2: the sizes n and m: 0 is too small"),
        (
            0,
            "4 3",
            "h:3: the weights of the columns: 3 numbers where 4 are due, is the line wrapped?",
        ),
        (1, "2", "h:2: the largest weights: 1 number where 2 are due"),
        (
            1,
            "3 2",
            "h:2:1: the largest weight of a column is given as 3, and the columns have 2",
        ),
        (
            2,
            "2 3 2",
            "h:2:1: the largest weight of a column is given as 2, and the columns have 3",
        ),
        (
            2,
            "2 1 2",
            "h:2:2: the weights make 5 ones by columns and 6 by rows",
        ),
        (
            3,
            "2 2 1",
            "h:4:3: row 3 has weight 1 and row 1 has 2: the decoder takes rows of one",
        ),
        (4, "1 4", "h:5:2: row: 4 is above 3"),
        (4, "1 0", "h:5: column 1 has 1 row, and its weight is 2"),
        (4, "1 2 3", "h:5: column 1 has 3 rows, and its weight is 2"),
        (4, "0 1 3", "h:5:2: column 1 has a row after a 0"),
        (4, "1 1", "h:5:2: row 1 stands twice in column 1"),
        (
            8,
            "1 3",
            "h:9:1: row 2 has column 1, but column 1 has no row 2, compare line 9 with line 5",
        ),
        (
            9,
            "",
            "h:9: the file ends before row 3, the half with the columns of each row",
        ),
    ];

    #[test]
    fn what_is_wrong() {
        for &(at, line, expected) in WRONG {
            let message = message(at, line);
            assert!(message.starts_with(expected), "{line}: {message}");
        }
        let fault = |contents: &str| MatrixFile::of("h", contents).unwrap_err().to_string();
        let longer = format!("{ALIST}1 2\n");
        assert!(fault(&longer).starts_with("h:11: a line after 3 rows"));
        let unlike = "3 2\n2 2\n2 2 2\n2 2\n";
        let expected = "h:2:2: the weights make 6 ones by columns and 4 by rows";
        assert!(fault(unlike).starts_with(expected));
    }

    /// Columns of 2, 1 and 1 rows, the shorter ones with a zero at the end or without.
    #[test]
    fn unlike_columns() {
        let padded = "3 2\n2 2\n2 1 1\n2 2\n1 2\n1 0\n2 0\n1 2\n1 3\n";
        let bare = padded.replace(" 0\n", "\n");
        for contents in [padded, &bare] {
            let file = MatrixFile::of("h", contents).unwrap();
            assert_eq!(file.summary(), "n 3, m 2, rho 2, gamma 1, t 0");
            assert_eq!(file.matrix.list, [0, 1, 0, 2]);
            assert_eq!(file.sizes[3], Some((3, 2)));
            assert_eq!(file.matrix.alist().as_deref(), Some(padded));
        }
        let fault = |contents: &str| MatrixFile::of("h", contents).unwrap_err().to_string();
        let filled = padded.replace("1 0\n", "1 2\n");
        let expected = "h:6: column 2 has 2 rows, and its weight is 1";
        assert!(fault(&filled).starts_with(expected));
    }
}
