//! `mlgd unpack`: the program's input back to files.

use crate::arguments::{asks_help, Arguments, Known};
use crate::fault::Fault;
use crate::lines::shown;
use crate::matrix_file::{refuse_misnamed, Matrix};
use crate::output::{keep_apart, print, tell, whole, Output};
use crate::samples_file::csv_line;
use crate::setting::Setting;
use crate::status::Status;
use std::fs::File;
use std::io::{stdin, BufRead, BufReader, ErrorKind};

pub const USAGE: &str = "\
mlgd unpack INPUT [--matrix M] [--setting S] [--samples X.csv] [--alist]

Turns the input of the proved program back into files; those that are not named are not written.
- is standard output for one of them, and standard input for INPUT.

--matrix M        the matrix, as a list with sizes; M does not end in .sheet
--alist           the matrix as an alist file
--setting S       the setting, as a line of words
--samples X.csv   the samples, a line of comma-separated numbers for each block
";

const KNOWN: Known = Known {
    command: "mlgd unpack",
    values: &["--matrix", "--setting", "--samples"],
    flags: &["--alist"],
    files: 1,
};

pub fn run(words: &[String]) -> Result<Status, Fault> {
    if asks_help(words) {
        return print(USAGE).map(|()| Status::Done);
    }
    let arguments = Arguments::read(words, &KNOWN)?;
    let name = arguments.needed_file("the input's name")?;
    let outputs: Vec<Option<&str>> = KNOWN
        .values
        .iter()
        .map(|out| arguments.value(out))
        .collect();
    keep_apart(&outputs, &[Some(name)])?;
    refuse_misnamed(arguments.value("--matrix"), false)?;
    let mut input = Input::open(name)?;
    let (matrix, setting) = input.head()?;
    if let Some(out) = arguments.value("--matrix") {
        let text = as_text(&matrix, name, arguments.flag("--alist"))?;
        whole(Some(out), &text)?;
    }
    if let Some(out) = arguments.value("--setting") {
        whole(Some(out), &format!("{setting}\n"))?;
    }
    let blocks = input.blocks(&matrix, arguments.value("--samples"))?;
    let Matrix {
        n, m, rho, gamma, ..
    } = matrix;
    tell(format!(
        "n {n}, m {m}, rho {rho}, gamma {gamma}, blocks {blocks}"
    ));
    Ok(Status::Done)
}

/// The matrix as a list or as an alist file.
fn as_text(matrix: &Matrix, name: &str, alist: bool) -> Result<String, Fault> {
    if !alist {
        return Ok(matrix.plain());
    }
    matrix.alist().ok_or_else(|| {
        let what = "this matrix has no alist form";
        Fault::new(shown(name), what).remedy("leave out --alist to see its list")
    })
}

/// An input being read. It has to be whole: the program would print "short".
pub struct Input {
    name: String,
    input: Box<dyn BufRead>,
    at: usize,
}

impl Input {
    fn open(name: &str) -> Result<Input, Fault> {
        if name == "-" {
            return Ok(Input::of(name, BufReader::new(stdin())));
        }
        let file = File::open(name).map_err(|error| Fault::system(name, &error))?;
        Ok(Input::of(name, BufReader::with_capacity(1 << 16, file)))
    }

    pub fn of(name: &str, input: impl BufRead + 'static) -> Input {
        Input {
            name: shown(name).into(),
            input: Box::new(input),
            at: 0,
        }
    }

    /// The matrix and the setting.
    pub fn head(&mut self) -> Result<(Matrix, Setting), Fault> {
        let [n, m, rho, gamma] = [
            self.number("n")?,
            self.number("m")?,
            self.number("rho")?,
            self.number("gamma")?,
        ];
        let entries = usize::from(m) * usize::from(rho);
        let list = (0..entries).map(|_| self.number("the list"));
        let list: Result<Vec<u16>, Fault> = list.collect();
        let matrix = Matrix {
            n,
            m,
            rho,
            gamma,
            list: list?,
        };
        let setting = Setting {
            bits: self.take::<1>("the width")?[0],
            limit: self.take::<1>("the round limit")?[0],
            kind: self.take::<1>("the kind of step")?[0],
            step: self.float("the step")?,
        };
        Ok((matrix, setting))
    }

    /// Writes all blocks, if they are wanted, and counts them.
    fn blocks(&mut self, matrix: &Matrix, out: Option<&str>) -> Result<usize, Fault> {
        let output = out.map(|out| Output::create(Some(out)));
        let (mut output, mut blocks) = (output.transpose()?, 0);
        while let Some(line) = self.block(matrix, blocks)? {
            blocks += 1;
            if let Some(output) = &mut output {
                output.write(line.as_bytes())?;
            }
        }
        output.map_or(Ok(()), Output::finish)?;
        Ok(blocks)
    }

    /// A block as a line of CSV; none at the end.
    pub fn block(&mut self, matrix: &Matrix, number: usize) -> Result<Option<String>, Fault> {
        let left = self
            .input
            .fill_buf()
            .map_err(|error| Fault::system(&self.name, &error))?;
        if left.is_empty() {
            return Ok(None);
        }
        if matrix.n == 0 {
            return Err(self.fault("a code of no bits has no samples".into()));
        }
        let what = format!("block {number}");
        let samples = (0..matrix.n).map(|_| self.float(&what));
        let samples: Result<Vec<f32>, Fault> = samples.collect();
        Ok(Some(csv_line(&samples?)))
    }

    fn fault(&self, what: String) -> Fault {
        let what = format!("byte {}: {what}", self.at);
        Fault::new(&self.name, what).remedy("is the file whole?")
    }

    fn take<const COUNT: usize>(&mut self, what: &str) -> Result<[u8; COUNT], Fault> {
        let mut bytes = [0; COUNT];
        match self.input.read_exact(&mut bytes) {
            Ok(()) => {
                self.at += COUNT;
                Ok(bytes)
            }
            Err(error) if error.kind() == ErrorKind::UnexpectedEof => {
                Err(self.fault(format!("the input ends inside {what}")))
            }
            Err(error) => Err(Fault::system(&self.name, &error)),
        }
    }

    fn number(&mut self, what: &str) -> Result<u16, Fault> {
        Ok(u16::from_le_bytes(self.take(what)?))
    }

    fn float(&mut self, what: &str) -> Result<f32, Fault> {
        Ok(f32::from_bits(u32::from_le_bytes(self.take(what)?)))
    }
}

/// What an input holds: matrix, setting, and the blocks as CSV.
pub fn unpacked(name: &str, bytes: &[u8]) -> Result<(Matrix, Setting, String), Fault> {
    let mut input = Input::of(name, std::io::Cursor::new(bytes.to_vec()));
    let (matrix, setting) = input.head()?;
    let (mut csv, mut blocks) = (String::new(), 0);
    while let Some(line) = input.block(&matrix, blocks)? {
        csv += &line;
        blocks += 1;
    }
    Ok((matrix, setting, csv))
}
