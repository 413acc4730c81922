//! `mlgd matrix`: what a matrix promises, or why it is refused; and its conversion.

use crate::arguments::{asks_help, Arguments, Known};
use crate::checked;
use crate::fault::Fault;
use crate::matrix_file::{refuse_misnamed, MatrixFile};
use crate::output::{is_terminal, keep_apart, print, tell, whole_bytes};
use crate::status::Status;

pub const USAGE: &str = "\
mlgd matrix M [--to alist|list|rows|sheet] [--z Z] [--out FILE] [--from-one]

Says n, m, rho, gamma and the guaranteed number t of a parity-check matrix, and whether the proved
check accepts it. Rows have one weight, rho; columns may have unlike weights, and gamma is the
smallest of them. M is
  an alist file (MacKay's, with or without zeros at the ends of lines),
  a list: n m rho gamma, then the columns of each row, counted from 0,
  bare rows: the columns of each row, counted from 0,
  zeros and ones, a line for each row, with or without blanks, or
  a sheet, if its name ends in .sheet: a grid of blocks, zeros and shifted identities, as bytes.

--to alist        writes it as an alist file, to standard output or FILE
--to list         as a list with its sizes
--to rows         as bare rows
--to sheet --z Z  as a sheet with blocks of Z × Z, if it is such a grid; with --z 1 any matrix is
--out FILE        the matrix is written there; a sheet's FILE ends in .sheet, no other does
--from-one        a list or bare rows count columns from 1

Status 0: accepted; 2: refused, with place and remedy on standard error.
";

const KNOWN: Known = Known {
    command: "mlgd matrix",
    values: &["--to", "--z", "--out"],
    flags: &["--from-one"],
    files: 1,
};

/// "h: n 155, m 93, rho 5, gamma 3, t 1: accepted (alist)", with the weights of unlike columns.
fn verdict(file: &MatrixFile) -> String {
    let unlike = match file.matrix.unlike_weights() {
        Some((least, most)) => format!(", columns of {least} to {most} ones"),
        None => String::new(),
    };
    let (summary, form) = (file.summary(), file.form.shown());
    format!("{}: {summary}{unlike}: accepted ({form})", file.file)
}

/// Refuses --z without a sheet, a sheet that a terminal would show, and an output whose name says that
/// it is what it is not.
fn refuse_misused(arguments: &Arguments) -> Result<(), Fault> {
    let (to, out) = (arguments.value("--to"), arguments.value("--out"));
    let to_sheet = to == Some("sheet");
    if !to_sheet && arguments.value("--z").is_some() {
        return Err(arguments.misused("--z goes with --to sheet"));
    }
    if to_sheet && is_terminal(out) {
        return Err(arguments.misused("a sheet is no text for a terminal: give --out"));
    }
    match to {
        Some("alist" | "list" | "rows" | "sheet") => refuse_misnamed(out, to_sheet),
        _ => Ok(()),
    }
}

/// The matrix in the form that --to names.
fn converted(file: &MatrixFile, to: &str, arguments: &Arguments) -> Result<Vec<u8>, Fault> {
    let text = match to {
        "list" => Some(file.matrix.plain()),
        "rows" => Some(file.matrix.bare_rows()),
        "alist" => file.matrix.alist(),
        "sheet" => {
            let z = arguments.needed_number("--z", 1..=65_535)?;
            return checked::sheet(file, z as u16);
        }
        _ => {
            let what = format!("--to is alist, list, rows or sheet, and not `{to}`");
            return Err(arguments.misused(what));
        }
    };
    let no_form = || Fault::new(&file.file, "this matrix has no such form").remedy("try --to list");
    text.map(String::into_bytes).ok_or_else(no_form)
}

pub fn run(words: &[String]) -> Result<Status, Fault> {
    if asks_help(words) {
        return print(USAGE).map(|()| Status::Done);
    }
    let arguments = Arguments::read(words, &KNOWN)?;
    let name = arguments.needed_file("the matrix's file")?;
    let out = arguments.value("--out");
    refuse_misused(&arguments)?;
    let file = MatrixFile::open(name, arguments.flag("--from-one"))?;
    checked::matrix(&file)?;
    let verdict = verdict(&file);
    let Some(to) = arguments.value("--to") else {
        print(&format!("{verdict}\n"))?;
        return Ok(Status::Done);
    };
    let contents = converted(&file, to, &arguments)?;
    keep_apart(&[out], &[Some(name)])?;
    whole_bytes(out, &contents)?;
    tell(verdict);
    Ok(Status::Done)
}
