//! The command `mlgd`: calls the subcommand that is named.

use mlgd::fault::Fault;
use mlgd::status::{Status, FAULT};
use mlgd::{decode, map, matrix, output, pack, simulate, unpack};
use std::ffi::OsString;
use std::process::ExitCode;

/// A subcommand: its name, what it does, and the function that does it.
type Subcommand = (
    &'static str,
    &'static str,
    fn(&[String]) -> Result<Status, Fault>,
);

const SUBCOMMANDS: &[Subcommand] = &[
    (
        "decode",
        "samples to a results table, by the proved program",
        decode::run,
    ),
    (
        "map",
        "a results table as a picture: a cell for each block",
        map::run,
    ),
    (
        "simulate",
        "error rates of a code under white noise, as a table and a curve",
        simulate::run,
    ),
    (
        "matrix",
        "what a matrix promises, or why it is refused; conversion",
        matrix::run,
    ),
    ("pack", "the program's input from files", pack::run),
    ("unpack", "the program's input back to files", unpack::run),
];

fn usage() -> String {
    let mut text = String::from(
        "mlgd SUBCOMMAND ..\n\n\
         Decodes blocks of binary parity-check codes, with a promise that is proved.\n\n",
    );
    for (name, help, _) in SUBCOMMANDS {
        text += &format!("mlgd {name:<9} {help}\n");
    }
    text + "\nmlgd SUBCOMMAND --help tells its options; mlgd --version the version.\n\
            Status 0: done, every block decoded; 1: some blocks open (failed or refused); 2: a fault.\n"
}

fn run(words: &[String]) -> Result<Status, Fault> {
    let Some(word) = words.first() else {
        return Err(Fault::usage("mlgd", "a subcommand is missing"));
    };
    match word.as_str() {
        "--help" | "-h" | "help" => output::print(&usage()).map(|()| Status::Done),
        "--version" | "-V" => {
            let version = concat!("mlgd ", env!("CARGO_PKG_VERSION"), "\n");
            output::print(version).map(|()| Status::Done)
        }
        _ => match SUBCOMMANDS.iter().find(|(name, _, _)| name == word) {
            Some((_, _, run)) => run(&words[1..]),
            None => Err(Fault::usage("mlgd", format!("`{word}` is no subcommand"))),
        },
    }
}

/// A word of the command line. A name that is no UTF-8 is refused: a file of another name would be
/// read or written.
fn word(word: OsString) -> Result<String, Fault> {
    word.into_string().map_err(|word| {
        let what = format!("`{}` is no UTF-8 text", word.display());
        Fault::new("mlgd", what).remedy("rename the file, or write the word anew")
    })
}

fn main() -> ExitCode {
    let words: Result<Vec<String>, Fault> = std::env::args_os().skip(1).map(word).collect();
    match words.and_then(|words| run(&words)) {
        Ok(status) => status.code().into(),
        Err(fault) => {
            output::tell(fault);
            FAULT.into()
        }
    }
}
