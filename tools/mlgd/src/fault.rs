//! What is wrong with an input or with the system: where it is, what it is, what to do about it.

use std::fmt;
use std::io::{self, ErrorKind};

/// A reason to stop. It is shown as `file:line:field: what, remedy`, and the status is 2.
#[derive(Clone, Debug, PartialEq, Eq)]
pub struct Fault {
    file: String,
    line: Option<usize>,
    field: Option<usize>,
    what: String,
    remedy: String,
}

impl Fault {
    /// A fault of a file as a whole.
    pub fn new(file: impl Into<String>, what: impl Into<String>) -> Fault {
        Fault {
            file: file.into(),
            line: None,
            field: None,
            what: what.into(),
            remedy: String::new(),
        }
    }

    /// The same at a line, counted from 1.
    pub fn line(mut self, line: usize) -> Fault {
        self.line = Some(line);
        self
    }

    /// The same at a field of its line, counted from 1.
    pub fn field(mut self, field: usize) -> Fault {
        self.field = Some(field);
        self
    }

    /// The same with what to do about it.
    pub fn remedy(mut self, remedy: impl Into<String>) -> Fault {
        self.remedy = remedy.into();
        self
    }

    /// A command line that cannot be followed.
    pub fn usage(command: &str, what: impl Into<String>) -> Fault {
        Fault::new(command, what).remedy(format!("see {command} --help"))
    }

    /// What the system says of a file.
    pub fn system(file: impl Into<String>, error: &io::Error) -> Fault {
        let remedy = match error.kind() {
            ErrorKind::NotFound | ErrorKind::NotADirectory => "is the name right?",
            ErrorKind::IsADirectory => "give the name of a file",
            ErrorKind::PermissionDenied => "are you allowed to use it?",
            ErrorKind::ReadOnlyFilesystem => "give a folder that can be written to",
            ErrorKind::InvalidFilename => "give a shorter name",
            ErrorKind::StorageFull | ErrorKind::QuotaExceeded => {
                "make room and run it again: what is there is not whole"
            }
            ErrorKind::BrokenPipe => "what reads the output ended too early",
            _ => "look at the file and its disk, and run it again",
        };
        let said = error.to_string();
        // Its number says nothing more.
        let what = said.split(" (os error").next().unwrap_or_default();
        Fault::new(file, what).remedy(remedy)
    }
}

impl fmt::Display for Fault {
    fn fmt(&self, f: &mut fmt::Formatter) -> fmt::Result {
        f.write_str(&self.file)?;
        for number in [self.line, self.field].into_iter().flatten() {
            write!(f, ":{number}")?;
        }
        write!(f, ": {}", self.what)?;
        match self.remedy.as_str() {
            "" => Ok(()),
            remedy => write!(f, ", {remedy}"),
        }
    }
}

impl std::error::Error for Fault {}

/// A text as a message shows it: no more than 40 characters of it, and none that would move a
/// terminal's cursor or change its colours.
pub fn short(text: &str) -> String {
    let shown = |character: char| match character.is_control() {
        true => char::REPLACEMENT_CHARACTER,
        false => character,
    };
    let mut short: String = text.chars().take(40).map(shown).collect();
    if text.chars().nth(40).is_some() {
        short += "..";
    }
    short
}

/// A line of a file, for faults in it.
#[derive(Clone, Copy, Debug)]
pub struct Place<'a> {
    pub file: &'a str,
    pub line: usize,
}

impl Place<'_> {
    /// A fault of the whole line.
    pub fn fault(self, what: impl Into<String>, remedy: impl Into<String>) -> Fault {
        Fault::new(self.file, what).line(self.line).remedy(remedy)
    }

    /// A fault of one field, counted from 1.
    pub fn at(self, field: usize, what: impl Into<String>, remedy: impl Into<String>) -> Fault {
        self.fault(what, remedy).field(field)
    }
}

#[cfg(test)]
mod tests {
    use super::{short, Fault, Place};

    #[test]
    fn shown_with_its_place_and_remedy() {
        let place = Place {
            file: "y.csv",
            line: 3,
        };
        let fault = place.at(5, "`six` is not a number", "write 6");
        assert_eq!(
            fault.to_string(),
            "y.csv:3:5: `six` is not a number, write 6"
        );
        let fault = place.fault("the line is empty", "");
        assert_eq!(fault.to_string(), "y.csv:3: the line is empty");
        assert_eq!(short("0.5"), "0.5");
        assert_eq!(short("\u{1b}[2J7"), "\u{fffd}[2J7");
        assert_eq!(short(&"\u{2212}".repeat(50)), "\u{2212}".repeat(40) + "..");
        let fault = Fault::usage("mlgd decode", "--rows is not an option");
        let expected = "mlgd decode: --rows is not an option, see mlgd decode --help";
        assert_eq!(fault.to_string(), expected);
    }
}
