//! A small reader of command lines: options with a value, options without, and file names.

use crate::fault::Fault;
use std::ops::RangeInclusive;

/// What a subcommand understands.
#[derive(Clone, Copy, Debug)]
pub struct Known {
    /// The command as it is called, for messages.
    pub command: &'static str,
    /// Options that have a value after them, `--name value` or `--name=value`.
    pub values: &'static [&'static str],
    /// Options that stand alone.
    pub flags: &'static [&'static str],
    /// How many file names there may be.
    pub files: usize,
}

/// What the command line says.
#[derive(Clone, Debug)]
pub struct Arguments {
    command: &'static str,
    values: Vec<(&'static str, String)>,
    flags: Vec<&'static str>,
    files: Vec<String>,
}

/// Whether help is asked for.
pub fn asks_help(words: &[String]) -> bool {
    words.iter().any(|word| word == "--help" || word == "-h")
}

impl Arguments {
    pub fn read(words: &[String], known: &Known) -> Result<Arguments, Fault> {
        let mut arguments = Arguments {
            command: known.command,
            values: Vec::new(),
            flags: Vec::new(),
            files: Vec::new(),
        };
        let mut words = words.iter();
        while let Some(word) = words.next() {
            if word.is_empty() {
                return Err(arguments.misused("a file name is empty"));
            } else if word.starts_with('-') && word != "-" {
                arguments.option(word, &mut words, known)?;
            } else if arguments.files.len() < known.files {
                arguments.files.push(word.clone());
            } else {
                return Err(arguments.misused(format!("`{word}` is one file name too many")));
            }
        }
        Ok(arguments)
    }

    /// One option, and its value from the words after it.
    fn option<'a>(
        &mut self,
        word: &str,
        words: &mut impl Iterator<Item = &'a String>,
        known: &Known,
    ) -> Result<(), Fault> {
        let (name, attached) = match word.split_once('=') {
            Some((name, value)) => (name, Some(value.to_string())),
            None => (word, None),
        };
        if let Some(flag) = known.flags.iter().find(|flag| **flag == name) {
            if attached.is_some() {
                return Err(self.misused(format!("{name} has no value")));
            }
            self.flags.push(flag);
            return Ok(());
        }
        let Some(name) = known.values.iter().find(|value| **value == name) else {
            return Err(self.misused(format!("{name} is not an option")));
        };
        if self.value(name).is_some() {
            return Err(self.misused(format!("{name} comes twice")));
        }
        let Some(value) = attached.or_else(|| words.next().cloned()) else {
            return Err(self.misused(format!("{name} has nothing after it")));
        };
        if value.is_empty() {
            return Err(self.misused(format!("what stands after {name} is empty")));
        }
        self.values.push((name, value));
        Ok(())
    }

    /// A complaint about the command line.
    pub fn misused(&self, what: impl Into<String>) -> Fault {
        Fault::usage(self.command, what)
    }

    /// Refuses options that make no sense beside another one.
    pub fn refuse_beside(&self, names: &[&str], other: &str) -> Result<(), Fault> {
        match names.iter().find(|name| self.value(name).is_some()) {
            Some(name) => Err(self.misused(format!("{name} does not go with {other}"))),
            None => Ok(()),
        }
    }

    pub fn flag(&self, name: &str) -> bool {
        self.flags.contains(&name)
    }

    pub fn value(&self, name: &str) -> Option<&str> {
        let found = self.values.iter().find(|(known, _)| *known == name);
        found.map(|(_, value)| value.as_str())
    }

    /// The value of an option that must be there.
    pub fn needed(&self, name: &str) -> Result<&str, Fault> {
        self.value(name)
            .ok_or_else(|| self.misused(format!("{name} is missing")))
    }

    /// The first file name, which must be there.
    pub fn needed_file(&self, what: &str) -> Result<&str, Fault> {
        let file = self.files.first().map(String::as_str);
        file.ok_or_else(|| self.misused(format!("{what} is missing")))
    }

    /// A whole number within a range, which must be there.
    pub fn needed_number(&self, name: &str, range: RangeInclusive<usize>) -> Result<usize, Fault> {
        self.needed(name)?;
        self.number(name, range, 0)
    }

    /// A whole number within a range, or what holds without the option.
    pub fn number(
        &self,
        name: &str,
        range: RangeInclusive<usize>,
        default: usize,
    ) -> Result<usize, Fault> {
        let Some(text) = self.value(name) else {
            return Ok(default);
        };
        match text.parse() {
            Ok(number) if range.contains(&number) => Ok(number),
            _ => {
                let (least, most) = (range.start(), range.end());
                let what = format!("{name} is {least} to {most}, and not `{text}`");
                Err(self.misused(what))
            }
        }
    }
}

#[cfg(test)]
mod tests {
    use super::{Arguments, Known};

    const KNOWN: Known = Known {
        command: "mlgd try",
        values: &["--matrix", "--jobs"],
        flags: &["--header"],
        files: 1,
    };

    fn read(line: &str) -> Result<Arguments, String> {
        let words: Vec<String> = line.split_whitespace().map(String::from).collect();
        Arguments::read(&words, &KNOWN).map_err(|fault| fault.to_string())
    }

    #[test]
    fn options_values_and_files() {
        let arguments = read("--header --matrix=h.alist - --jobs 3").unwrap();
        assert!(arguments.flag("--header"));
        assert_eq!(arguments.needed("--matrix").unwrap(), "h.alist");
        assert_eq!(arguments.needed_file("the table").unwrap(), "-");
        assert_eq!(arguments.number("--jobs", 1..=8, 1).unwrap(), 3);
        assert_eq!(read("").unwrap().number("--jobs", 1..=8, 1).unwrap(), 1);
    }

    #[test]
    fn what_is_misused() {
        let message = |line: &str| read(line).unwrap_err();
        for (line, what) in [
            ("--rows", "--rows is not an option"),
            ("--jobs", "--jobs has nothing after it"),
            ("--jobs 1 --jobs 2", "--jobs comes twice"),
            ("--header=yes", "--header has no value"),
            ("a b", "`b` is one file name too many"),
            ("--jobs=", "what stands after --jobs is empty"),
        ] {
            assert_eq!(
                message(line),
                format!("mlgd try: {what}, see mlgd try --help")
            );
        }
        let arguments = read("--jobs 9").unwrap();
        let fault = arguments.number("--jobs", 1..=8, 1).unwrap_err();
        assert!(fault.to_string().contains("--jobs is 1 to 8, and not `9`"));
        assert!(arguments.needed("--matrix").is_err());
        let fault = arguments.needed_file("the table").unwrap_err();
        assert!(fault.to_string().contains("the table is missing"));
        assert!(arguments.needed_number("--jobs", 1..=8).is_err());
        assert_eq!(arguments.needed_number("--jobs", 1..=9).unwrap(), 9);
        assert!(read("").unwrap().needed_number("--jobs", 1..=9).is_err());
    }
}
