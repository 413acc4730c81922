//! Where results go: a file or standard output, flushed and checked. A file gets its name only
//! when it is whole.

use crate::fault::Fault;
use std::fs::{self, File};
use std::io::{self, BufWriter, ErrorKind, IsTerminal, Write};
use std::path::{Path, PathBuf};

/// An output that is whole when [`Output::finish`] says so.
pub struct Output {
    name: String,
    writer: BufWriter<Box<dyn Write>>,
    part: Option<Part>,
}

impl Output {
    /// A file, or standard output for none and for `-`. While a file is being written it has
    /// another name beside its own.
    pub fn create(file: Option<&str>) -> Result<Output, Fault> {
        let Some(name) = file.filter(|name| *name != "-") else {
            return Ok(Output::of("standard output", io::stdout(), None));
        };
        let fault = |error| not_created(name, &error);
        if fs::metadata(name).is_ok_and(|data| !data.is_file()) {
            let device = File::options().write(true).open(name).map_err(fault)?;
            return Ok(Output::of(name, device, None));
        }
        let part = Part::create(name).map_err(fault)?;
        let file = part.file.try_clone().map_err(fault)?;
        Ok(Output::of(name, file, Some(part)))
    }

    fn of(name: &str, writer: impl Write + 'static, part: Option<Part>) -> Output {
        Output {
            name: name.into(),
            writer: BufWriter::with_capacity(1 << 16, Box::new(writer)),
            part,
        }
    }

    pub fn write(&mut self, bytes: &[u8]) -> Result<(), Fault> {
        let written = self.writer.write_all(bytes);
        written.map_err(|error| not_written(&self.name, &error, self.part.is_some()))
    }

    /// Sees to it that all is written, and gives the file its name.
    pub fn finish(mut self) -> Result<(), Fault> {
        let (flushed, file) = (self.writer.flush(), self.part.is_some());
        let kept = flushed.and_then(|()| self.part.take().map_or(Ok(()), Part::keep));
        kept.map_err(|error| not_written(&self.name, &error, file))
    }
}

/// A file that is not whole yet. Unless it is kept, it is taken away again.
struct Part {
    file: File,
    path: PathBuf,
    whole: PathBuf,
}

impl Part {
    /// The name is new, so that no file is lost by it, whatever else is called so; and it is this
    /// run's own, so that two runs with one output do not write into each other's.
    fn create(name: &str) -> io::Result<Part> {
        // A link stays a link.
        let whole = fs::canonicalize(name).unwrap_or_else(|_| name.into());
        let mut path = whole.clone().into_os_string();
        path.push(format!(".{}.part", std::process::id()));
        Ok(Part {
            file: File::create_new(&path)?,
            path: path.into(),
            whole,
        })
    }

    fn keep(self) -> io::Result<()> {
        self.file.sync_all()?;
        fs::rename(&self.path, &self.whole)
    }
}

impl Drop for Part {
    /// Once it is kept, its old name is gone and nothing is removed.
    fn drop(&mut self) {
        fs::remove_file(&self.path).ok();
    }
}

/// What the system says of a file that cannot be made.
fn not_created(name: &str, error: &io::Error) -> Fault {
    let fault = Fault::system(name, error);
    match error.kind() {
        ErrorKind::NotFound => fault.remedy("make its folder first, or give another name"),
        ErrorKind::PermissionDenied => fault.remedy("give a folder that you may write to"),
        ErrorKind::StorageFull | ErrorKind::QuotaExceeded => not_written(name, error, true),
        _ => fault,
    }
}

/// What it says of a write. A file that gets its name when it is whole has not got it then.
fn not_written(name: &str, error: &io::Error, file: bool) -> Fault {
    let fault = Fault::system(name, error);
    let remedy = match error.kind() {
        _ if !file => return fault,
        ErrorKind::StorageFull | ErrorKind::QuotaExceeded => "make room and run it again",
        _ => "look at its disk, and run it again",
    };
    fault.remedy(format!(
        "{remedy}: nothing was written under this name, and an older file stays as it was"
    ))
}

/// Whether an output of that name goes to a terminal: standard output for none and for `-`.
pub fn is_terminal(file: Option<&str>) -> bool {
    file.is_none_or(|file| file == "-") && io::stdout().is_terminal()
}

/// Writes bytes in one go, to standard output for none and for `-`.
pub fn whole_bytes(file: Option<&str>, bytes: &[u8]) -> Result<(), Fault> {
    let mut output = Output::create(file)?;
    output.write(bytes)?;
    output.finish()
}

/// The same with a text.
pub fn whole(file: Option<&str>, text: &str) -> Result<(), Fault> {
    whole_bytes(file, text.as_bytes())
}

/// Prints a text.
pub fn print(text: &str) -> Result<(), Fault> {
    whole(None, text)
}

/// Tells a line on standard error. If that is full or closed there is nobody to tell: the status
/// still says how it ended.
pub fn tell(line: impl std::fmt::Display) {
    writeln!(io::stderr(), "{line}").ok();
}

/// Refuses an output that would replace an input or an output before it. Names that are not given
/// are none.
pub fn keep_apart(outputs: &[Option<&str>], inputs: &[Option<&str>]) -> Result<(), Fault> {
    let read = inputs.iter().flatten().filter(|input| **input != "-");
    let read: Vec<PathBuf> = read.filter_map(|input| place(input)).collect();
    let mut written = Vec::new();
    for output in outputs.iter().flatten() {
        let Some(place) = place(output) else {
            continue;
        };
        let what = match (read.contains(&place), written.contains(&place)) {
            (true, _) => "the output would replace an input",
            (_, true) => "two outputs would go there",
            _ => {
                written.push(place);
                continue;
            }
        };
        let name = match *output {
            "-" => "standard output",
            name => name,
        };
        return Err(Fault::new(name, what).remedy("give it another name"));
    }
    Ok(())
}

/// Where a file is or will be, by whatever name; none for a device, which takes any number of
/// outputs.
fn place(file: &str) -> Option<PathBuf> {
    if file == "-" {
        return Some(file.into());
    }
    if let Ok(path) = fs::canonicalize(file) {
        return Some(path).filter(|path| path.is_file());
    }
    let path = Path::new(file);
    let folder = match path.parent()? {
        folder if folder == Path::new("") => Path::new("."),
        folder => folder,
    };
    Some(fs::canonicalize(folder).ok()?.join(path.file_name()?))
}

#[cfg(test)]
mod tests {
    use super::not_written;
    use std::io::{Error, ErrorKind};

    #[test]
    fn a_full_disk() {
        let said = |kind: ErrorKind, file| {
            let fault = not_written("r.csv", &Error::from(kind), file).to_string();
            fault.split_once(", ").map(|said| said.1.to_string())
        };
        let stays = "nothing was written under this name, and an older file stays as it was";
        for (kind, file, remedy) in [
            (
                ErrorKind::StorageFull,
                true,
                format!("make room and run it again: {stays}"),
            ),
            (
                ErrorKind::FileTooLarge,
                true,
                format!("look at its disk, and run it again: {stays}"),
            ),
            (
                ErrorKind::StorageFull,
                false,
                "make room and run it again: what is there is not whole".into(),
            ),
        ] {
            assert_eq!(said(kind, file), Some(remedy));
        }
    }
}
