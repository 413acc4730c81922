//! The proved program `decode`, run as a child process: what decodes is what was proved.

use crate::amount::counted;
use crate::checked::Answer;
use crate::fault::{short, Fault};
use crate::matrix_file::Matrix;
use std::io::{ErrorKind, Read, Write};
use std::path::{Path, PathBuf};
use std::process::{Child, Command, Stdio};
use std::thread;

/// The program's first line.
const HEADING: &str = "block end rounds failing changed word";

/// Where the program is.
#[derive(Clone, Debug)]
pub struct Program(PathBuf);

/// The program's line for a block.
#[derive(Clone, Debug, PartialEq, Eq)]
pub enum BlockLine {
    /// Decoded or failed, with the word.
    Ended(Answer, Vec<u8>),
    /// A sample is infinite or not a number: its place, from 0.
    Refused(usize),
}

impl Program {
    /// The program that is named, or the one beside this tool, or the one in build/bin.
    pub fn find(named: Option<&str>) -> Result<Program, Fault> {
        if let Some(named) = named {
            return match Path::new(named).is_file() {
                true => Ok(Program(Path::new(".").join(named))),
                false => {
                    Err(Fault::new(named, "there is no such program")
                        .remedy("build it: make decode"))
                }
            };
        }
        let found = Program::known().into_iter().find(|path| path.is_file());
        found.map(Program).ok_or_else(|| {
            let what = "the proved program `decode` is not beside mlgd and not in build/bin";
            Fault::new("decode", what)
                .remedy("build it (make decode), or name it by --program PATH")
        })
    }

    /// Where it may be: beside this tool; in build/bin of the repository in which this tool was
    /// built, as build/release/mlgd; in build/bin here.
    fn known() -> Vec<PathBuf> {
        let tool = std::env::current_exe().ok();
        let folder = tool.as_deref().and_then(Path::parent);
        let near = folder.map(|folder| ["decode", "../bin/decode"].map(|at| folder.join(at)));
        let here = Path::new(".").join("build/bin/decode");
        near.into_iter().flatten().chain([here]).collect()
    }

    /// Runs one input with so many blocks. Fewer lines than blocks are a fault: something was
    /// lost on the way.
    pub fn run(&self, input: &[u8], blocks: usize) -> Result<Vec<BlockLine>, Fault> {
        block_lines(&self.printed(input)?, blocks).map_err(|what| self.fault(what))
    }

    fn fault(&self, what: impl Into<String>) -> Fault {
        let remedy = "run it again; if it stays so, build the program anew: make decode";
        Fault::new(self.0.display().to_string(), what).remedy(remedy)
    }

    /// What it prints for an input.
    fn printed(&self, input: &[u8]) -> Result<String, Fault> {
        let system = |error| Fault::system(self.0.display().to_string(), &error);
        let mut child = Command::new(&self.0)
            .stdin(Stdio::piped())
            .stdout(Stdio::piped())
            .spawn()
            .map_err(system)?;
        let fed_and_read = feed_and_read(&mut child, input);
        let status = child.wait().map_err(system)?;
        let printed = fed_and_read.map_err(system)?;
        if !status.success() {
            return Err(self.fault(format!("it ended with {status}")));
        }
        String::from_utf8(printed).map_err(|_| self.fault("it printed what is no text"))
    }
}

/// Writes the input and reads the output at the same time.
fn feed_and_read(child: &mut Child, input: &[u8]) -> std::io::Result<Vec<u8>> {
    let (stdin, stdout) = (child.stdin.take(), child.stdout.take());
    thread::scope(|scope| {
        let feeder = scope.spawn(move || match stdin {
            Some(mut pipe) => pipe.write_all(input),
            None => Ok(()),
        });
        let mut printed = Vec::new();
        if let Some(mut pipe) = stdout {
            pipe.read_to_end(&mut printed)?;
        }
        match feeder.join() {
            // A run that ended early is seen by its lines.
            Ok(Err(error)) if error.kind() == ErrorKind::BrokenPipe => Ok(printed),
            Ok(Err(error)) => Err(error),
            _ => Ok(printed),
        }
    })
}

/// The lines for so many blocks, or what is wrong with them.
pub(crate) fn block_lines(printed: &str, blocks: usize) -> Result<Vec<BlockLine>, String> {
    let mut lines = printed.lines();
    if lines.next() != Some(HEADING) {
        return Err("its first line is not the heading".into());
    }
    let mut read = Vec::with_capacity(blocks);
    for line in lines {
        let Some(block) = block_line(read.len(), line) else {
            return Err(format!(
                "it printed `{}` for block {}",
                short(line),
                read.len()
            ));
        };
        read.push(block);
    }
    if read.len() != blocks || !printed.ends_with('\n') {
        return Err(format!(
            "it printed {} for {}: a write was lost",
            counted(read.len(), "line"),
            counted(blocks, "block")
        ));
    }
    Ok(read)
}

/// Refuses a word that has not as many bytes as the code's words.
pub fn refuse_odd_word(word: &[u8], matrix: &Matrix, block: usize) -> Result<(), Fault> {
    if word.len() == matrix.word_bytes() {
        return Ok(());
    }
    let what = format!("its word of block {block} is too short or too long");
    Err(Fault::new("decode", what).remedy("build it anew: make decode"))
}

/// A line for this block, or none if it is not one.
fn block_line(number: usize, line: &str) -> Option<BlockLine> {
    let mut fields = line.split(' ');
    let mut next = || fields.next();
    if next()?.parse() != Ok(number) {
        return None;
    }
    let line = match next()? {
        "refused" => {
            (next()? == "8").then_some(())?;
            BlockLine::Refused(next()?.parse().ok()?)
        }
        end @ ("decoded" | "failed") => {
            let mut count = || next()?.parse().ok();
            let answer = Answer {
                decoded: end == "decoded",
                rounds: count()?,
                failing: count()?,
                changed: count()?,
            };
            BlockLine::Ended(answer, bytes(next()?)?)
        }
        _ => return None,
    };
    next().is_none().then_some(line)
}

/// Hexadecimal digits as bytes.
pub fn bytes(digits: &str) -> Option<Vec<u8>> {
    let digit = |byte: u8| char::from(byte).to_digit(16);
    if !digits.len().is_multiple_of(2) {
        return None;
    }
    let pairs = digits.as_bytes().chunks(2);
    pairs
        .map(|pair| Some((16 * digit(pair[0])? + digit(pair[1])?) as u8))
        .collect()
}

#[cfg(test)]
mod tests {
    use super::{block_line, bytes, Answer, BlockLine};

    #[test]
    fn lines_of_blocks() {
        let answer = Answer {
            decoded: true,
            rounds: 1,
            failing: 0,
            changed: 2,
        };
        let decoded = BlockLine::Ended(answer, vec![0x2e, 0x00]);
        assert_eq!(block_line(7, "7 decoded 1 0 2 2e00"), Some(decoded));
        assert_eq!(block_line(0, "0 refused 8 2"), Some(BlockLine::Refused(2)));
        for line in [
            "",
            "short",
            "1 decoded 1 0 2 2e",
            "0 decoded 1 0 2e",
            "0 refused 5 0",
        ] {
            assert_eq!(block_line(0, line), None, "{line}");
        }
        assert_eq!(block_line(0, "0 decoded 1 0 2 2e 3"), None);
        assert_eq!(bytes("0g"), None);
        assert_eq!(bytes("abc"), None);
    }
}
