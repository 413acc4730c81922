//! Runs the program and compares what it prints with the reference, byte for byte.
//!
//! DECODE names the program, from the workspace's root on; build/bin/decode is the default. A
//! missing program fails the tests; with PROGRAM_OPTIONAL=1 they are passed over with a message.

use std::fs::File;
use std::io::{ErrorKind, Read, Write};
use std::path::{Path, PathBuf};
use std::process::{Child, Command, Stdio};
use std::sync::mpsc;
use std::thread;
use std::time::Duration;

/// Longer than any run should take on a busy machine.
const PATIENCE: Duration = Duration::from_secs(240);

/// The program under test.
pub struct Program(PathBuf);

impl Program {
    /// The program, or none if it is missing and may be. Panics if it is missing and may not be.
    pub fn find() -> Option<Program> {
        let root = Path::new(env!("CARGO_MANIFEST_DIR")).join("../..");
        let named = std::env::var_os("DECODE").unwrap_or("build/bin/decode".into());
        let path = root.join(&named);
        if path.exists() {
            return Some(Program(path));
        }
        let missing = format!("the program {} is missing", named.display());
        let optional = std::env::var("PROGRAM_OPTIONAL").is_ok_and(|value| value == "1");
        assert!(optional, "{missing}: build it, or name it by DECODE");
        // Straight to standard error, past the capture of a test's output.
        let message = format!("passed over: {missing}\n");
        std::io::stderr().write_all(message.as_bytes()).ok();
        None
    }

    fn start(&self, input: Stdio) -> Child {
        Command::new(&self.0)
            .stdin(input)
            .stdout(Stdio::piped())
            .stderr(Stdio::piped())
            .spawn()
            .unwrap_or_else(|error| panic!("{}: {error}", self.0.display()))
    }

    /// What it prints for an input that comes all at once through a pipe.
    pub fn printed(&self, input: &[u8]) -> Vec<u8> {
        self.printed_in_pieces(input, input.len().max(1), Duration::ZERO)
    }

    /// The same for an input in pieces of `size` bytes with a pause after each.
    pub fn printed_in_pieces(&self, input: &[u8], size: usize, pause: Duration) -> Vec<u8> {
        let mut child = self.start(Stdio::piped());
        let mut pipe = child.stdin.take().expect("a pipe");
        let input = input.to_vec();
        let feeder = thread::spawn(move || {
            for piece in input.chunks(size) {
                match pipe.write_all(piece).and_then(|()| pipe.flush()) {
                    Ok(()) => {}
                    // A refused run ends before its input.
                    Err(error) if error.kind() == ErrorKind::BrokenPipe => return,
                    Err(error) => panic!("the pipe to the program: {error}"),
                }
                if !pause.is_zero() {
                    thread::sleep(pause);
                }
            }
        });
        let printed = collect(child);
        feeder.join().expect("the input is fed");
        printed
    }

    /// The same for an input from a file.
    pub fn printed_for_file(&self, input: &File) -> Vec<u8> {
        let input = input.try_clone().expect("the file");
        collect(self.start(input.into()))
    }

    /// Compares one input, all at once.
    pub fn compare(&self, name: &str, input: &[u8]) {
        assert_same(name, &self.printed(input), &reference::program(input));
    }
}

/// Reads both outputs to their ends; the program must end by itself and complain of nothing.
fn collect(mut child: Child) -> Vec<u8> {
    let (done, ended) = mpsc::channel();
    let (mut output, mut complaints) = (child.stdout.take(), child.stderr.take());
    thread::spawn(move || {
        let (mut printed, mut complained) = (Vec::new(), Vec::new());
        let reader = thread::spawn(move || {
            let pipe = complaints.as_mut().expect("a pipe");
            pipe.read_to_end(&mut complained).map(|_| complained)
        });
        let pipe = output.as_mut().expect("a pipe");
        let read = pipe.read_to_end(&mut printed);
        let complained = reader.join().expect("standard error is read");
        done.send(read.and(complained).map(|complained| (printed, complained)))
            .ok();
    });
    let Ok(outputs) = ended.recv_timeout(PATIENCE) else {
        child.kill().ok();
        panic!("the program does not end");
    };
    let status = child.wait().expect("the program has ended");
    let (printed, complained) = outputs.expect("the pipes from the program");
    assert!(status.code().is_some(), "the program ended by {status}");
    assert_eq!(String::from_utf8_lossy(&complained), "", "standard error");
    printed
}

/// Asserts that the outputs are equal, and shows the first line that isn't.
pub fn assert_same(name: &str, printed: &[u8], expected: &[u8]) {
    if printed == expected {
        return;
    }
    let lines = |bytes: &[u8]| -> Vec<String> {
        String::from_utf8_lossy(bytes)
            .split('\n')
            .map(String::from)
            .collect()
    };
    let (printed, expected) = (lines(printed), lines(expected));
    let first = (0..)
        .find(|&at| printed.get(at) != expected.get(at))
        .expect("the outputs differ");
    panic!(
        "{name}: line {first} is {:?}, should be {:?}",
        printed.get(first),
        expected.get(first)
    );
}
