//! A folder of files for one test, and the tool run in it.

use std::fs;
use std::io::Write;
use std::path::{Path, PathBuf};
use std::process::{Command, Output};

/// The tool under test.
pub const TOOL: &str = env!("CARGO_BIN_EXE_mlgd");

/// The setting of most tests.
pub const SETTING: &str = "bits 8 limit 64 level-step 0.1";

/// The workspace's root.
pub fn root() -> PathBuf {
    Path::new(env!("CARGO_MANIFEST_DIR")).join("../..")
}

/// The proved program, or none if it is missing and may be, as for the tests of the program:
/// DECODE names it, and PROGRAM_OPTIONAL=1 passes over its tests.
pub fn program() -> Option<String> {
    let named = std::env::var_os("DECODE").unwrap_or("build/bin/decode".into());
    let path = root().join(&named);
    if path.exists() {
        return Some(path.to_string_lossy().into_owned());
    }
    let missing = format!("the program {} is missing", named.display());
    let optional = std::env::var("PROGRAM_OPTIONAL").is_ok_and(|value| value == "1");
    assert!(optional, "{missing}: build it, or name it by DECODE");
    let message = format!("passed over: {missing}\n");
    std::io::stderr().write_all(message.as_bytes()).ok();
    None
}

/// A folder that is removed at the end.
pub struct Folder(pub PathBuf);

impl Folder {
    pub fn new(name: &str) -> Folder {
        let path = std::env::temp_dir().join(format!("mlgd-{}-{name}", std::process::id()));
        fs::create_dir_all(&path).unwrap();
        Folder(path)
    }

    pub fn write(&self, name: &str, contents: impl AsRef<[u8]>) {
        fs::write(self.0.join(name), contents).unwrap();
    }

    pub fn read(&self, name: &str) -> String {
        fs::read_to_string(self.0.join(name)).unwrap_or_else(|error| panic!("{name}: {error}"))
    }

    pub fn has(&self, name: &str) -> bool {
        self.0.join(name).exists()
    }

    /// How many files are there that are not whole.
    pub fn parts(&self) -> usize {
        let names = fs::read_dir(&self.0).unwrap().map(|entry| entry.unwrap());
        let part = |entry: &fs::DirEntry| entry.file_name().to_string_lossy().ends_with(".part");
        names.filter(part).count()
    }

    /// Runs the tool in the folder.
    pub fn run(&self, arguments: &[&str]) -> Ran {
        ran(&self.0, arguments)
    }

    /// The same with the words of a line.
    pub fn run_line(&self, line: &str) -> Ran {
        self.run(&line.split(' ').collect::<Vec<_>>())
    }

    /// The same with one of the streams on a full disk: the status, and what is said elsewhere.
    pub fn run_full(&self, line: &str, full_error: bool) -> (Option<i32>, String) {
        let full = fs::File::options().write(true).open("/dev/full").unwrap();
        let mut command = Command::new(TOOL);
        command.args(line.split(' ')).current_dir(&self.0);
        match full_error {
            true => command.stderr(full),
            false => command.stdout(full),
        };
        let output = command.output().unwrap();
        let said = String::from_utf8(output.stderr).unwrap();
        (output.status.code(), said)
    }

    /// Runs `mlgd decode` by the proved program on matrix `h` and samples `y`, into `r`.
    pub fn decode(&self, program: &str, setting: &str, more: &[&str]) -> Ran {
        let mut arguments = vec!["decode", "--matrix", "h", "--setting", setting];
        arguments.extend(["--samples", "y", "--out", "r", "--program", program]);
        arguments.extend(more);
        self.run(&arguments)
    }
}

impl Drop for Folder {
    fn drop(&mut self) {
        fs::remove_dir_all(&self.0).ok();
    }
}

/// How the tool ended.
#[derive(Debug)]
pub struct Ran {
    pub status: i32,
    pub printed: Vec<u8>,
    pub said: String,
}

impl Ran {
    /// What it printed, as text.
    pub fn text(&self) -> String {
        String::from_utf8(self.printed.clone()).unwrap()
    }
}

/// Runs the tool in a folder.
pub fn ran(folder: &Path, arguments: &[&str]) -> Ran {
    let output = Command::new(TOOL)
        .args(arguments)
        .current_dir(folder)
        .output();
    let Output {
        status,
        stdout,
        stderr,
    } = output.unwrap();
    Ran {
        status: status.code().expect("an exit status"),
        printed: stdout,
        said: String::from_utf8(stderr).unwrap(),
    }
}

/// Blocks as CSV that is read without loss.
pub fn csv(blocks: &[Vec<f32>]) -> String {
    let line = |block: &Vec<f32>| {
        let numbers: Vec<String> = block.iter().map(|&y| mlgd::number::write(y)).collect();
        numbers.join(",") + "\n"
    };
    blocks.iter().map(line).collect()
}
