//! Compiling and running C programs.

use std::ffi::OsStr;
use std::io::{ErrorKind, Write};
use std::path::{Path, PathBuf};
use std::process::Command;

/// What every C program here is compiled with, so that the header stands it too.
pub const STRICT: [&str; 5] = ["-std=c11", "-Wall", "-Wextra", "-Werror", "-Wconversion"];

/// The repository's folder.
pub fn root() -> PathBuf {
    let root = Path::new(env!("CARGO_MANIFEST_DIR")).join("../..");
    root.canonicalize().expect("the repository's folder")
}

/// Whether a program can be started.
pub fn is_there(program: &str) -> bool {
    match Command::new(program).arg("--version").output() {
        Ok(_) => true,
        Err(error) if error.kind() == ErrorKind::NotFound => false,
        Err(error) => panic!("{program}: {error}"),
    }
}

/// Says on standard error, past the capture of a test's output, that something was left out.
pub fn left_out(what: &str, missing: &str) {
    let message = format!("left out: {what}, as {missing} is missing\n");
    std::io::stderr().write_all(message.as_bytes()).ok();
}

/// What a command prints. It must end well and complain of nothing.
pub fn printed(command: &mut Command) -> String {
    let program = command.get_program().to_string_lossy().into_owned();
    let output = match command.output() {
        Ok(output) => output,
        Err(error) if error.kind() == ErrorKind::NotFound => {
            panic!("{program} is missing, and the tests of the C face need it")
        }
        Err(error) => panic!("{program}: {error}"),
    };
    let complaints = String::from_utf8_lossy(&output.stderr);
    let status = output.status;
    assert!(status.success(), "{command:?}: {status}\n{complaints}");
    assert_eq!(complaints, "", "{command:?}");
    String::from_utf8(output.stdout).expect("text")
}

/// A folder of its own for what one test builds.
pub struct Workshop(PathBuf);

impl Workshop {
    /// The folder of this name, empty, in cargo's folder for tests (CARGO_TARGET_TMPDIR).
    pub fn new(tmpdir: &str, name: &str) -> Workshop {
        let folder = Path::new(tmpdir).join("firmware_c").join(name);
        if folder.exists() {
            std::fs::remove_dir_all(&folder).expect("the test's folder is emptied");
        }
        std::fs::create_dir_all(&folder).expect("the test's folder");
        Workshop(folder)
    }

    /// A file or folder in it.
    pub fn path(&self, name: &str) -> PathBuf {
        self.0.join(name)
    }

    /// Compiles a C program of this crate, with further words for the compiler.
    pub fn build(&self, name: &str, words: &[&str]) -> PathBuf {
        let source = Path::new(env!("CARGO_MANIFEST_DIR")).join(format!("c/{name}.c"));
        let program = self.path(name);
        let mut cc = Command::new("cc");
        // The programs use mmap and threads, which the C standard does not have.
        cc.args(STRICT)
            .args(["-D_DEFAULT_SOURCE", "-O1", "-pthread"]);
        cc.arg("-I").arg(root().join("include")).arg(source);
        cc.arg(archive()).args(words).arg("-o").arg(&program);
        assert_eq!(printed(&mut cc), "");
        program
    }

    /// Makes targets of the Makefile on the archive, with the folder `dist` here.
    pub fn make<S: AsRef<OsStr>>(&self, words: impl IntoIterator<Item = S>) {
        let mut make = Command::new("make");
        // A run from within `make test` must not take over its jobs and variables.
        for name in ["MAKEFLAGS", "MFLAGS", "MAKELEVEL", "DESTDIR", "PREFIX"] {
            make.env_remove(name);
        }
        make.arg("-s").arg("-C").arg(root()).args(words);
        make.arg(format!("FIRMWARE={}", archive().display()));
        make.arg(format!("DIST={}", self.path("dist").display()));
        assert_eq!(printed(&mut make), "");
    }
}

/// The archive of the firmware's face.
pub fn archive() -> PathBuf {
    let named = std::env::var_os("LIBFIRMWARE_DIR").unwrap_or("build/staticlib".into());
    let archive = root().join(named).join("libfirmware.a");
    let missing = "libfirmware.a is missing: run `make firmware` first";
    assert!(archive.exists(), "{missing}");
    archive
}
