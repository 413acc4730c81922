//! `make run` with what it may need and nothing else: a copy of the Makefile, and programs that
//! stand for the real ones.

use crate::common::{root, Folder};
use std::fs;
use std::os::unix::fs::symlink;
use std::path::{Path, PathBuf};
use std::process::{Command, Output};

/// Where the system has a program.
fn found(name: &str) -> PathBuf {
    let folders = std::env::var_os("PATH").unwrap();
    let mut places = std::env::split_paths(&folders).map(|folder| folder.join(name));
    places.find(|path| path.is_file()).expect(name)
}

/// A program that tells how it was called.
const TELL: &str = concat!(env!("CARGO_MANIFEST_DIR"), "/tests/tell");

/// The Makefile, an rt, a cargo and a tools/archive that do nothing, a program as rt leaves it, and
/// a tool that tells how it was called. No python3.
fn folder(name: &str) -> Folder {
    let folder = Folder::new(name);
    for inside in ["bin", "build/release", "tools", "crates/decode/out"] {
        fs::create_dir_all(folder.0.join(inside)).unwrap();
    }
    fs::copy(root().join("Makefile"), folder.0.join("Makefile")).unwrap();
    let nothing = found("true");
    for (name, program) in [
        ("bin/mkdir", found("mkdir")),
        ("bin/cat", found("cat")),
        ("bin/cp", found("cp")),
        ("bin/head", found("head")),
        ("bin/rt", nothing.clone()),
        ("bin/cargo", nothing.clone()),
        ("tools/archive", nothing),
        ("build/release/mlgd", TELL.into()),
    ] {
        symlink(program, folder.0.join(name)).unwrap();
    }
    folder.write("crates/decode/out/decode", "");
    folder.write("build/results.csv", "the table\n");
    folder
}

/// Runs make with the folder's programs alone.
fn make(folder: &Folder, words: &[&str]) -> Output {
    let bin: &Path = &folder.0.join("bin");
    let mut command = Command::new(found("make"));
    for name in ["MAKEFLAGS", "MFLAGS", "MAKELEVEL", "OPTIONS", "MAKEFILES"] {
        command.env_remove(name);
    }
    let command = command.args(words).env("PATH", bin);
    command.current_dir(&folder.0).output().unwrap()
}

#[test]
fn a_run_without_python() {
    let folder = folder("make-run");
    let output = make(&folder, &["run"]);
    assert!(output.status.success(), "{output:?}");
    let printed = String::from_utf8(output.stdout).unwrap();
    let called = "<decode><--matrix><examples/tanner155.alist>\
                  <--setting><bits 8 limit 64 level-step 0.1>\
                  <--samples><examples/blocks.csv><--out><build/results.csv>";
    assert!(printed.contains(&format!("\n{called}\n")), "{printed}");
    assert!(printed.contains("<map><build/results.csv><--out><build/results.svg>"));
}

/// The words of OPTIONS go to `mlgd decode`.
#[test]
fn a_run_with_options() {
    let folder = folder("make-options");
    let options = "OPTIONS=--header --skip-columns 2";
    let output = make(&folder, &["run", options]);
    assert!(output.status.success(), "{output:?}");
    let printed = String::from_utf8(output.stdout).unwrap();
    let called = "<--out><build/results.csv><--header><--skip-columns><2>\n";
    assert!(printed.contains(called), "{printed}");
}

/// The gate and the audit ask for it.
#[test]
fn where_python_is_needed() {
    let folder = folder("make-python");
    for target in ["test", "audit"] {
        let output = make(&folder, &[target]);
        assert!(!output.status.success(), "{output:?}");
        let said = String::from_utf8(output.stderr).unwrap();
        assert!(said.starts_with("python3 is missing"), "{said}");
    }
}
