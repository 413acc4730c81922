//! The examples in C and Python, built and linked as their heads say, and what `make install`
//! leaves.

use firmware_c::{hexadecimal, is_there, left_out, printed, root, Workshop, STRICT};
use generator::{codes, settings};
use reference::{iterative, Outcome, Setting};
use std::fs;
use std::path::Path;
use std::process::Command;

fn workshop(name: &str) -> Workshop {
    let workshop = Workshop::new(env!("CARGO_TARGET_TMPDIR"), name);
    workshop.make(["dist"]);
    workshop
}

/// What every example prints.
fn expected() -> String {
    fs::read_to_string(root().join("examples/firmware.txt")).expect("examples/firmware.txt")
}

/// The line of a block of code A, by the reference.
fn line(name: &str, setting: Setting, samples: &[f32]) -> String {
    let (mut word, mut levels) = ([0xEE], [0x7777; 7]);
    let h = codes::code_a().matrix;
    let answer = match iterative(&h, &setting, samples, &mut word, &mut levels) {
        Ok(answer) => answer,
        Err(refusal) => {
            assert_eq!((word, levels), ([0xEE], [0x7777; 7]));
            let (number, place) = (refusal.number, refusal.place);
            return format!("{name}: refused {number} at {place}, nothing written\n");
        }
    };
    let outcome = match answer.outcome {
        Outcome::Decoded => "decoded",
        _ => "failed",
    };
    let (rounds, failing, changed) = (answer.rounds, answer.failing, answer.changed);
    let counts = format!("rounds {rounds}, failing {failing}, changed {changed}");
    let (word, levels) = (hexadecimal(&word), levels.map(|level| level.to_string()));
    format!(
        "{name}: {outcome}, {counts}, word {word}, levels {}\n",
        levels.join(" ")
    )
}

/// The stored lines are the reference's, and the fine levels are numbers that no byte holds.
#[test]
fn stored() {
    let coarse = settings::level_step(3, 5, 0.5);
    let fine = settings::level_step(12, 255, 0.5 / 512.0);
    let none = settings::level_step(3, 0, 0.5);
    let mut samples = [0.5, -1.0, -1.0, -1.0, -1.0, -1.0, -1.0];
    let mut lines = line("limit 5", coarse, &samples);
    lines += &line("12 bits", fine, &samples);
    lines += &line("limit 0", none, &samples);
    samples[4] = f32::NAN;
    lines += &line("sample 4 not a number", coarse, &samples);
    assert_eq!(expected(), lines);
    assert!(lines.contains(" -1195"), "{lines}");
}

/// Compiles the example in C with these words for the header and the archive, and runs it.
fn compile_and_run(words: &[String], program: &Path) -> String {
    let mut cc = Command::new("cc");
    cc.args(STRICT).arg(root().join("examples/firmware.c"));
    cc.args(words).arg("-o").arg(program);
    assert_eq!(printed(&mut cc), "");
    printed(&mut Command::new(program))
}

/// The words that name the folders below this one.
fn by_folder(folder: &Path) -> Vec<String> {
    let folder = folder.display();
    let words = [format!("-I{folder}/include"), format!("-L{folder}/lib")];
    [words.as_slice(), &["-lmlgd".into()]].concat()
}

/// The words that pkg-config gives for the folder, with its files looked for below `system`.
fn by_pkg_config(folder: &Path, system: &Path) -> Vec<String> {
    let mut command = Command::new("pkg-config");
    command.env("PKG_CONFIG_PATH", folder.join("lib/pkgconfig"));
    command.env("PKG_CONFIG_SYSROOT_DIR", system);
    command.args(["--cflags", "--libs", "mlgd"]);
    printed(&mut command)
        .split_whitespace()
        .map(String::from)
        .collect()
}

#[test]
fn in_c() {
    let workshop = workshop("in_c");
    let words = by_folder(&workshop.path("dist"));
    assert_eq!(
        compile_and_run(&words, &workshop.path("firmware")),
        expected()
    );
}

#[test]
fn in_python() {
    if !is_there("python3") {
        return left_out("examples/firmware.py", "python3");
    }
    let workshop = workshop("in_python");
    let library = workshop.path("libmlgd.so");
    let mut cc = Command::new("cc");
    // With -z text the linker refuses code that can't stand anywhere.
    cc.args(["-shared", "-Wl,-z,text", "-Wl,--whole-archive"]);
    cc.arg(workshop.path("dist/lib/libmlgd.a"));
    cc.arg("-Wl,--no-whole-archive").arg("-o").arg(&library);
    assert_eq!(printed(&mut cc), "");
    let mut python = Command::new("python3");
    python
        .arg("-B")
        .arg(root().join("examples/firmware.py"))
        .arg(&library);
    assert_eq!(printed(&mut python), expected());
}

/// The header by itself, as strict C and as C++.
#[test]
fn header_alone() {
    let header = root().join("include/mlgd.h");
    for (compiler, language, standard) in [
        ("cc", "c", "-std=c99"),
        ("cc", "c", "-std=c11"),
        ("c++", "c++", "-std=c++11"),
    ] {
        if compiler == "c++" && !is_there(compiler) {
            left_out("the header in C++", compiler);
            continue;
        }
        let mut command = Command::new(compiler);
        command.args([
            standard,
            "-Wall",
            "-Wextra",
            "-Werror",
            "-pedantic",
            "-fsyntax-only",
        ]);
        command.args(["-include".as_ref(), header.as_os_str()]);
        command.args(["-x", language, "/dev/null"]);
        assert_eq!(printed(&mut command), "");
    }
}

/// Installed below a prefix, and below DESTDIR as for a package.
#[test]
fn installed() {
    let workshop = workshop("installed");
    let (prefix, package) = (workshop.path("usr"), workshop.path("package"));
    workshop.make(["install".into(), format!("PREFIX={}", prefix.display())]);
    let destination = format!("DESTDIR={}", package.display());
    workshop.make(["install".into(), "PREFIX=/opt/mlgd".into(), destination]);
    let below = package.join("opt/mlgd");
    for (name, folder, system) in [
        ("installed", &prefix, Path::new("")),
        ("packed", &below, &package),
    ] {
        for file in ["include/mlgd.h", "lib/libmlgd.a", "lib/pkgconfig/mlgd.pc"] {
            assert!(
                folder.join(file).is_file(),
                "{file} below {}",
                folder.display()
            );
        }
        let words = if is_there("pkg-config") {
            by_pkg_config(folder, system)
        } else {
            left_out("mlgd.pc", "pkg-config");
            by_folder(folder)
        };
        assert_eq!(compile_and_run(&words, &workshop.path(name)), expected());
    }
    let file = fs::read_to_string(prefix.join("lib/pkgconfig/mlgd.pc")).expect("mlgd.pc");
    assert!(
        file.starts_with(&format!("prefix={}\n", prefix.display())),
        "{file}"
    );
}

/// The folder of `make firmware` is found wherever it is moved to.
#[test]
fn moved() {
    if !is_there("pkg-config") {
        return left_out("the folder moved", "pkg-config");
    }
    let workshop = workshop("moved");
    let folder = workshop.path("elsewhere");
    fs::rename(workshop.path("dist"), &folder).expect("the folder is moved");
    let words = by_pkg_config(&folder, Path::new(""));
    assert_eq!(
        compile_and_run(&words, &workshop.path("firmware")),
        expected()
    );
}

/// The pkg-config file tells the version of this repository's Rust.
#[test]
fn version() {
    let text = fs::read_to_string(root().join("include/mlgd.pc.in")).expect("mlgd.pc.in");
    let line = format!("Version: {}", env!("CARGO_PKG_VERSION"));
    assert!(text.lines().any(|other| other == line), "{line}");
}
