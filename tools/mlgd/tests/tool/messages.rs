//! Every message, from a stored bad file: tests/bad has the files, and for each case NAME.expected
//! with the command line and what the tool is to say. WRITE_EXPECTED=1 writes them anew.

use crate::common::{ran, Folder, Ran};
use std::fs;
use std::path::Path;
use std::process::Command;

fn folder() -> std::path::PathBuf {
    Path::new(env!("CARGO_MANIFEST_DIR")).join("tests/bad")
}

#[test]
fn every_stored_bad_file_gets_its_message() {
    let mut seen = 0;
    for entry in fs::read_dir(folder()).unwrap() {
        let path = entry.unwrap().path();
        if path
            .extension()
            .is_none_or(|extension| extension != "expected")
        {
            continue;
        }
        let stored = fs::read_to_string(&path).unwrap();
        let (command, expected) = stored.split_once('\n').unwrap();
        let words: Vec<&str> = command.split(' ').collect();
        assert_eq!(words[0], "mlgd");
        let ran = ran(&folder(), &words[1..]);
        assert_eq!(ran.status, 2, "{}: {ran:?}", path.display());
        assert_eq!(ran.text(), "", "{}", path.display());
        if std::env::var("WRITE_EXPECTED").is_ok_and(|value| value == "1") {
            fs::write(&path, format!("{command}\n{}", ran.said)).unwrap();
        } else {
            assert_eq!(ran.said, expected, "{}", path.display());
        }
        seen += 1;
    }
    assert!(seen >= 70, "{seen} cases");
}

/// Each names its file, and says what to do.
#[test]
fn every_message_has_a_place_and_a_remedy() {
    for entry in fs::read_dir(folder()).unwrap() {
        let path = entry.unwrap().path();
        if path
            .extension()
            .is_some_and(|extension| extension == "expected")
        {
            let stored = fs::read_to_string(&path).unwrap();
            let message = stored.lines().nth(1).unwrap();
            let (file, rest) = message.split_once(':').unwrap();
            assert!(folder().join(file).is_file(), "{message}");
            assert!(rest.contains(", "), "{message}");
            assert_eq!(stored.lines().count(), 2, "{message}");
        }
    }
}

/// A file of samples packed by a matrix.
fn packed_by(matrix: &str, samples: &str, options: &[&str]) -> Ran {
    let mut words = vec!["pack", "--matrix", matrix, "--setting", "setting.txt"];
    words.extend(["--samples", samples, "--out", "-"]);
    words.extend(options);
    ran(&folder(), &words)
}

fn packed(samples: &str, options: &[&str]) -> Ran {
    packed_by("a.list", samples, options)
}

/// The same files are read where the option that the message names is given.
#[test]
fn the_remedies_help() {
    let good = packed("good.csv", &[]);
    for (samples, option) in [
        ("decimal_commas_semicolons.csv", &["--decimal-comma"][..]),
        ("decimal_commas_blanks.csv", &["--decimal-comma"]),
        ("decimal_commas_tabs.csv", &["--decimal-comma"]),
        ("decimal_commas_quoted.csv", &["--decimal-comma"]),
        ("heading.csv", &["--header"]),
        ("labels.csv", &["--skip-columns", "1"]),
        ("two_labels.csv", &["--skip-columns", "2"]),
        ("long_line.csv", &["--skip-columns", "2"]),
        ("label_date.csv", &["--skip-columns", "1"]),
        ("label_time.csv", &["--skip-columns", "2"]),
        ("label_number.csv", &["--skip-columns", "1"]),
        ("label_empty.csv", &["--skip-columns", "1"]),
        ("heading_counts.csv", &["--header"]),
        (
            "heading_counts_from_0.csv",
            &["--header", "--skip-columns", "1"],
        ),
    ] {
        let found = packed(samples, option);
        assert_eq!(found.status, 0, "{samples}: {found:?}");
        assert_eq!(found.printed, good.printed, "{samples}");
    }
    let alone = packed("decimal_commas_alone.csv", &["--decimal-comma"]);
    assert_eq!(alone.status, 0);
    for list in ["counted_from_1.list", "counted_from_1.rows"] {
        let found = ran(&folder(), &["matrix", list, "--from-one", "--to", "list"]);
        assert_eq!(
            found.text(),
            fs::read_to_string(folder().join("a.list")).unwrap()
        );
    }
}

/// Zeros and ones are read without the line of sizes before them.
#[test]
fn without_the_sizes_line() {
    let new = Folder::new("no-sizes");
    let expected = fs::read_to_string(folder().join("a.list")).unwrap();
    for file in ["size_before", "sizes_before", "four_sizes_before"] {
        let text = fs::read_to_string(folder().join(format!("{file}.dense"))).unwrap();
        new.write("h", text.split_once('\n').unwrap().1);
        let found = new.run_line("matrix h --to list");
        assert_eq!(found.text(), expected, "{file}");
    }
}

/// The same files are read once the message's own command has been run on them.
#[test]
fn the_command_of_a_remedy_helps() {
    let good = packed("good.csv", &[]);
    let changed = Folder::new("sed");
    let path = changed.0.join("new");
    for samples in [
        "trailing_semicolon.csv",
        "trailing_crlf.csv",
        "trailing_several.csv",
        "trailing_tab.csv",
    ] {
        let said = packed(samples, &[]).said;
        let (_, command) = said.split_once("or: sed '").expect("a command");
        let (script, _) = command.split_once("' old > new").unwrap();
        let mut sed = Command::new("sed");
        sed.arg(script).arg(folder().join(samples));
        changed.write("new", sed.output().unwrap().stdout);
        let found = packed(path.to_str().unwrap(), &[]);
        assert_eq!((found.status, found.printed), (0, good.printed.clone()));
    }
}

/// Commas that separate the fields and stand in numbers: one way of reading for each remedy.
#[test]
fn decimal_commas_between_commas() {
    let new = Folder::new("commas");
    let path = new.0.join("new");
    let read = |matrix: &str, text: &str, options: &[&str]| {
        new.write("new", text);
        packed_by(matrix, path.to_str().unwrap(), options)
    };
    let eight = read("eight.list", "0.5,-1,-1,-1,-1,-1,-1,-1\n", &[]);
    let text = "0,5;-1,0;-1,0;-1,0\n-1,0;-1,0;-1,0;-1,0\n";
    let two_lines = read("eight.list", text, &["--decimal-comma"]);
    assert_eq!(two_lines.printed, eight.printed, "{two_lines:?}");
    let text = fs::read_to_string(folder().join("decimal_commas_two_lines.csv")).unwrap();
    let two_blocks = read("eight.list", &text.replace(',', ", "), &[]);
    assert!(two_blocks.said.contains("blocks 2"), "{two_blocks:?}");
    // A sign where no fraction has one tells it, in whatever line.
    for line in ["0,-5,-1,0,-1,0,-1,0\n", "0,5,-1,0,-1,0,-1,0.5\n"] {
        let clear = read("eight.list", &format!("{text}{line}{text}"), &[]);
        assert_eq!(clear.status, 0, "{clear:?}");
    }
    let one_line = "0,5;-1,0;-1,0;-1,0;-1,0;-1,0;-1,0\n";
    let seven = read("a.list", one_line, &["--decimal-comma"]);
    assert_eq!(seven.printed, packed("good.csv", &[]).printed, "{seven:?}");
}
