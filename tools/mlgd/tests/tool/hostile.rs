//! Files and places that are not what they should be: a message and a status, never a panic, and
//! no file lost.

use crate::common::{program, Folder, SETTING, TOOL};
use generator::{alist, codes};
use std::ffi::OsStr;
use std::fs;
use std::os::unix::ffi::OsStrExt;
use std::os::unix::fs::symlink;
use std::process::Command;

const GOOD: &str = "0.5,-1,-1,-1,-1,-1,-1\n";

/// Code A as `h`, a block as `y`, the setting as `s`, and an empty folder `d`.
fn folder(name: &str) -> Folder {
    let folder = Folder::new(name);
    folder.write("h", alist::text(&codes::code_a()));
    folder.write("y", GOOD);
    folder.write("s", SETTING);
    fs::create_dir_all(folder.0.join("d")).unwrap();
    folder
}

/// Runs the tool with the words of a line; it must end with a fault that begins so.
fn refused(folder: &Folder, line: &str, begins: &str) {
    let ran = folder.run_line(line);
    assert_eq!(ran.status, 2, "{line}: {ran:?}");
    assert!(ran.said.starts_with(begins), "{line}: {}", ran.said);
    assert_eq!(ran.said.lines().count(), 1, "{line}: {}", ran.said);
    assert!(ran.said.contains(", "), "no remedy: {}", ran.said);
}

/// A matrix, and what is said of it.
const SIZES: &[(&str, &str)] = &[
    (
        "4294967295 4294967295\n4294967295 4294967295\n",
        ":1:1: the sizes n and m: 4294967295 is above 65535",
    ),
    (
        "65535 65535\n65535 65535\n",
        ":2: the file ends before the weights of the columns",
    ),
    (
        "4294967295 7 3 3\n0 1 3\n",
        ":1:1: n: 4294967295 is above 65535",
    ),
    (
        "65535 65535 65535 65535\n",
        ":1: the list ends after 0 rows, and m is 65535",
    ),
    (
        "18446744073709551616 7\n3 3\n",
        ":1:1: the sizes n and m: 18446744073709551616 is above",
    ),
    (
        "4294967295 4294967296\n",
        ":1:1: column: 4294967295 is above 65535",
    ),
    ("0 65535\n1 2\n", ":2: n: 65536 is above 65535"),
    (
        "0 65534\n1 2\n",
        ":1:2: n is 65535: the decoder takes 2 to 1023 columns",
    ),
    (
        "0 1022\n1 2\n",
        ":1: column 3 stands in 0 rows, and a column stands in 1 or more, is a column's",
    ),
    ("0 0\n0 0\n", ":1: rho is 0: the decoder takes 2 to 32"),
    ("", ":1: a matrix is missing"),
];

#[test]
fn sizes_that_no_matrix_has() {
    let folder = folder("sizes");
    for (contents, what) in SIZES {
        folder.write("bad", contents);
        refused(&folder, "matrix bad", &format!("bad{what}"));
    }
    folder.write("bad", "1".repeat(70_000) + "\n");
    let what = "bad:1: 70,000 columns and 1 row are too many";
    refused(&folder, "matrix bad", what);
}

/// Empty files, folders, lines without end, and bytes that are no text, wherever `mlgd decode`
/// reads a file.
#[test]
fn what_is_no_file_of_its_kind() {
    let Some(program) = program() else { return };
    let folder = folder("no-file");
    folder.write("empty", "");
    folder.write("long", "1".repeat(2 << 20));
    folder.write("bytes", b"1 2 \xff\n");
    for (file, what) in [
        ("d", ": Is a directory, give the name of a file"),
        ("long", ":1: this line is longer than 1,048,576 bytes"),
        ("bytes", ":1: byte 5 of this line is no UTF-8 text"),
        ("none", ": No such file or directory, is the name right?"),
    ] {
        for files in [["h", "s", file], [file, "s", "y"], ["h", file, "y"]] {
            let [matrix, setting, samples] = files;
            let files = format!("--matrix {matrix} --setting {setting} --samples {samples}");
            let line = format!("decode {files} --out r --program {program}");
            refused(&folder, &line, &format!("{file}{what}"));
        }
    }
    assert!(!folder.has("r") && folder.parts() == 0);
}

/// The same where other subcommands read one, and what is said of an empty file.
#[test]
fn no_file_of_its_kind_elsewhere() {
    let folder = folder("no-file-elsewhere");
    folder.write("empty", "");
    let files = "--matrix h --setting s --samples empty --out r";
    for (line, what) in [
        (&*format!("decode {files}"), "empty: there is no block in"),
        (&format!("pack {files}"), "empty: there is no block in it"),
        (
            &format!("pack {files} --split 2"),
            "empty: there is no block in it",
        ),
        (
            "decode --one-step --matrix h --words empty --out r",
            "empty: there is no word in it, is this the right file?",
        ),
        ("map empty --out r", "empty:1: there is no column `line`"),
        ("unpack empty", "empty: byte 0: the input ends inside n"),
        ("map d --out r", "d: Is a directory, give the name of a"),
        ("unpack d", "d: Is a directory, give the name of a file"),
    ] {
        // Without a block the program is never run: any file stands for it.
        let program = match line.starts_with("decode --matrix") {
            true => format!(" --program {TOOL}"),
            false => String::new(),
        };
        refused(&folder, &format!("{line}{program}"), what);
    }
    assert!(!folder.has("r") && folder.parts() == 0);
}

/// Where no table can be written.
#[test]
fn outputs_that_cannot_be() {
    let folder = folder("no-output");
    for (out, what) in [
        ("d", "Is a directory, give the name of a file"),
        ("none/r", "No such file or directory, make its folder first"),
        ("y/r", "Not a directory, is the name right?"),
        ("/sys/r", "Permission denied, give a folder that you may"),
    ] {
        let line = format!("decode --one-step --matrix h --samples y --out {out}");
        refused(&folder, &line, &format!("{out}: {what}"));
    }
    for (line, what) in [
        (
            "matrix h --to list --out ",
            "what stands after --out is empty",
        ),
        ("matrix ", "a file name is empty"),
    ] {
        let expected = format!("mlgd matrix: {what}, see mlgd matrix --help\n");
        assert_eq!(folder.run_line(line).said, expected);
    }
}

const LOST: &str = "the output would replace an input, give it another name";
const TWICE: &str = "two outputs would go there, give it another name";

/// No name that an output has for a while or in the end is that of an input.
#[test]
fn no_input_is_lost() {
    let Some(program) = program() else { return };
    let folder = folder("same");
    folder.write("r.part", GOOD);
    folder.write("x.0000", GOOD);
    symlink("y", folder.0.join("link")).unwrap();
    let decode = format!("decode --program {program} --matrix h --setting s");
    let pack = "pack --matrix h --setting s";
    for (line, name) in [
        (format!("{decode} --samples y --out y"), "y"),
        (format!("{decode} --samples y --out d/../y"), "d/../y"),
        (format!("{decode} --samples y --out link"), "link"),
        (format!("{decode} --samples link --out y"), "y"),
        (format!("{decode} --samples y --out s"), "s"),
        (format!("{pack} --samples y --out s"), "s"),
        (
            format!("{pack} --samples x.0000 --out x --split 5"),
            "x.0000",
        ),
    ] {
        refused(&folder, &line, &format!("{name}: {LOST}"));
    }
    // While it is written, a table r has a name that no other file has.
    let ran = folder.run_line(&format!("{decode} --samples r.part --out r"));
    assert_eq!(ran.status, 0, "{ran:?}");
    for name in ["y", "r.part", "x.0000", "link"] {
        assert_eq!(folder.read(name), GOOD, "{name}");
    }
    assert_eq!(folder.read("s"), SETTING);
    assert_eq!(folder.parts(), 1, "r.part alone");
}

/// Nor is one output lost to another, whatever the names.
#[test]
fn no_output_is_lost() {
    let folder = folder("twice");
    let ran = folder.run_line("pack --matrix h --setting s --samples y --out i");
    assert_eq!(ran.status, 0, "{ran:?}");
    let simulate = "simulate --matrix h --setting s --db 3 --blocks 1 --seed 1";
    for (line, name, what) in [
        (&*format!("{simulate} --out q --svg ./q"), "./q", TWICE),
        (&format!("{simulate} --svg -"), "standard output", TWICE),
        (&format!("{simulate} --samples s"), "s", LOST),
        ("unpack i --matrix u --samples ./u", "./u", TWICE),
        ("unpack i --matrix - --samples -", "standard output", TWICE),
        ("unpack i --matrix i", "i", LOST),
    ] {
        refused(&folder, line, &format!("{name}: {what}"));
    }
    assert!(!folder.has("q") && !folder.has("u"));
    let ran = folder.run_line("unpack i --matrix /dev/null --samples /dev/null");
    assert_eq!(ran.status, 0, "a device takes both: {ran:?}");
}

/// A table behind a link is written where the link leads, and the link stays.
#[test]
fn an_output_behind_a_link() {
    let folder = folder("link");
    folder.write("d/table", "an old table\n");
    symlink("d/table", folder.0.join("r")).unwrap();
    let ran = folder.run_line("decode --one-step --matrix h --samples y --out r");
    assert_eq!(ran.status, 0, "{ran:?}");
    assert!(folder.read("d/table").starts_with("line,block,"));
    let link = fs::symlink_metadata(folder.0.join("r")).unwrap();
    assert!(link.is_symlink());
}

/// Samples from a FIFO, and a table into one: document 01's P6.
#[test]
fn fifos() {
    let Some(program) = program() else { return };
    let folder = folder("fifo");
    folder.write("s", "bits 3 limit 5 level-step 0.5");
    for name in ["in", "out"] {
        let made = Command::new("mkfifo").arg(folder.0.join(name)).status();
        assert!(made.unwrap().success());
    }
    let (samples, table) = (folder.0.join("in"), folder.0.join("out"));
    let feeder = std::thread::spawn(move || fs::write(samples, GOOD));
    let reader = std::thread::spawn(move || fs::read_to_string(table));
    let line = "decode --matrix h --setting s --samples in --out out --program";
    let ran = folder.run_line(&format!("{line} {program}"));
    assert_eq!(ran.status, 0, "{ran:?}");
    feeder.join().unwrap().unwrap();
    let table = reader.join().unwrap().unwrap();
    assert!(
        table.ends_with("\n1,0,decoded,1,0,1,1,yes,,x00\n"),
        "{table}"
    );
}

/// Where standard error is full nothing can be told, but the status and the files are right.
#[test]
fn a_full_disk_behind_standard_error() {
    let folder = folder("full-error");
    for (line, status) in [
        ("decode --one-step --matrix h --samples y --out r", 0),
        ("matrix h --to list --out l", 0),
        ("pack --matrix h --setting s --samples y --out i", 0),
        ("matrix none", 2),
        ("paint", 2),
    ] {
        assert_eq!(folder.run_full(line, true).0, Some(status), "{line}");
    }
    let table = folder.read("r");
    assert!(table.ends_with("1,0,decoded,1,0,1,1,yes,,x00\n"), "{table}");
}

/// A name that is no UTF-8 is refused: with another in its place the wrong file would be used.
#[test]
fn names_that_are_no_text() {
    let folder = folder("names-no-text");
    let line = "decode --one-step --matrix h --samples y --out";
    let mut command = Command::new(TOOL);
    command.args(line.split(' ')).current_dir(&folder.0);
    let output = command.arg(OsStr::from_bytes(b"r\xe4.csv")).output();
    let output = output.unwrap();
    assert_eq!(output.status.code(), Some(2));
    assert_eq!(
        String::from_utf8(output.stderr).unwrap(),
        "mlgd: `r\u{fffd}.csv` is no UTF-8 text, rename the file, or write the word anew\n"
    );
}

/// Tables with counts that no block has.
#[test]
fn tables_that_no_run_has_written() {
    let folder = folder("no-table");
    let heading = mlgd::results::COLUMNS;
    for (row, place) in [
        (
            "1,0,decoded,1,0,1,4294967295,yes,,x00",
            "2:7: wrong_bits: `4294967295`",
        ),
        (
            "1,0,decoded,1,0,1,1024,no,,x00",
            "2:7: wrong_bits: `1024` does not",
        ),
        (
            "1,0,failed,1,99999999999,1,1,no,,x00",
            "2:5: failing: `99999999999`",
        ),
        ("1,-1,failed,1,1,1,1,no,,x00", "2:2: block: `-1` does not"),
        ("1,0,decoded,1,0,1,1,yes,,x\u{e9}", "2:10: word: `x\u{e9}`"),
        ("1,0,\"decoded,1,0", "2: a quotation mark is open"),
    ] {
        folder.write("t", format!("{heading}\n{row}\n"));
        refused(&folder, "map t --out m", &format!("t:{place}"));
    }
    let row = "1,18446744073709551615,failed,255,1023,9,9,no,,x00";
    folder.write("t", format!("{heading}\n{row}\n"));
    assert_eq!(folder.run_line("map t --out m").status, 0);
    let tooltip = "block 18446744073709551615: failed, 1,023 checks fail";
    assert!(folder.read("m").contains(tooltip));
}
