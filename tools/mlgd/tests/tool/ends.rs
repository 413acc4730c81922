//! How the tool ends: statuses, full disks, lost lines, help.

use crate::common::{program, Folder, SETTING, TOOL};
use generator::{alist, codes};
use std::fs;
use std::os::unix::fs::symlink;
use std::path::Path;
use std::process::Command;

const GOOD: &str = "0.5,-1,-1,-1,-1,-1,-1\n";

fn folder(name: &str, samples: &str) -> Folder {
    let folder = Folder::new(name);
    folder.write("h", alist::text(&codes::code_a()));
    folder.write("y", samples);
    folder
}

#[test]
fn statuses() {
    let Some(program) = program() else { return };
    let decoded = folder("status-0", GOOD);
    assert_eq!(decoded.decode(&program, SETTING, &[]).status, 0);
    let refused = folder("status-1", &format!("{GOOD}nan,-1,-1,-1,-1,-1,-1\n"));
    assert_eq!(refused.decode(&program, SETTING, &[]).status, 1);
    let limit_0 = "bits 8 limit 0 level-step 0.1";
    let ran = decoded.decode(&program, limit_0, &[]);
    assert_eq!(ran.status, 1);
    let row = decoded.read("r").lines().nth(1).unwrap().to_string();
    let reason = "a bit was wrong: 3 checks still fail after 0 rounds: \
                  try limit 43 before you send it again";
    assert_eq!(row, format!("1,0,failed,0,3,0,0,no,{reason},x80"));
    let fault = folder("status-2", "six\n");
    assert_eq!(fault.decode(&program, SETTING, &[]).status, 2);
    assert!(!fault.has("r"), "no table where there is a fault");
    let none = folder("status-none", "\n");
    let ran = none.decode(&program, SETTING, &[]);
    assert_eq!(
        ran.said,
        "y: there is no block in it, is this the right file?\n"
    );
}

/// Document 01's P8 and P3: decoded, but seven and six bits ended different where one is proved to be
/// undone. Of P8 none has a level: `changed` is 0 and `wrong_bits` 7. Not open, yet told; with --strict
/// the status tells it too.
#[test]
fn beyond_the_half() {
    let Some(program) = program() else { return };
    let folder = folder("beyond", "0.1,0.1,0.1,0.1,0.1,0.1,0.1\n");
    let said =
        "1 block: 0 decoded within the half, 1 decoded beyond the half, 0 failed, 0 refused\n\
                to be looked at: 1 block decoded beyond the half (within_half is no)\n";
    for (strict, status) in [(&[][..], 0), (&["--strict"], 1)] {
        let ran = folder.decode(&program, "bits 3 limit 5 level-step 0.5", strict);
        assert_eq!(ran.status, status, "{ran:?}");
        assert!(ran.said.starts_with(said), "{}", ran.said);
        let row = folder.read("r").lines().nth(1).unwrap().to_string();
        let reason = "\"wrong_bits is 7, more than t = 1 (half of gamma): ";
        let begin = format!("1,0,decoded,1,0,0,7,no,{reason}");
        assert!(row.starts_with(&begin), "{row}");
        assert!(row.ends_with(",x00"), "{row}");
    }
    let map = folder.run_line("map r").text();
    let tooltip = "block 0: decoded, no bit changed, 7 undecided bits turned, beyond the half";
    assert!(map.contains(&format!("<title>{tooltip}</title>")), "{map}");
    folder.write("words", "xc0\n");
    for (strict, status) in [("", 0), (" --strict", 1)] {
        let line = "decode --one-step --matrix h --words words";
        let ran = folder.run_line(&format!("{line}{strict}"));
        assert_eq!(ran.status, status, "{ran:?}");
        assert!(ran.said.starts_with(said), "{}", ran.said);
    }
    folder.write("y", GOOD);
    let ran = folder.decode(&program, SETTING, &["--strict"]);
    assert_eq!(ran.status, 0, "{ran:?}");
    assert!(!ran.said.contains("to be looked at"), "{}", ran.said);
}

/// A full disk is told, with status 2: the table, the input, the help.
#[test]
fn a_full_disk() {
    let Some(program) = program() else { return };
    let folder = folder("full", GOOD);
    folder.write("s", SETTING);
    let files = "--matrix h --setting s --samples y --out /dev/full";
    for line in [
        &format!("decode --program {program} {files}"),
        &format!("pack {files}"),
        "decode --one-step --matrix h --samples y --out /dev/full",
        "matrix h --to alist --out /dev/full",
    ] {
        let ran = folder.run_line(line);
        assert_eq!(ran.status, 2, "{line}: {ran:?}");
        let expected = "/dev/full: No space left on device";
        assert!(ran.said.starts_with(expected), "{}", ran.said);
    }
}

/// The same of what goes to standard output.
#[test]
fn a_full_disk_behind_standard_output() {
    let folder = folder("full-output", GOOD);
    for line in ["--help", "--version", "matrix h"] {
        let (status, said) = folder.run_full(line, false);
        assert_eq!(status, Some(2), "{line}");
        let expected = "standard output: No space left on device";
        assert!(said.starts_with(expected), "{said}");
    }
}

/// A table that does not go onto its disk, here by a limit on the sizes of files: the message says
/// that an older one stays, and so it does.
#[test]
fn a_table_that_is_too_large() {
    let folder = folder("too-large", &GOOD.repeat(100));
    folder.write("r", "an old table\n");
    let script = "trap '' XFSZ && ulimit -f 1 && exec \"$0\" \"$@\"";
    let line = "decode --one-step --matrix h --samples y --out r";
    let mut command = Command::new("sh");
    command.args(["-c", script, TOOL]).args(line.split(' '));
    let output = command.current_dir(&folder.0).output().unwrap();
    assert_eq!(output.status.code(), Some(2), "{output:?}");
    let said = String::from_utf8(output.stderr).unwrap();
    let stays = ": nothing was written under this name, and an older file stays as it was\n";
    assert!(said.starts_with("r: ") && said.ends_with(stays), "{said}");
    assert_eq!(folder.read("r"), "an old table\n");
    assert_eq!(folder.parts(), 0);
}

/// A program that prints what the file `printed` says.
const FAKE: &str = concat!(env!("CARGO_MANIFEST_DIR"), "/tests/fake");

/// Programs that lose lines, or print something else.
#[test]
fn lost_lines() {
    let folder = folder("lost", &GOOD.repeat(3));
    let lost = |lines: &str| format!("it printed {lines} for 3 blocks: a write was lost");
    for (printed, what) in [
        ("", "its first line is not the heading".into()),
        ("H\n", lost("0 lines")),
        ("H\n0 decoded 1 0 1 00\n", lost("1 line")),
        (
            "H\n0 decoded 1 0 1 00\n1 decoded 1 0 1 00\n2 decoded 1 0 1 00",
            lost("3 lines"),
        ),
        (
            "H\n0 decoded 1 0 1 00\n1 dec\n",
            "it printed `1 dec` for block 1".into(),
        ),
        ("H\nshort\n", "it printed `short` for block 0".into()),
    ] {
        let heading = "block end rounds failing changed word";
        folder.write("printed", printed.replace('H', heading));
        let ran = folder.decode(FAKE, SETTING, &[]);
        assert_eq!(ran.status, 2, "{ran:?}");
        assert!(ran.said.contains(&what), "{}", ran.said);
        assert!(!folder.has("r"));
    }
}

/// Programs that fail, or are not there.
#[test]
fn lost_programs() {
    let folder = folder("lost-programs", GOOD);
    let ran = folder.decode(FAKE, SETTING, &[]);
    assert_eq!(ran.status, 2, "{ran:?}");
    assert!(ran.said.contains("it ended with exit status: 1"), "{ran:?}");
    let ran = folder.decode("nothing", SETTING, &[]);
    let expected = "nothing: there is no such program, build it: make decode\n";
    assert_eq!(ran.said, expected);
}

/// From whatever folder it is called, the tool finds the program beside itself, or else that of
/// the repository in which it was built.
#[test]
fn where_the_program_is_found() {
    // Beside the tool, so that it can be linked: a copy could still be open when it is run.
    let name = format!("found-{}", std::process::id());
    let folder = Folder(Path::new(env!("CARGO_TARGET_TMPDIR")).join(name));
    let heading = "block end rounds failing changed word";
    for inside in ["other/build/release", "other/build/bin"] {
        fs::create_dir_all(folder.0.join(inside)).unwrap();
    }
    folder.write("h", alist::text(&codes::code_a()));
    folder.write("y", GOOD);
    folder.write("printed", format!("{heading}\n0 decoded 1 0 1 00\n"));
    let tool = folder.0.join("other/build/release/mlgd");
    fs::hard_link(TOOL, &tool).unwrap();
    let decode = || {
        let mut command = Command::new(&tool);
        command.args("decode --matrix h --samples y --setting".split(' '));
        let output = command.arg(SETTING).current_dir(&folder.0).output();
        let output = output.unwrap();
        (
            output.status.code(),
            String::from_utf8(output.stderr).unwrap(),
        )
    };
    let (status, said) = decode();
    assert_eq!(status, Some(2));
    assert!(said.starts_with("decode: the proved program"), "{said}");
    for place in ["build/bin/decode", "build/release/decode"] {
        let place = folder.0.join("other").join(place);
        symlink(FAKE, &place).unwrap();
        assert_eq!(decode().0, Some(0), "{}", place.display());
        fs::remove_file(place).unwrap();
    }
}

#[test]
fn help_and_version() {
    let folder = folder("help", GOOD);
    for (words, begins) in [
        (&["--help"][..], "mlgd SUBCOMMAND"),
        (&["-h"], "mlgd SUBCOMMAND"),
        (&["--version"], "mlgd 0."),
        (&["decode", "--help"], "mlgd decode --matrix M"),
        (&["map", "--help"], "mlgd map R.csv"),
        (&["simulate", "--help"], "mlgd simulate --matrix M"),
        (&["matrix", "--help"], "mlgd matrix M"),
        (&["pack", "--help"], "mlgd pack --matrix M"),
        (&["unpack", "-h"], "mlgd unpack INPUT"),
    ] {
        let ran = folder.run(words);
        assert_eq!((ran.status, ran.said.as_str()), (0, ""), "{words:?}");
        assert!(ran.text().starts_with(begins), "{}", ran.text());
    }
    let help = folder.run(&["decode", "--help"]).text();
    assert!(help.contains("leaves R.PROCESS.part"), "{help}");
}

#[test]
fn command_lines_that_cannot_be_followed() {
    let folder = folder("misused", GOOD);
    for (words, message) in [
        (&[][..], "mlgd: a subcommand is missing, see mlgd --help\n"),
        (
            &["paint"],
            "mlgd: `paint` is no subcommand, see mlgd --help\n",
        ),
        (
            &["decode"],
            "mlgd decode: --samples is missing, see mlgd decode --help\n",
        ),
        (
            &["matrix"],
            "mlgd matrix: the matrix's file is missing, see mlgd matrix --help\n",
        ),
        (
            &["matrix", "nothing"],
            "nothing: No such file or directory, is the name right?\n",
        ),
        (
            &["matrix", "h", "--to", "x"],
            "mlgd matrix: --to is alist, list, rows or sheet, and not `x`, see mlgd matrix --help\n",
        ),
        (
            &["matrix", "h", "--to", "sheet"],
            "mlgd matrix: --z is missing, see mlgd matrix --help\n",
        ),
        (
            &["matrix", "h", "--to", "sheet", "--z", "0"],
            "mlgd matrix: --z is 1 to 65535, and not `0`, see mlgd matrix --help\n",
        ),
        (
            &["matrix", "h", "--to", "list", "--z", "7"],
            "mlgd matrix: --z goes with --to sheet, see mlgd matrix --help\n",
        ),
        (
            &["matrix", "h", "--z", "7"],
            "mlgd matrix: --z goes with --to sheet, see mlgd matrix --help\n",
        ),
    ] {
        let ran = folder.run(words);
        assert_eq!((ran.status, ran.said.as_str()), (2, message), "{words:?}");
    }
}

/// An output never replaces an input, and a table has its name only when it is whole.
#[test]
fn names_of_outputs() {
    let Some(program) = program() else { return };
    let folder = folder("names", GOOD);
    folder.write("s", SETTING);
    let line = format!("decode --matrix h --setting s --samples y --program {program}");
    let ran = folder.run_line(&format!("{line} --out ./y"));
    assert_eq!(
        ran.said,
        "./y: the output would replace an input, give it another name\n"
    );
    assert_eq!(folder.read("y"), GOOD);
    folder.write("y", format!("{GOOD}six\n"));
    folder.write("r", "an old table\n");
    assert_eq!(folder.decode(&program, SETTING, &[]).status, 2);
    assert_eq!(folder.read("r"), "an old table\n");
    assert_eq!(folder.parts(), 0, "and nothing else is left");
    folder.write("y", GOOD);
    assert_eq!(folder.decode(&program, SETTING, &[]).status, 0);
    assert_eq!(folder.parts(), 0);
    let ran = folder.run_line(&line);
    assert_eq!(
        ran.text(),
        folder.read("r"),
        "standard output without --out"
    );
}

/// P1 to P5 and a spare place, by one-step voting on words and on the samples' hard bits.
#[test]
fn one_step() {
    let folder = Folder::new("one-step");
    folder.write("a", alist::text(&codes::code_a()));
    folder.write("b", alist::text(&codes::code_b()));
    folder.write("words-a", "2e\nxAE\n1100000\n0x2f\n");
    folder.write("words-b", "0800\n100010000\n");
    let voted = |matrix: &str, words: &str| {
        let ran = folder.run(&["decode", "--one-step", "--matrix", matrix, "--words", words]);
        (
            ran.status,
            ran.text()
                .lines()
                .skip(1)
                .map(String::from)
                .collect::<Vec<_>>(),
        )
    };
    let (status, rows) = voted("a", "words-a");
    assert_eq!(status, 1);
    assert_eq!(
        rows,
        [
            "1,0,decoded,0,0,0,0,yes,,x2e",
            "2,1,decoded,1,0,1,1,yes,,x2e",
            "3,2,decoded,1,0,6,6,no,\"wrong_bits is 6, more than t = 1 (half of gamma): \
             nothing proves this codeword to be the one sent, compare it with another reception \
             or send the block again\",x2e",
            "4,3,refused,,,,,no,the last place of the last byte is not 0: write the word's spare bits as 0,",
        ]
    );
    let (status, rows) = voted("b", "words-b");
    assert_eq!(status, 1);
    assert_eq!(rows[0], "1,0,decoded,1,0,1,1,yes,,x0000");
    let failed = "more than 1 bit was wrong: 4 checks still fail: send the block again";
    assert_eq!(rows[1], format!("2,1,failed,1,4,4,4,no,{failed},x5000"));
}

/// The same on the hard bits of samples.
#[test]
fn one_step_on_samples() {
    let folder = Folder::new("one-step-samples");
    folder.write("a", alist::text(&codes::code_a()));
    folder.write(
        "y",
        "1,-1,0.2,-1,1,3,1\nnan,1,1,1,1,1,1\n1,1,-inf,1,1,1,1\n",
    );
    let line = "decode --one-step --matrix a --samples y --out r";
    let ran = folder.run_line(line);
    assert_eq!(ran.status, 1);
    assert!(
        ran.said.contains("one-step voting carries the promise"),
        "{}",
        ran.said
    );
    let table = folder.read("r");
    let rows: Vec<&str> = table.lines().skip(1).collect();
    assert_eq!(rows[0], "1,0,decoded,1,0,1,1,yes,,x2e");
    assert_eq!(
        rows[1],
        "2,1,refused,,,,,no,sample 1 (column A) is not a number: send the block again,"
    );
    assert_eq!(
        rows[2],
        "3,2,refused,,,,,no,sample 3 (column C) is infinite: send the block again,"
    );
    assert_eq!(folder.run_line(&format!("{line} --setting s")).status, 2);
}

/// Where the spreadsheet has that sample: after labels, or in no column of its own line.
#[test]
fn one_step_on_labelled_samples() {
    let folder = Folder::new("one-step-labels");
    folder.write("a", alist::text(&codes::code_a()));
    let line = "decode --one-step --matrix a --samples y --out r";
    for (samples, options, place) in [
        (
            "x;1;1;1;nan;1;1;1\n",
            " --skip-columns 1",
            "sample 4 (column E)",
        ),
        ("1;1;1\n1;1;1;inf\n", "", "sample 7"),
    ] {
        folder.write("y", samples);
        assert_eq!(folder.run_line(&format!("{line}{options}")).status, 1);
        let table = folder.read("r");
        assert!(table.contains(&format!(",no,{place} is ")), "{table}");
    }
}
