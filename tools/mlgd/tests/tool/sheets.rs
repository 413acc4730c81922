//! Circulant sheets: read, written, and refused.

use crate::common::{ran, root, Folder};
use generator::{alist, codes, example, sheets, Random};
use mlgd::matrix_file::MatrixFile;
use std::fs;
use std::os::unix::fs::symlink;

/// The examples are turned into one another, byte for byte.
#[test]
fn the_examples() {
    let folder = Folder::new("sheets-examples");
    for (name, verdict) in [
        (
            "tanner155",
            "n 155, m 93, rho 5, gamma 3, t 1: accepted (a sheet of 3 × 5 blocks of 31)\n",
        ),
        (
            "qc961",
            "n 961, m 961, rho 30, gamma 30, t 15: accepted (a sheet of 31 × 31 blocks of 31)\n",
        ),
    ] {
        let [alist, sheet] = ["alist", "sheet"].map(|form| format!("{name}.{form}"));
        for file in [&alist, &sheet] {
            let stored = fs::read(root().join("examples").join(file)).unwrap();
            folder.write(file, stored);
        }
        let said = folder.run(&["matrix", &sheet]).text();
        assert_eq!(said, format!("{sheet}: {verdict}"));
        let back = folder.run(&["matrix", &sheet, "--to", "alist"]);
        assert_eq!(back.text(), folder.read(&alist), "{name}");
        let line = format!("matrix {alist} --to sheet --z 31 --out made.sheet");
        assert_eq!(folder.run_line(&line).status, 0, "{line}");
        let [made, stored] = ["made.sheet", &sheet].map(|file| fs::read(folder.0.join(file)));
        assert!(made.unwrap() == stored.unwrap(), "{name}");
    }
}

/// A sheet stands wherever a matrix does.
#[test]
fn a_sheet_is_packed() {
    let mut words = vec!["pack", "--setting", example::SETTING];
    words.extend(["--matrix", "tanner155.sheet", "--samples", "blocks.csv"]);
    let packed = ran(&root().join("examples"), &words);
    assert!(packed.printed == example::of_tanner155().input());
}

/// Codes that are grids, by the tool to a sheet and back.
#[test]
fn known_codes() {
    let folder = Folder::new("sheets-known");
    for (code, z) in sheets::known() {
        if code.matrix.n > 200 {
            continue;
        }
        folder.write("h", alist::text(&code));
        let z = z.to_string();
        let made = folder.run(&["matrix", "h", "--to", "sheet", "--z", &z]);
        let expected = reference::sheet_of_accepted(&code.matrix, z.parse().unwrap());
        assert_eq!(expected, Ok(made.printed.clone()), "{}", code.name);
        folder.write("h.sheet", &made.printed);
        let back = folder.run_line("matrix h.sheet --to alist");
        assert_eq!(back.text(), alist::text(&code), "{}", code.name);
    }
}

/// Changed sheets: accepted where the reference accepts them, else one line that says why.
#[test]
fn changed_by_chance() {
    let folder = Folder::new("sheets-chance");
    let path = folder.0.join("x.sheet");
    let path = path.to_str().unwrap();
    let mut random = Random::new(71);
    let mut seen = [0; 12];
    for _ in 0..2000 {
        let mut bytes = sheets::accepted(&mut random).bytes();
        sheets::change(&mut bytes, &mut random);
        folder.write("x.sheet", &bytes);
        match (
            reference::matrix_of_sheet(&bytes),
            MatrixFile::open(path, false),
        ) {
            (Ok(h), Ok(file)) => assert_eq!(file.matrix.list, h.list),
            (Err(refusal), Err(fault)) => {
                seen[usize::from(refusal.number)] += 1;
                let said = fault.to_string();
                let told = said.starts_with(path) && !said.contains("refusal");
                assert!(told && said.contains(", "), "{said}");
            }
            (verdict, read) => panic!("{verdict:?} {read:?}"),
        }
    }
    assert!(seen[1] > 5 && seen[5] > 5 && seen[11] > 500, "{seen:?}");
}

/// Files that no sheet can be, and names.
#[test]
fn no_files_of_their_kind() {
    let folder = Folder::new("sheets-files");
    fs::create_dir_all(folder.0.join("d.sheet")).unwrap();
    folder.write("long.sheet", vec![1; 196_296]);
    folder.write("empty.sheet", "");
    folder.write("h", alist::text(&codes::code_a()));
    let made = folder.run_line("matrix h --to sheet --z 1");
    folder.write("h.sheet", made.printed);
    symlink("/dev/full", folder.0.join("full.sheet")).unwrap();
    for (line, said) in [
        (
            "matrix d.sheet",
            "d.sheet: Is a directory, give the name of a file",
        ),
        (
            "matrix none.sheet",
            "none.sheet: No such file or directory, is the name right?",
        ),
        (
            "matrix long.sheet",
            "long.sheet: it has more than 196,295 bytes, the most of a sheet that is accepted, \
             is this the right file?",
        ),
        (
            "matrix empty.sheet",
            "empty.sheet: it has 0 bytes, and a sheet begins with J, K and Z, two bytes each, \
             is it a whole sheet?",
        ),
        (
            "matrix h.sheet --to sheet --z 1 --out h.sheet",
            "h.sheet: the output would replace an input, give it another name",
        ),
        (
            "matrix h --to sheet --z 1 --out full.sheet",
            "full.sheet: No space left on device, make room and run it again: what is there is not \
             whole",
        ),
    ] {
        let ran = folder.run_line(line);
        assert_eq!((ran.status, ran.said), (2, format!("{said}\n")), "{line}");
    }
    assert_eq!(folder.parts(), 0);
}

const NO_TEXT: &str = "a sheet of this name would be read as text, give it a name like code.sheet";
const NO_SHEET: &str =
    "a text of this name would be read as a sheet, give it a name that does not \
                        end in .sheet";

/// A matrix, an input, and an older file under each of these names.
fn with_older(name: &str, files: &[&str]) -> Folder {
    let folder = Folder::new(name);
    folder.write("h", alist::text(&codes::code_a()));
    folder.write("i", example::of_tanner155().input());
    for file in files {
        folder.write(file, "older\n");
    }
    folder
}

/// The command line is refused with these words, and the older file stays.
fn keeps_older(folder: &Folder, line: &str, file: &str, said: &str) {
    let ran = folder.run_line(line);
    let expected = (2, format!("{file}: {said}\n"));
    assert_eq!((ran.status, ran.said), expected, "{line}");
    assert!(ran.printed.is_empty(), "{line}");
    assert_eq!(folder.read(file), "older\n", "{line}");
    assert_eq!(folder.parts(), 0, "{line}");
}

/// A sheet of another name would be read as text, and is not written.
#[test]
fn a_sheet_has_its_name() {
    let refused = [
        "code",
        "code.alist",
        "code.sheet.txt",
        "codesheet",
        ".sheet",
    ];
    let folder = with_older("sheets-named", &refused);
    for file in refused {
        let line = format!("matrix h --to sheet --z 1 --out {file}");
        keeps_older(&folder, &line, file, NO_TEXT);
    }
    let printed = folder.run_line("matrix h --to sheet --z 1 --out -");
    assert_eq!(printed.status, 0);
    for file in ["code.sheet", "code.alist.SHEET", "./a.b.sheet"] {
        let line = format!("matrix h --to sheet --z 1 --out {file}");
        assert_eq!(folder.run_line(&line).status, 0, "{line}");
        assert_eq!(fs::read(folder.0.join(file)).unwrap(), printed.printed);
        let back = folder.run(&["matrix", file, "--to", "alist"]);
        assert_eq!(back.text(), folder.read("h"), "{file}");
    }
}

/// Text of a sheet's name would be read as a sheet, and is not written.
#[test]
fn a_text_has_another_name() {
    let refused = ["code.sheet", "code.Sheet", "./code.alist.SHEET"];
    let folder = with_older("sheets-texts", &refused);
    let lines = [
        "matrix h --to alist --out",
        "matrix h --to list --out",
        "matrix h --to rows --out",
        "unpack i --matrix",
        "unpack i --alist --setting s --samples y --matrix",
    ];
    for line in lines {
        for file in refused {
            keeps_older(&folder, &format!("{line} {file}"), file, NO_SHEET);
        }
        assert!(!folder.has("s") && !folder.has("y"), "{line}");
    }
    for line in lines {
        let printed = folder.run_line(&format!("{line} -")).text();
        for file in ["code", "code.sheet.txt", "sheet"] {
            let line = format!("{line} {file}");
            assert_eq!(folder.run_line(&line).status, 0, "{line}");
            assert_eq!(folder.read(file), printed, "{line}");
            assert_eq!(folder.run(&["matrix", file]).status, 0, "{line}");
        }
    }
}

/// What is wrong with --to is said before what is wrong with a name.
#[test]
fn no_form_has_no_name() {
    let folder = with_older("sheets-forms", &["code.sheet"]);
    let ran = folder.run_line("matrix h --to dense --out code.sheet");
    let said = "--to is alist, list, rows or sheet, and not `dense`, see mlgd matrix --help";
    assert_eq!(
        (ran.status, ran.said),
        (2, format!("mlgd matrix: {said}\n"))
    );
    assert_eq!(folder.read("code.sheet"), "older\n");
}
