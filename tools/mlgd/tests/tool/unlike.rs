//! Matrices with columns of unlike weight, as the tool's users give them.

use crate::common::{program, ran, root, Folder, SETTING};
use generator::{alist, example, unlike};

/// Code U in every form that the tool reads.
fn forms() -> [(&'static str, String); 5] {
    let code = unlike::code_u();
    let rows = code.rows();
    let lines = |line: &dyn Fn(&Vec<usize>) -> String| rows.iter().map(line).collect::<String>();
    let bare = lines(&|row| format!("{} {} {}\n", row[0], row[1], row[2]));
    let dense = lines(&|row| {
        let bits = (0..9).map(|j| if row.contains(&j) { '1' } else { '0' });
        bits.chain(['\n']).collect()
    });
    let padded = alist::text(&code);
    [
        ("alist", padded.replace(" 0", "")),
        ("alist", padded),
        ("a list with sizes", format!("9 7 3 2\n{bare}")),
        ("rows without sizes", bare),
        ("zeros and ones", dense),
    ]
}

/// Every form is accepted, and written in every form that the tool writes.
#[test]
fn every_form_is_read_and_written() {
    let folder = Folder::new("unlike-forms");
    let [_, (_, padded), (_, list), (_, bare), _] = forms();
    for (form, contents) in forms() {
        folder.write("h", contents);
        let said = folder.run_line("matrix h").text();
        let sizes = "n 9, m 7, rho 3, gamma 2, t 1, columns of 2 to 4 ones";
        assert_eq!(said, format!("h: {sizes}: accepted ({form})\n"));
        for (to, expected) in [("alist", &padded), ("list", &list), ("rows", &bare)] {
            let written = folder.run_line(&format!("matrix h --to {to}"));
            assert_eq!((written.status, &written.text()), (0, expected), "{form}");
        }
    }
}

/// The words that the reference's tests work out by hand: a bit of four checks undone, and a tie of
/// its checks.
#[test]
fn one_step_goes_by_the_bits_own_checks() {
    let folder = Folder::new("unlike-one-step");
    folder.write("h", alist::text(&unlike::code_u()));
    folder.write("w", "8000\n5000\n");
    let ran = folder.run_line("decode --one-step --matrix h --words w");
    let table = ran.text();
    let rows: Vec<&str> = table.lines().skip(1).collect();
    assert_eq!(rows[0], "1,0,decoded,1,0,1,1,yes,,x0000");
    assert!(rows[1].starts_with("2,1,failed,1,2,1,1,no,"), "{}", rows[1]);
    assert!(rows[1].ends_with(",x1000"), "{}", rows[1]);
}

/// The example of unlike columns: the table has the stored lines' fields.
#[test]
fn the_example_is_decoded() {
    let Some(program) = program() else { return };
    let examples = root().join("examples");
    let mut words = vec!["decode", "--setting", SETTING, "--program", &program];
    words.extend(["--matrix", "irregular504.alist"]);
    words.extend(["--samples", "irregular504.csv"]);
    let ran = ran(&examples, &words);
    assert_eq!(ran.status, 1, "{ran:?}");
    assert!(ran.said.contains("n 504, m 252, rho 8, gamma 3, t 1"));
    let table = ran.text();
    let stored = std::fs::read_to_string(examples.join("irregular504.txt")).unwrap();
    assert_eq!(stored, example::of_irregular504().expected());
    assert_eq!(table.lines().count(), stored.lines().count());
    for (row, line) in table.lines().zip(stored.lines()).skip(1) {
        let fields: Vec<&str> = line.split(' ').collect();
        let front = format!("{},{}", fields[0], fields[1..5].join(","));
        let (_, row) = row.split_once(',').unwrap();
        assert!(row.starts_with(&front), "{row} and {line}");
        assert!(row.ends_with(&format!("x{}", fields[5])), "{row}");
    }
}

/// The picture's heading has the range of the weights.
#[test]
fn a_curve_names_the_weights() {
    let Some(program) = program() else { return };
    let folder = Folder::new("unlike-curve");
    folder.write("u", alist::text(&unlike::code_u()));
    let mut words = vec!["simulate", "--matrix", "u", "--setting", SETTING];
    words.extend(["--db", "4:6:1", "--blocks", "20", "--seed", "1"]);
    words.extend(["--out", "r", "--svg", "s", "--program", &program]);
    let ran = folder.run(&words);
    assert_eq!(ran.status, 0, "{ran:?}");
    let heading = "u: n = 9, k = 2, row weight 3, column weights 2 to 4";
    assert!(folder.read("s").contains(heading));
}
