//! The pictures as users make them: from files to files, and what is said when that does not work.

use crate::common::{program, ran, root, Folder, Ran, SETTING};
use generator::alist;
use generator::codes;
use std::fs;

const TABLE: &str = "tools/mlgd/tests/pictures/results.csv";
const MAP: &str = "tools/mlgd/tests/pictures/map.svg";

/// A folder with Tanner's code as `h`.
fn folder(name: &str) -> Folder {
    let folder = Folder::new(name);
    folder.write("h", alist::text(&codes::tanner155()));
    folder
}

/// Simulates by a matrix, with options as words of one text.
fn simulate(folder: &Folder, matrix: &str, options: &str) -> Ran {
    let mut words = vec!["simulate", "--matrix", matrix, "--setting", SETTING];
    words.extend(options.split_whitespace());
    folder.run(&words)
}

#[test]
fn a_table_becomes_the_stored_map() {
    let folder = Folder::new("map");
    let file = folder.0.join("map.svg").display().to_string();
    let to_file = ran(&root(), &["map", TABLE, "--columns", "5", "--out", &file]);
    assert_eq!((to_file.status, to_file.said.as_str()), (0, ""));
    let stored = fs::read_to_string(root().join(MAP)).unwrap();
    assert_eq!(folder.read("map.svg"), stored);
    assert_eq!(folder.parts(), 0);
    let printed = ran(&root(), &["map", TABLE, "--columns", "5"]);
    assert_eq!(printed.text(), stored);
}

/// From samples to a map: what decode writes is what map reads.
#[test]
fn a_table_of_decode_becomes_a_map() {
    let Some(program) = program() else { return };
    let folder = folder("decode-map");
    fs::copy(root().join("examples/blocks.csv"), folder.0.join("y")).unwrap();
    assert_eq!(folder.decode(&program, SETTING, &[]).status, 1);
    assert_eq!(folder.run(&["map", "r", "--out", "r.svg"]).status, 0);
    let map = folder.read("r.svg");
    assert!(map.contains("<title>r: 12 blocks</title>"));
    for (block, row) in folder.read("r").lines().skip(1).enumerate() {
        let outcome = row.split(',').nth(2).unwrap();
        let tooltip = format!("<title>block {block}: {outcome}, ");
        assert!(map.contains(&tooltip), "{tooltip}");
    }
}

#[test]
fn what_a_map_says_when_it_cannot() {
    let folder = Folder::new("no-map");
    let table = fs::read_to_string(root().join(TABLE)).unwrap();
    folder.write("r", &table);
    folder.write("lost", table.replace("failed", "lost"));
    folder.write("half", table.replace("yes", "maybe"));
    folder.write("cut", table.replace(",,x021eb4e4", ""));
    folder.write("empty", "");
    for (options, message) in [
        ("", "mlgd map: the results table's name is missing, see "),
        ("none", "none: No such file"),
        ("r --out /dev/full", "/dev/full: No space left"),
        ("r --out r", "r: the output would replace an input"),
        ("r --columns 0", "mlgd map: --columns is 1 to 1000, and not"),
        ("r --colour 0", "mlgd map: --colour is not an option"),
        ("r r", "mlgd map: `r` is one file name too many"),
        ("empty", "empty:1: there is no column `line`, is this a"),
        ("lost", "lost:6:3: outcome: `lost` does not belong there"),
        ("half", "half:2:8: within_half: `maybe` does not belong"),
        ("cut", "cut:3: 8 fields below 10 names, is the table whole?"),
    ] {
        let words: Vec<&str> = ["map"]
            .into_iter()
            .chain(options.split_whitespace())
            .collect();
        let ran = folder.run(&words);
        assert_eq!(ran.status, 2, "{options}");
        assert!(ran.said.starts_with(message), "{}", ran.said);
    }
}

#[test]
fn one_job_and_three_give_the_same() {
    let Some(program) = program() else { return };
    let folder = folder("jobs");
    let simulated = |jobs: &str| {
        let options = format!(
            "--db 3:5:2 --blocks 3000 --seed 7 --jobs {jobs} --program {program} --out t --svg c"
        );
        let ran = simulate(&folder, "h", &options);
        assert_eq!(ran.status, 0, "{}", ran.said);
        assert!(ran.said.starts_with("3 dB: 200 of "), "{}", ran.said);
        (folder.read("t"), folder.read("c"))
    };
    let (table, curve) = simulated("1");
    assert_eq!(simulated("3"), (table.clone(), curve.clone()));
    assert_eq!(table.lines().count(), 3);
    assert!(curve.contains("h: n = 155, k = 64, row weight 5, column weight 3"));
    assert!(curve.contains("3,000 blocks a point, or until 200 were wrong; seed 7"));
}

/// The stored table of docs/PICTURES.md, where a point takes a second at most.
#[test]
fn the_stored_rates_come_back() {
    let Some(program) = program() else { return };
    let folder = folder("rates");
    let options = format!("--db 2:5:0.5 --blocks 1000000 --seed 1 --program {program} --out t");
    let ran = simulate(&folder, "h", &options);
    assert_eq!(ran.status, 0, "{}", ran.said);
    let stored = fs::read_to_string(root().join("docs/tanner155-rates.csv")).unwrap();
    let table = folder.read("t");
    assert_eq!(table.lines().count(), 8);
    assert!(table.lines().eq(stored.lines().take(8)), "{table}");
}

#[test]
fn samples_can_be_had() {
    let folder = folder("samples");
    let ran = simulate(&folder, "h", "--db 3:4 --blocks 5 --seed 7 --samples y");
    assert_eq!(ran.status, 0, "{}", ran.said);
    let text = folder.read("y");
    assert_eq!(text.lines().count(), 10);
    for line in text.lines() {
        let numbers = line.split(',').filter(|y| y.parse::<f32>().is_ok());
        assert_eq!(numbers.count(), 155);
    }
    let Some(program) = program() else { return };
    let decoded = folder.decode(&program, SETTING, &[]);
    assert!(decoded.said.starts_with("10 blocks: "), "{}", decoded.said);
}

/// A matrix, the points and blocks, and what is said.
const NO_SIMULATION: &[(&str, &str, &str)] = &[
    ("none", "--db 3 --blocks 1 --seed 1", "none: No such file"),
    ("h", "--db 3 --blocks 1", "mlgd simulate: --seed is missing"),
    ("h", "--db 3 --seed 1", "mlgd simulate: --blocks is missing"),
    (
        "h",
        "--db 5:3:1 --blocks 1 --seed 1",
        "mlgd simulate: --db 5:3:1 has no points, see mlgd simulate --help",
    ),
    (
        "h",
        "--db 3 --blocks 0 --seed 1",
        "mlgd simulate: --blocks is 1 to 1000000000, and not `0`",
    ),
    (
        "h",
        "--db 3 --blocks 1 --seed 1 --samples y --jobs 2",
        "mlgd simulate: --jobs does not go with --samples",
    ),
    (
        "h",
        "--db 3 --blocks 1 --seed 1 --svg h",
        "h: the output would replace an input",
    ),
    (
        "h",
        "--db 3 --blocks 1 --seed 1 --program none",
        "none: there is no such program, build it: make decode",
    ),
    (
        "refused",
        "--db 3 --blocks 1 --seed 1",
        "refused:2: rows 0 and 1 (lines 2 and 3) share columns 0 and 1",
    ),
    (
        "one-word",
        "--db 3 --blocks 1 --seed 1",
        "one-word:1:3: rho is 1: the decoder takes 2 to 32",
    ),
];

#[test]
fn what_a_simulation_says_when_it_cannot() {
    let Some(program) = program() else { return };
    let folder = folder("no-simulation");
    folder.write("refused", "2 2 2 2\n0 1\n0 1\n");
    folder.write("one-word", "2 2 1 1\n0\n1\n");
    for (matrix, options, message) in NO_SIMULATION {
        let ran = simulate(&folder, matrix, options);
        assert_eq!(ran.status, 2, "{matrix} {options}: {}", ran.said);
        assert!(ran.said.starts_with(message), "{}", ran.said);
    }
    let options = format!("--db 30 --blocks 10 --seed 1 --program {program} --out /dev/full");
    let ran = simulate(&folder, "h", &options);
    assert_eq!(ran.status, 2);
    let said = "30 dB: 0 of 10 blocks wrong, 0.00e0\n/dev/full: No space left";
    assert!(ran.said.starts_with(said), "{}", ran.said);
}
