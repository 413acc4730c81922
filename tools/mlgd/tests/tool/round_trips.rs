//! There and back: matrices through every form, inputs through pack and unpack.

use crate::common::{csv, Folder};
use generator::codes::{self, Code};
use generator::{alist, example, inputs, settings, stream, Random};
use mlgd::matrix_file::{Matrix, MatrixFile};
use mlgd::samples_file::{Form, SamplesFile};
use mlgd::setting::Setting;
use mlgd::unpack::unpacked;
use mlgd::{lines::Lines, stream as input};

fn matrix(contents: &str) -> Matrix {
    MatrixFile::of("h", contents).unwrap().matrix
}

/// The generator's matrix in the tool's form.
fn expected(code: &Code) -> Matrix {
    let h = &code.matrix;
    Matrix {
        n: h.n,
        m: h.m,
        rho: h.rho,
        gamma: h.gamma,
        list: h.list.clone(),
    }
}

/// A code as zeros and ones.
fn dense(code: &Code, gap: &str) -> String {
    let bit = |row: &[usize], j: usize| if row.contains(&j) { "1" } else { "0" };
    let line = |row: &Vec<usize>| {
        let bits: Vec<&str> = (0..usize::from(code.matrix.n))
            .map(|j| bit(row, j))
            .collect();
        bits.join(gap) + "\n"
    };
    code.rows().iter().map(line).collect()
}

#[test]
fn every_code_in_every_form() {
    for code in codes::all() {
        let expected = expected(&code);
        assert_eq!(matrix(&alist::text(&code)), expected, "{}", code.name);
        assert_eq!(expected.alist().unwrap(), alist::text(&code));
        assert_eq!(matrix(&expected.plain()), expected, "{}", code.name);
        let rows = expected.bare_rows();
        if rows != "0 1\n" {
            assert_eq!(matrix(&rows), expected, "{}", code.name);
        }
        if expected.n < 300 {
            assert_eq!(matrix(&dense(&code, "")), expected, "{}", code.name);
            assert_eq!(matrix(&dense(&code, " ")), expected, "{}", code.name);
        }
    }
}

/// An alist padded with zeros, with a byte order mark, with carriage returns.
#[test]
fn an_alist_as_others_write_it() {
    let code = codes::tanner155();
    let text = alist::text(&code);
    let (head, lists) = text.split_at(text.match_indices('\n').nth(3).unwrap().0 + 1);
    let padded = format!("{head}{}", lists.replace('\n', " 0 0\n"));
    for written in [
        padded,
        format!("\u{feff}{text}"),
        text.replace('\n', "\r\n"),
    ] {
        assert_eq!(matrix(&written), expected(&code));
    }
}

/// The bytes that matrix, setting and samples make.
fn packed(matrix: &Matrix, setting: &Setting, samples: &str) -> Vec<u8> {
    let mut bytes = input::head(matrix, setting);
    let lines = Lines::of("y", std::io::Cursor::new(samples.as_bytes().to_vec()), None);
    let mut file = SamplesFile::of(lines, matrix.n, Form::default());
    let mut block = Vec::new();
    while file.next_block(&mut block).unwrap().is_some() {
        input::put(&mut bytes, &block);
    }
    bytes
}

/// Whatever input is whole comes back byte for byte, refused heads too.
#[test]
fn every_whole_input() {
    let mut random = Random::new(61);
    let mut whole = 0;
    let mut all = inputs::whole_runs(&mut random);
    all.extend(inputs::refused_heads(&mut random));
    all.extend(inputs::by_chance(300, &mut random));
    for (name, bytes) in all {
        match unpacked(&name, &bytes) {
            Ok((matrix, setting, samples)) => {
                let setting = Setting::open(&setting.to_string()).unwrap();
                assert_eq!(packed(&matrix, &setting, &samples), bytes, "{name}");
                if matrix.m > 0 && matrix.rho > 1 {
                    let back = MatrixFile::of("h", &matrix.plain());
                    assert!(back.is_err() || back.unwrap().matrix == matrix, "{name}");
                }
                whole += 1;
            }
            Err(fault) => assert!(fault.to_string().contains("byte"), "{fault}"),
        }
    }
    assert!(whole > 150, "{whole}");
}

#[test]
fn inputs_that_end_too_early() {
    let code = codes::triangle();
    let setting = settings::level_step(3, 5, 0.5);
    let bytes = stream::input(
        &code.matrix,
        &setting,
        &[vec![0.5, -1.0, 1.0], vec![0.0; 3]],
    );
    let message = |cut: usize| unpacked("t", &bytes[..cut]).unwrap_err().to_string();
    for (cut, inside) in [
        (0, "n"),
        (7, "gamma"),
        (19, "the list"),
        (20, "the width"),
        (26, "the step"),
        (28, "block 0"),
        (50, "block 1"),
    ] {
        let expected = format!("the input ends inside {inside}, is the file whole?");
        assert!(message(cut).ends_with(&expected), "{}", message(cut));
    }
    for whole in [27, 39, 51] {
        assert!(unpacked("t", &bytes[..whole]).is_ok());
    }
}

/// The tool packs to the bytes the tests' own side makes, and unpacks them to files that pack to
/// the same.
#[test]
fn the_tool_packs_and_unpacks() {
    let mut random = Random::new(62);
    for code in [codes::code_a(), codes::tanner155()] {
        let folder = Folder::new(&format!("pack-{}", code.matrix.n));
        let setting = settings::level_step(3, 5, 0.5);
        let blocks = inputs::blocks(&code, 5, 1.0, &mut random);
        folder.write("h", alist::text(&code));
        folder.write("y", csv(&blocks));
        folder.write("s", "bits 3 limit 5\nlevel-step 0.5\n");
        let packing = ["pack", "--matrix", "h", "--setting", "s", "--samples", "y"];
        let ran = folder.run(&[&packing[..], &["--out", "input"]].concat());
        assert_eq!(ran.status, 0, "{ran:?}");
        assert!(ran.said.ends_with(", blocks 5, files 1\n"), "{}", ran.said);
        let bytes = std::fs::read(folder.0.join("input")).unwrap();
        assert_eq!(bytes, stream::input(&code.matrix, &setting, &blocks));

        let back = [
            "unpack",
            "input",
            "--matrix",
            "h",
            "--setting",
            "s",
            "--samples",
            "y",
        ];
        for more in [&[][..], &["--alist"]] {
            assert_eq!(folder.run(&[&back[..], more].concat()).status, 0);
            assert_eq!(folder.run(&packing).printed, bytes, "{}", code.name);
        }
        assert_eq!(folder.read("s"), "bits 3 limit 5 level-step 0.5\n");
        assert_eq!(folder.read("h"), alist::text(&code));
    }
}

/// `--split` makes inputs of their own.
#[test]
fn split_inputs() {
    let folder = Folder::new("split");
    let code = codes::code_b();
    let blocks = inputs::blocks(&code, 7, 1.0, &mut Random::new(63));
    folder.write("h", alist::text(&code));
    folder.write("y", csv(&blocks));
    let setting = "bits 3 limit 5 level-step 0.5";
    let packing = [
        "pack",
        "--matrix",
        "h",
        "--setting",
        setting,
        "--samples",
        "y",
    ];
    let ran = folder.run(&[&packing[..], &["--out", "part", "--split", "3"]].concat());
    assert_eq!(ran.status, 0, "{ran:?}");
    for (at, blocks) in blocks.chunks(3).enumerate() {
        let bytes = std::fs::read(folder.0.join(format!("part.{at:04}"))).unwrap();
        let setting = settings::level_step(3, 5, 0.5);
        assert_eq!(bytes, stream::input(&code.matrix, &setting, blocks));
    }
    assert!(!folder.has("part.0003"));
}

/// The files in examples/ are packed to the bytes the generator makes of the same block set.
#[test]
fn the_examples_are_packed() {
    for (set, matrix, samples) in [
        (example::of_tanner155(), "tanner155.alist", "blocks.csv"),
        (
            example::of_irregular504(),
            "irregular504.alist",
            "irregular504.csv",
        ),
    ] {
        let mut words = vec!["pack", "--setting", example::SETTING];
        words.extend(["--matrix", matrix, "--samples", samples]);
        let ran = crate::common::ran(&crate::common::root().join("examples"), &words);
        assert!(ran.printed == set.input(), "{matrix}");
    }
}
