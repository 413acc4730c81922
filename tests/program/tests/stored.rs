//! What each program of the gate must write is what the reference prints for its stored input.

use generator::{codes, example, settings, stream};
use program::assert_same;
use std::fs;
use std::path::{Path, PathBuf};

fn root() -> PathBuf {
    Path::new(env!("CARGO_MANIFEST_DIR")).join("../..")
}

#[test]
fn every_stored_output_is_the_reference_s() {
    let mut seen = 0;
    for entry in fs::read_dir(root().join("crates")).expect("the folder crates/") {
        let folder = entry.expect("a crate's folder").path();
        let name = folder.file_name().unwrap().to_string_lossy().into_owned();
        if !name.starts_with("decode") {
            continue;
        }
        let input = fs::read(folder.join("stdin")).expect("stdin");
        let output = fs::read(folder.join("stdout")).expect("stdout");
        assert_same(&name, &output, &reference::program(&input));
        seen += 1;
    }
    assert!(seen >= 3, "{seen} programs");
}

/// The example's input and output are those of examples/.
#[test]
fn the_example_is_the_stored_one() {
    let expected = fs::read(root().join("examples/expected.txt")).expect("examples/expected.txt");
    let folder = root().join("crates/decode_examples");
    assert_eq!(fs::read(folder.join("stdout")).expect("stdout"), expected);
    assert_eq!(
        fs::read(folder.join("stdin")).expect("stdin"),
        example::of_tanner155().input()
    );
}

/// A decoded block, one that fails, one refused for a NaN, and an end inside a block.
fn ends() -> Vec<u8> {
    let decoded = vec![0.5, -1.0, -1.0, -1.0, -1.0, -1.0, -1.0];
    let failed = vec![0.5, 1.0, -1.0, -1.0, -1.0, -1.0, -1.0];
    let mut refused = decoded.clone();
    refused[4] = f32::NAN;
    let setting = settings::level_step(3, 1, 0.5);
    let blocks = [decoded.clone(), failed, refused, decoded];
    let mut input = stream::input(&codes::code_a().matrix, &setting, &blocks);
    input.truncate(input.len() - 3);
    input
}

/// The stored ends are those above, each kind among them. WRITE_EXAMPLES=1 writes them anew.
#[test]
fn the_ends_are_the_stored_ones() {
    let folder = root().join("crates/decode_ends");
    let expected = reference::program(&ends());
    if std::env::var("WRITE_EXAMPLES").is_ok_and(|value| value == "1") {
        fs::write(folder.join("stdin"), ends()).unwrap();
        fs::write(folder.join("stdout"), &expected).unwrap();
    }
    assert_eq!(fs::read(folder.join("stdin")).expect("stdin"), ends());
    assert_eq!(fs::read(folder.join("stdout")).expect("stdout"), expected);
    let text = String::from_utf8(expected).expect("text");
    for end in [
        "\n0 decoded ",
        "\n1 failed ",
        "\n2 refused 8 4\n",
        "\nshort\n",
    ] {
        assert!(text.contains(end), "{end:?} in {text}");
    }
}
