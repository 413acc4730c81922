//! How the input comes: in pieces with pauses, from a file, not at all.

use generator::{codes, inputs, settings, stream, Random};
use program::{assert_same, Program};
use std::fs::File;
use std::time::Duration;

/// Two blocks and a piece of a third, of a code with rows and a word of several bytes.
fn some_input() -> Vec<u8> {
    let mut random = Random::new(51);
    let code = codes::array_code(5, 3, 4);
    let setting = settings::level_step(5, 9, 0.125);
    let blocks = inputs::blocks(&code, 2, 1.0, &mut random);
    let mut input = stream::input(&code.matrix, &setting, &blocks);
    input.extend([1, 2, 3]);
    input
}

#[test]
fn small_pieces_with_pauses() {
    let Some(program) = Program::find() else {
        return;
    };
    let input = some_input();
    let expected = reference::program(&input);
    for size in [1, 2, 3, 5, 7, 16, 61] {
        let pause = Duration::from_millis(if size == 1 { 1 } else { 3 });
        let printed = program.printed_in_pieces(&input, size, pause);
        assert_same(&format!("pieces of {size}"), &printed, &expected);
    }
}

#[test]
fn pieces_of_a_large_input() {
    let Some(program) = Program::find() else {
        return;
    };
    let mut random = Random::new(52);
    let code = codes::tanner155();
    let setting = settings::level_step(8, 30, 0.1);
    let blocks = inputs::blocks(&code, 60, 1.0, &mut random);
    let input = stream::input(&code.matrix, &setting, &blocks);
    let expected = reference::program(&input);
    for size in [619, 1021, 4099, 65_536] {
        let pause = Duration::from_micros(300);
        let printed = program.printed_in_pieces(&input, size, pause);
        assert_same(&format!("pieces of {size}"), &printed, &expected);
    }
}

#[test]
fn from_a_file() {
    let Some(program) = Program::find() else {
        return;
    };
    let input = some_input();
    let name = format!("program-input-{}", std::process::id());
    let path = std::env::temp_dir().join(name);
    std::fs::write(&path, &input).expect("the folder for temporary files");
    let printed = program.printed_for_file(&File::open(&path).expect("the file"));
    std::fs::remove_file(&path).ok();
    assert_same("from a file", &printed, &reference::program(&input));
}

#[test]
fn no_input() {
    let Some(program) = Program::find() else {
        return;
    };
    let nothing = File::open("/dev/null").expect("/dev/null");
    assert_same(
        "no input",
        &program.printed_for_file(&nothing),
        &reference::program(&[]),
    );
    assert_same("no input", &program.printed(&[]), &reference::program(&[]));
}
