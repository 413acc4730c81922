//! The stack that a call uses is no more than the header says.

use firmware_c::{printed, random, root, Case, Workshop};
use generator::codes::{self, Code};
use generator::{damage, settings, unlike, Random};
use reference::{check, Refusal};
use std::fs::{self, File};
use std::path::Path;
use std::process::Command;

/// What the program printed for a call: the returned number, the bytes used, the bytes allowed.
fn measured(program: &Path, file: &Path, case: &Case) -> [u64; 3] {
    fs::write(file, case.stream(0)).expect("the call");
    let input = File::open(file).expect("the call");
    let text = printed(Command::new(program).stdin(input));
    let numbers: Vec<u64> = text
        .split_whitespace()
        .map(|number| number.parse().expect("a number"))
        .collect();
    numbers.try_into().expect("three numbers")
}

/// EG1023 with two rows that share two columns: refusal 5, found by the exact search.
fn overlapping(random: &mut Random) -> Code {
    let mut code = codes::eg1023();
    while check(&code.matrix).is_ok() {
        damage::exchange_columns(&mut code.matrix, random);
    }
    assert!(matches!(
        check(&code.matrix),
        Err(Refusal { number: 5, .. })
    ));
    code
}

/// Large matrices and a small one: blocks that fail after several rounds. The largest: one that is
/// decoded, the same with the finest levels, one refused for its last sample, and overlapping rows.
fn calls(random: &mut Random) -> Vec<(u64, Case)> {
    let setting = settings::level_step(8, 20, 0.25);
    let mut calls = Vec::new();
    for code in [
        codes::eg1023(),
        codes::qc961(),
        unlike::irregular1000(),
        codes::tanner155(),
    ] {
        let n = usize::from(code.matrix.n);
        let noise: Vec<f32> = (0..n).map(|_| random.gaussian() as f32).collect();
        calls.push((1, Case::new(&code, &setting, &noise)));
    }
    let code = codes::eg1023();
    let mut block = vec![-1.0; 1023];
    block[..16].fill(9.0);
    calls.push((0, Case::new(&code, &setting, &block)));
    let finest = settings::level_step(12, 255, 0.25);
    calls.push((0, Case::new(&code, &finest, &block)));
    block[1022] = f32::NAN;
    calls.push((8, Case::new(&code, &setting, &block)));
    calls.push((5, Case::new(&overlapping(random), &setting, &block)));
    calls
}

#[test]
fn within_the_header_s_bound() {
    let workshop = Workshop::new(env!("CARGO_TARGET_TMPDIR"), "stack");
    // All symbols bound at the start: the linker's own work at a first call is no part of it.
    let program = workshop.build("stack", &["-Wl,-z,now"]);
    let file = workshop.path("call");
    let readme = fs::read_to_string(root().join("README.md")).expect("README.md");
    for (outcome, case) in calls(&mut random(3300)) {
        let [returned, used, allowed] = measured(&program, &file, &case);
        println!(
            "{}: returned {returned}, stack {used} of {allowed}",
            case.name
        );
        let told = if returned < 65_536 {
            returned
        } else {
            returned >> 16
        };
        assert_eq!(told, outcome, "{}", case.name);
        let figure = format!("`MLGD_STACK_BYTES` ({} KB)", allowed / 1024);
        assert!(readme.contains(&figure), "README.md: {figure}");
        // A call has arrays of thousands of bytes: less would mean that the paint was not seen.
        assert!(
            (4096..=allowed).contains(&used),
            "{}: {used} bytes",
            case.name
        );
    }
}
