//! The hand-optimised programs and the plain ones print what the reference prints, byte for byte.

use bench::accumulate::Accumulate;
use bench::incremental::{Bits, Bytes, Incremental};
use bench::plain;
use bench::whole::{program, Rounds};
use generator::codes;
use generator::{inputs, noise, settings, stream, Codewords, Random};
use reference::{largest_level, Setting};
use std::io::{Read, Write};
use std::path::{Path, PathBuf};
use std::process::{Command, Stdio};
use std::sync::OnceLock;

fn printed<R: Rounds>(input: impl Read) -> Vec<u8> {
    let mut printed = Vec::new();
    program::<R>(input, &mut printed);
    printed
}

fn printed_plain(input: &[u8]) -> Vec<u8> {
    let mut printed = Vec::new();
    plain::program(input, &mut printed).expect("bytes in memory");
    printed
}

/// The program in C, compiled once for all tests.
fn c_program() -> &'static Path {
    static PROGRAM: OnceLock<PathBuf> = OnceLock::new();
    PROGRAM.get_or_init(|| {
        let program = Path::new(env!("CARGO_TARGET_TMPDIR")).join("bench_accumulate_c");
        let source = Path::new(env!("CARGO_MANIFEST_DIR")).join("c/accumulate.c");
        let mut cc = Command::new("cc");
        cc.args(["-std=c99", "-Wall", "-Wextra", "-Werror", "-O3"]);
        let status = cc.arg(source).arg("-o").arg(&program).status();
        assert!(status.expect("cc is there").success());
        program
    })
}

fn printed_by_c(input: &[u8]) -> Vec<u8> {
    let mut child = Command::new(c_program())
        .stdin(Stdio::piped())
        .stdout(Stdio::piped())
        .spawn()
        .expect("the program in C runs");
    let mut to = child.stdin.take().expect("its standard input");
    std::thread::scope(|scope| {
        // It may end before it has read all.
        scope.spawn(move || to.write_all(input).ok());
        child
            .wait_with_output()
            .expect("its standard output")
            .stdout
    })
}

fn compare(inputs: Vec<inputs::Named>) {
    for (name, input) in inputs {
        let expected = reference::program(&input);
        let expected = String::from_utf8_lossy(&expected);
        for printed in [
            printed::<Accumulate>(&input[..]),
            printed::<Incremental<Bytes>>(&input[..]),
            printed::<Incremental<Bits>>(&input[..]),
            printed_plain(&input),
        ] {
            assert_eq!(String::from_utf8_lossy(&printed), expected, "{name}");
        }
        // It looks at lengths only, and no refused head is for it.
        if !expected.contains("\nrefused") {
            let printed = printed_by_c(&input);
            assert_eq!(String::from_utf8_lossy(&printed), expected, "{name}, C");
        }
    }
}

/// Codes of every number of words of rows, weights of 2 to 32, noise that needs a few rounds, that
/// needs many and that is too much.
#[test]
fn blocks_by_chance() {
    let mut random = Random::new(26);
    let codes = [
        codes::tanner155(),
        codes::array_code(5, 3, 4),
        codes::array_code(17, 16, 4),
        codes::array_code(341, 3, 3),
        codes::grid(16),
        codes::complete_graph(12).transposed(),
        codes::cycle(1023),
        codes::qc961(),
        codes::eg1023(),
    ];
    for code in &codes {
        // The literal form is slow.
        let large = code.matrix.n > 300;
        for deviation in [0.4, 0.5, 0.55, 0.6, 0.8] {
            let limit = if large { 6 } else { 30 };
            let step = *random.pick(&[0.015, 0.025, 0.1]);
            let setting = match random.below(2) {
                0 => settings::level_step(8, limit, step),
                _ => settings::level_step(9 + random.below(4) as u16, limit, step / 4.0),
            };
            let codewords = Codewords::of(&code.matrix);
            let blocks: Vec<Vec<f32>> = (0..if large { 2 } else { 20 })
                .map(|_| noise::received(&codewords.random(&mut random), deviation, &mut random))
                .collect();
            let input = stream::input(&code.matrix, &setting, &blocks);
            compare(vec![(format!("{}, {deviation}", code.name), input)]);
        }
    }
}

#[test]
fn whole_runs() {
    compare(inputs::whole_runs(&mut Random::new(21)));
}

#[test]
fn refused_heads() {
    compare(inputs::refused_heads(&mut Random::new(22)));
}

#[test]
fn inputs_by_chance() {
    compare(inputs::by_chance(2000, &mut Random::new(23)));
}

/// Floats beside half-ways, in code blocks of one round: the levels decide the word.
#[test]
fn beside_half_ways() {
    let mut random = Random::new(24);
    let code = codes::single_row(3).copies(341);
    for _ in 0..200 {
        let setting = Setting {
            limit: 1,
            ..settings::some(&mut random)
        };
        let largest = largest_level(setting.bits);
        let gain = if setting.kind == 0 { 1 } else { largest };
        let samples: Vec<f32> = (0..1023)
            .map(|_| {
                // E is −1 or 1, so the levels 0 and ±1 are those that turn a bit.
                let k = 1 + random.below(2.min(largest as usize)) as i32;
                let half_way = f64::from(2 * k - 1) * f64::from(setting.step) / f64::from(2 * gain);
                let bits = (half_way as f32).to_bits() + random.below(5) as u32 - 2;
                let sign = (random.below(2) as u32) << 31;
                f32::from_bits(bits | sign)
            })
            .collect();
        let input = stream::input(&code.matrix, &setting, &[samples]);
        compare(vec![(format!("{setting:?}"), input)]);
    }
}

/// A source that gives a few bytes at a time.
struct Pieces<'a>(&'a [u8], usize);

impl Read for Pieces<'_> {
    fn read(&mut self, buffer: &mut [u8]) -> std::io::Result<usize> {
        let count = self.1.min(self.0.len()).min(buffer.len());
        let (piece, rest) = self.0.split_at(count);
        buffer[..count].copy_from_slice(piece);
        self.0 = rest;
        Ok(count)
    }
}

#[test]
fn input_in_pieces() {
    for (name, input) in inputs::whole_runs(&mut Random::new(25)) {
        let expected = printed::<Accumulate>(&input[..]);
        for size in [1, 7, 4096] {
            let printed = printed::<Accumulate>(Pieces(&input, size));
            assert!(printed == expected, "{name} in pieces of {size}");
        }
    }
}
