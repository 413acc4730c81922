//! The program on no block, on 200 and on 4,000, against hand-optimised ones in Rust, a plain one each
//! in C and in Rust and the literal one; and with levels of 12 bits against levels of 8.
//!
//! CPU time of the child, user's and system's, with its start; the programs take turns, and the
//! best of many runs counts. DECODE names another program than build/bin/decode, from the
//! workspace's root on.

use bench::cases::{cases, input, Case};
use bench::clock::children_microseconds;
use generator::codes::Code;
use std::fs::{self, File};
use std::io::Write;
use std::path::{Path, PathBuf};
use std::process::{Command, Stdio};

/// How many of the blocks a row of the table is about.
const BLOCKS: [usize; 3] = [0, 200, MOST];
const MOST: usize = 4000;
/// The literal form is slow: its time is taken on fewer blocks, the first ones.
const LITERAL_BLOCKS: usize = 5;
const LITERAL_RUNS: usize = 8;

/// A file that is removed at the end.
pub struct Stored(PathBuf);

impl Stored {
    pub fn new(name: &str, contents: &[u8]) -> Stored {
        let name = format!("bench-{}-{name}", std::process::id());
        let path = std::env::temp_dir().join(name);
        fs::write(&path, contents).expect("the folder for temporary files");
        Stored(path)
    }

    /// A head, then the blocks again and again up to so many bytes of them: in pieces, as all of
    /// them may be hundreds of megabytes.
    pub fn repeated(name: &str, head: &[u8], blocks: &[u8], bytes: usize) -> Stored {
        let stored = Stored::new(name, head);
        let file = File::options().append(true).open(&stored.0);
        let mut file = file.expect("the stored input");
        let mut left = bytes;
        while left > 0 {
            let piece = &blocks[..left.min(blocks.len())];
            file.write_all(piece).expect("room for temporary files");
            left -= piece.len();
        }
        stored
    }
}

impl Drop for Stored {
    fn drop(&mut self) {
        fs::remove_file(&self.0).ok();
    }
}

fn command(program: &Path, input: &Stored) -> Command {
    let mut command = Command::new(program);
    command.stdin(File::open(&input.0).expect("the stored input"));
    command
}

pub fn printed(program: &Path, input: &Stored) -> String {
    let output = command(program, input).output();
    let output = output.unwrap_or_else(|error| panic!("{}: {error}", program.display()));
    String::from_utf8(output.stdout).expect("text")
}

/// The child's CPU time in milliseconds.
fn time(program: &Path, input: &Stored) -> f64 {
    let start = children_microseconds();
    command(program, input)
        .stdout(Stdio::null())
        .status()
        .expect("the program runs");
    (children_microseconds() - start) / 1e3
}

/// Short runs are measured more often and long ones less: the start of a process varies by as much
/// as a short run takes. A run of the program of so many milliseconds has the number of turns
/// that was asked for.
const USUAL: f64 = 16.0;

/// A program and its input.
type Run<'a> = (&'a Path, &'a Stored);

/// The best times of programs on their inputs, taking turns, and how often each was run.
pub fn best_times<const COUNT: usize>(turns: usize, all: [Run; COUNT]) -> ([f64; COUNT], usize) {
    let mut best = [f64::INFINITY; COUNT];
    let more = (USUAL / time(all[0].0, all[0].1)).max(0.25);
    let runs = (turns as f64 * more).ceil() as usize;
    for run in 0..runs {
        for at in 0..COUNT {
            let at = (at + run) % COUNT;
            let (program, input) = all[at];
            best[at] = best[at].min(time(program, input));
        }
    }
    (best, runs)
}

/// The best times of the literal program on no block and on a few, taking turns.
fn literal_times(program: &Path, inputs: [&Stored; 2]) -> [f64; 2] {
    let mut best = [f64::INFINITY; 2];
    for _ in 0..LITERAL_RUNS {
        for (best, input) in best.iter_mut().zip(inputs) {
            *best = best.min(time(program, input));
        }
    }
    best
}

/// The mean of the third field, the rounds, of the first blocks.
pub fn mean_rounds(printed: &str, blocks: usize) -> f64 {
    let rounds = printed.lines().skip(1).take(blocks).map(|line| {
        let field = line.split(' ').nth(2).expect("a block's line");
        field.parse::<f64>().expect("rounds")
    });
    rounds.sum::<f64>() / blocks as f64
}

/// The programs in Rust and in C stand beside this one.
pub fn beside(name: &str) -> PathBuf {
    let here = std::env::current_exe().expect("the path of this program");
    let path = here.with_file_name(name);
    assert!(path.exists(), "{name} is missing: `make bench` builds it");
    path
}

/// The workspace's root.
pub fn root() -> PathBuf {
    Path::new(env!("CARGO_MANIFEST_DIR")).join("..")
}

pub fn decode() -> PathBuf {
    let named = std::env::var_os("DECODE").unwrap_or("build/bin/decode".into());
    let path = root().join(&named);
    assert!(
        path.exists(),
        "the program {} is missing: build it, or name it by DECODE",
        named.display()
    );
    path
}

/// The forms that the program is measured against: heads of columns, and programs.
const FORMS: [(&str, &str); 5] = [
    ("C accumulate", "bench_accumulate_c"),
    ("accumulate", "bench_decode"),
    ("incremental, plain", "bench_incremental_plain"),
    ("incremental, bytes", "bench_incremental"),
    ("incremental, bits", "bench_incremental_bits"),
];

/// The numbers of the forms as cells of a table, with two decimals.
fn cells(numbers: &[f64]) -> String {
    let cells: Vec<String> = numbers.iter().map(|n| format!("{n:.2}")).collect();
    cells.join(" | ")
}

fn print_heads(turns: usize) {
    println!();
    println!(
        "Programs, each run a process of its own, CPU time with its start. The program, the two plain \
         forms (C accumulate, of bench/c/accumulate.c by cc -O3; incremental, plain, in safe Rust) and \
         the three hand-optimised ones (accumulate; incremental, with a byte or with a bit a parity) \
         take turns, and the best counts of as many runs of each as the column `runs` says: {turns} \
         where a run of the program takes {USUAL} ms, more where it is shorter, fewer where it is \
         longer, and a fourth of {turns} at least. The form in C looks at lengths alone and has no \
         matrix check. Literal form: no block, the best of {LITERAL_RUNS} runs; 200 and 4,000 blocks \
         NOT measured but extrapolated, from the best of {LITERAL_RUNS} runs on the first \
         {LITERAL_BLOCKS} blocks, whose rounds the last column has."
    );
    println!();
    println!(
        "| code | blocks | rounds | runs | program / {} | literal / accumulate | program ms | accumulate ms | incremental, bytes ms | incremental, bits ms | literal ms (from {LITERAL_BLOCKS} blocks) | rounds of these |",
        FORMS.map(|(head, _)| head).join(" | program / "),
    );
    println!("|{}", "---|".repeat(16));
}

/// The rows of a code; gives the times on the most blocks, the program's first.
fn measure_code(
    (code, step, deviation): Case,
    forms: &[PathBuf; 6],
    literal: &Path,
    turns: usize,
) -> [f64; 6] {
    let whole = input(&code, 8, step, deviation, MOST);
    let block = 4 * usize::from(code.matrix.n);
    let stored = |count: usize| {
        let name = format!("{}-{count}", code.name);
        Stored::new(&name, &whole[..whole.len() - (MOST - count) * block])
    };

    let all = stored(MOST);
    let [_, _, accumulate, ..] = forms;
    let expected = printed(accumulate, &all);
    for form in forms {
        assert!(printed(form, &all) == expected, "{}", form.display());
    }
    let few = stored(LITERAL_BLOCKS);
    assert!(expected.starts_with(&printed(literal, &few)));

    let [literal_none, literal_few] = literal_times(literal, [&stored(0), &few]);
    let for_each = (literal_few - literal_none) / LITERAL_BLOCKS as f64;
    let few_rounds = mean_rounds(&expected, LITERAL_BLOCKS);
    let times = BLOCKS.map(|blocks| {
        let lent = stored(blocks);
        let (best, runs) = best_times(turns, forms.each_ref().map(|form| (form.as_path(), &lent)));
        let [by_program, others @ ..] = best;
        let [_, by_accumulate, _, by_bytes, by_bits] = others;
        let by_literal = literal_none + for_each * blocks as f64;
        let rounds = match blocks {
            0 => "none".to_string(),
            _ => format!("{:.1}", mean_rounds(&expected, blocks)),
        };
        println!(
            "| {} | {blocks} | {rounds} | {runs} | {} | {:.1} | {} | {by_literal:.1} | {few_rounds:.1} |",
            code.name,
            cells(&others.map(|other| by_program / other)),
            by_literal / by_accumulate,
            cells(&[by_program, by_accumulate, by_bytes, by_bits]),
        );
        best
    });
    times[BLOCKS.len() - 1]
}

pub fn measure(turns: usize) {
    let [c, accumulate, plain, bytes, bits] = FORMS.map(|(_, name)| beside(name));
    let forms = [decode(), c, accumulate, plain, bytes, bits];
    let literal = beside("bench_literal");
    print_heads(turns);
    let all = cases().map(|case| {
        let name = case.0.name.clone();
        (name, measure_code(case, &forms, &literal, turns))
    });
    println!();
    println!(
        "The same on {MOST} blocks the other way round: how many times as fast as each form the \
         program is."
    );
    println!();
    println!("| code | {} |", FORMS.map(|(head, _)| head).join(" | "));
    println!("|{}", "---|".repeat(6));
    for (name, [by_program, others @ ..]) in all {
        println!(
            "| {name} | {} |",
            cells(&others.map(|other| other / by_program))
        );
    }
}

/// How many blocks both widths are measured on.
const WIDTH_BLOCKS: usize = 1000;

/// The rows of a code: b = 12 against b = 8, with the same step and with one that is 16 times as fine.
fn measure_widths_of(code: &Code, step: f32, deviation: f64, programs: [&Path; 2], turns: usize) {
    let stored = |bits: u16, step: f32| {
        let name = format!("{}-{bits}-{step}", code.name);
        Stored::new(&name, &input(code, bits, step, deviation, WIDTH_BLOCKS))
    };
    let [program, accumulate] = programs;
    let coarse = stored(8, step);
    for (name, step) in [("the same", step), ("a 16th", step / 16.0)] {
        let fine = stored(12, step);
        let rounds = [&coarse, &fine].map(|lent| {
            let lines = printed(program, lent);
            assert!(printed(accumulate, lent) == lines, "{}", program.display());
            mean_rounds(&lines, WIDTH_BLOCKS)
        });
        let all = [(program, &coarse), (program, &fine), (accumulate, &fine)];
        let ([by_8, by_12, by_accumulate], runs) = best_times(turns, all);
        println!(
            "| {} | {name} | {:.1} | {:.1} | {runs} | {:.3} | {:.2} | {by_8:.2} | {by_12:.2} | {by_accumulate:.2} |",
            code.name,
            rounds[0],
            rounds[1],
            by_12 / by_8,
            by_12 / by_accumulate,
        );
    }
}

pub fn measure_widths(turns: usize) {
    let (program, accumulate) = (decode(), beside("bench_decode"));
    println!();
    println!(
        "Finer levels: the program with levels of 12 bits and with levels of 8, on the same \
         {WIDTH_BLOCKS} blocks, limit 30. With the same step the levels are the same numbers, but for \
         those that 8 bits cut at ±127: that is the same work, and the goal is a ratio of at most 1.05. \
         With a 16th of the step a sample has the same share of the largest level; a round moves a level \
         by as much as before, so that more rounds are done, and most blocks end at the limit. The \
         accumulate form at 12 bits has levels of two bytes as well. All take turns, and the best counts \
         of as many runs as the column `runs` says."
    );
    println!();
    println!("| code | step at 12 bits | rounds at 8 bits | rounds at 12 bits | runs | 12 bits / 8 bits | program / accumulate, 12 bits | program, 8 bits ms | program, 12 bits ms | accumulate, 12 bits ms |");
    println!("|---|---|---|---|---|---|---|---|---|---|");
    for (code, step, deviation) in cases() {
        measure_widths_of(&code, step, deviation, [&program, &accumulate], turns);
    }
}
