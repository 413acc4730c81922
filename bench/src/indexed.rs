//! Voting that is lent an index against the same voting without one; and what the library takes to
//! verify a lent index and to build one, against plain C and plain Rust.

use crate::{received_words, Form, LITERAL_TURNS, WORDS};
use bench::cases::cases;
use bench::index;
use ffi_face::{LentMatrix, Packed};
use generator::codes::Code;
use generator::{noise, settings, Codewords, Random};
use reference::{byte_count, index_of, Setting};
use std::ffi::c_int;
use std::hint::black_box;

// In libffi_bench.a.
extern "C" {
    fn mlgd_replay(
        n: u16,
        m: u16,
        rho: u16,
        gamma: u16,
        list: *const u16,
        list_len: usize,
        index: *const u16,
        index_len: usize,
    ) -> u64;
}

/// Whether the library's replay finds a lent index to be the matrix's own.
///
/// # Safety
/// The check has accepted the matrix.
unsafe fn replay(h: LentMatrix, index: &[u16]) -> bool {
    let own = mlgd_replay(
        h.n,
        h.m,
        h.rho,
        h.gamma,
        h.list.as_ptr(),
        h.list.len(),
        index.as_ptr(),
        index.len(),
    );
    own == 1
}

// In libplain_replay.a, which is made from bench/c/replay.c.
extern "C" {
    fn plain_replay(
        n: u16,
        m: u16,
        rho: u16,
        gamma: u16,
        list: *const u16,
        index: *const u16,
        index_len: usize,
    ) -> c_int;
}

/// The same by the plain replay in C.
///
/// # Safety
/// The check has accepted the matrix.
unsafe fn replay_in_c(h: LentMatrix, index: &[u16]) -> bool {
    let own = plain_replay(
        h.n,
        h.m,
        h.rho,
        h.gamma,
        h.list.as_ptr(),
        index.as_ptr(),
        index.len(),
    );
    own == 1
}

/// The best times of forms that take turns, each time beginning with another one.
pub fn best_times<const COUNT: usize>(turns: usize, mut forms: [Form; COUNT]) -> [f64; COUNT] {
    for turn in 0..turns {
        for at in 0..COUNT {
            forms[(at + turn) % COUNT].turn();
        }
    }
    forms.map(|form| form.best)
}

/// A form that goes through the words or blocks, one a call.
pub fn through_all<'a>(mut call: impl FnMut(usize) + 'a) -> Form<'a> {
    let mut at = 0;
    Form::new(WORDS, move || {
        at = (at + 1) % WORDS;
        call(at);
    })
}

/// The row of a call with an index and without one.
fn compare(code: &Code, call: &str, turns: usize, forms: [Form; 2]) {
    let [indexed, without] = best_times(turns, forms);
    let ratio = indexed / without;
    let name = &code.name;
    println!("| {name} | {call} | {ratio:.2} | {indexed:.2} | {without:.2} |");
}

fn measure_one_step(code: &Code, turns: usize) {
    let h = &code.matrix;
    let (own, needed) = (index_of(h), byte_count(h.n));
    let words = received_words(code, WORDS);
    let (mut word, mut other) = (vec![0; needed], vec![0; needed]);
    for received in &words {
        let mut expected = vec![0; needed];
        let answer = reference::one_step_accepted(h, received, &mut expected);
        let expected = (Packed::of_voting(answer), &expected);
        let by_indexed = ffi_face::one_step_indexed(h.into(), &own, received, &mut word);
        assert_eq!((by_indexed, &word), expected);
        let without = ffi_face::one_step(h.into(), received, &mut other);
        assert_eq!((without, &other), expected);
    }
    let indexed = through_all(|at| {
        let (h, own, received) = black_box((h, &own, &words[at]));
        black_box(ffi_face::one_step_indexed(
            h.into(),
            own,
            received,
            &mut word,
        ));
    });
    let without = through_all(|at| {
        let (h, received) = black_box((h, &words[at]));
        black_box(ffi_face::one_step(h.into(), received, &mut other));
    });
    compare(code, "one-step voting", turns, [indexed, without]);
}

/// Codewords received with noise.
pub fn received_blocks(code: &Code, deviation: f64) -> Vec<Vec<f32>> {
    let mut random = Random::new(1);
    let codewords = Codewords::of(&code.matrix);
    let block = |random: &mut Random| {
        let sent = codewords.random(random);
        noise::received(&sent, deviation, random)
    };
    (0..WORDS).map(|_| block(&mut random)).collect()
}

/// The buffers of a form from samples.
#[derive(Clone, Debug, PartialEq)]
struct Buffers {
    word: Vec<u8>,
    levels: Vec<i16>,
}

/// Both calls give the reference's answer, word and levels on each block.
fn compare_blocks(code: &Code, setting: &Setting, blocks: &[Vec<f32>], empty: &Buffers) {
    let h = &code.matrix;
    let own = index_of(h);
    for samples in blocks {
        let mut to = [empty.clone(), empty.clone(), empty.clone()];
        let [expected, indexed, without] = &mut to;
        let (word, levels) = (&mut expected.word, &mut expected.levels);
        let answer = reference::iterative_accepted(h, setting, samples, word, levels);
        let (word, levels) = (&mut indexed.word, &mut indexed.levels);
        let by_indexed =
            ffi_face::iterative_indexed(h.into(), &own, setting, samples, word, levels);
        let (word, levels) = (&mut without.word, &mut without.levels);
        let by_without = ffi_face::iterative(h.into(), setting, samples, word, levels);
        assert_eq!([by_indexed, by_without], [Packed::of_voting(answer); 2]);
        assert_eq!([&to[1], &to[2]], [&to[0]; 2]);
    }
}

fn measure_iterative(code: &Code, step: f32, deviation: f64, turns: usize) {
    let h = &code.matrix;
    let own = index_of(h);
    let setting = settings::level_step(8, 30, step);
    let blocks = received_blocks(code, deviation);
    let mut to = Buffers {
        word: vec![0; byte_count(h.n)],
        levels: vec![0; usize::from(h.n)],
    };
    let mut other = to.clone();
    compare_blocks(code, &setting, &blocks, &to);
    let indexed = through_all(|at| {
        let (h, own, samples) = black_box((h, &own, &blocks[at]));
        let (word, levels) = (&mut to.word, &mut to.levels);
        let h = h.into();
        black_box(ffi_face::iterative_indexed(
            h, own, &setting, samples, word, levels,
        ));
    });
    let without = through_all(|at| {
        let (h, samples) = black_box((h, &blocks[at]));
        let (word, levels) = (&mut other.word, &mut other.levels);
        black_box(ffi_face::iterative(
            h.into(),
            &setting,
            samples,
            word,
            levels,
        ));
    });
    compare(code, "iterative voting", turns, [indexed, without]);
}

/// The verifying of a lent index: the library's replay, the plain one in C, one in plain Rust without a
/// branch and the plain one in Rust, each by itself.
fn verifying(code: &Code, own: &[u16], turns: usize) -> [f64; 4] {
    let h = &code.matrix;
    assert_eq!(ffi_face::check(h.into()), Packed(0));
    // SAFETY: the check has accepted the matrix.
    let library = || unsafe { replay(black_box(h).into(), black_box(own)) };
    // SAFETY: the same.
    let in_c = || unsafe { replay_in_c(black_box(h).into(), black_box(own)) };
    // SAFETY: the same.
    let branchless = || unsafe { index::is_own(black_box(h), black_box(own)) };
    // SAFETY: the same.
    let plain = || unsafe { index::is_own_plain(black_box(h), black_box(own)) };
    assert!(library() && in_c(), "{}", code.name);
    assert!(branchless() && plain(), "{}", code.name);
    let library = Form::new(1, || {
        black_box(library());
    });
    let in_c = Form::new(1, || {
        black_box(in_c());
    });
    let branchless = Form::new(1, || {
        black_box(branchless());
    });
    let plain = Form::new(1, || {
        black_box(plain());
    });
    best_times(turns, [library, in_c, branchless, plain])
}

/// The building: the library's call less the matrix check, which it begins with, and plain Rust.
fn building(code: &Code, own: &[u16], turns: usize) -> [f64; 2] {
    let h = &code.matrix;
    let (mut to, mut other) = (vec![0; own.len()], vec![0; own.len()]);
    assert_eq!(ffi_face::index(h.into(), &mut to), Packed(0));
    // SAFETY: the check has accepted the matrix, and the buffer has the index's length.
    unsafe { index::build(h, &mut other) };
    assert!(to == own && other == own, "{}", code.name);
    let with = Form::new(1, || {
        black_box(ffi_face::index(black_box(h).into(), &mut to));
    });
    let without = Form::new(1, || {
        black_box(ffi_face::check(black_box(h).into()));
    });
    let rust = Form::new(1, || {
        // SAFETY: as above.
        unsafe { index::build(black_box(h), black_box(&mut other)) };
    });
    let [with, without, rust] = best_times(turns, [with, without, rust]);
    [with - without, rust]
}

fn measure_parts(code: &Code, turns: usize) {
    let own = index_of(&code.matrix);
    let [verifying, in_c, branchless, plain] = verifying(code, &own, turns);
    let [building, rust] = building(code, &own, turns);
    let literal = Form::new(1, || {
        assert!(index_of(black_box(&code.matrix)) == own);
    });
    let [literal] = best_times(LITERAL_TURNS, [literal]);
    println!(
        "| {} | {:.2} | {:.2} | {:.2} | {:.2} | {:.0} | {verifying:.2} | {in_c:.2} | {branchless:.2} | {plain:.2} | {building:.2} | {rust:.2} | {literal:.1} |",
        code.name,
        verifying / in_c,
        verifying / branchless,
        verifying / plain,
        building / rust,
        literal / branchless,
    );
}

pub fn measure(turns: usize) {
    println!();
    println!(
        "Voting that is lent the matrix's own index, and the same without one, CPU time of a whole \
         call with its matrix check, on {WORDS} words or blocks (width 8, limit 30, about five \
         rounds). The two take turns, and the best of {turns} turns of each counts."
    );
    println!();
    println!("| code | call | indexed / without | indexed µs | without µs |");
    println!("|---|---|---|---|---|");
    for (code, step, deviation) in cases() {
        measure_one_step(&code, turns);
        measure_iterative(&code, step, deviation, turns);
    }
    println!();
    println!(
        "The parts alone. Verifying: the library's replay of the own index on an accepted matrix, by \
         itself; the weights of the columns, which it finds on its way, are in it. Building: the call \
         less the matrix check. C replay: bench/c/replay.c, compiled by the C compiler `cc -O2`: a cursor \
         for each column and the rows walked once, each number compared by a branch that ends the replay \
         at the first difference; it does not look at the columns' weights, as the library's replay does. \
         In plain Rust, no bounds checks and no weights either: the same walk, each number compared (the \
         replay) or written. Branchless replay: no branch within a row, the differences ORed and looked at \
         after it. Plain replay: with the branch, as C has it. The forms of each part take turns, the four \
         replays on the same matrix and index, and the best of {turns} turns of each counts; a turn is the \
         mean of as many calls as take a millisecond. Of unlike columns (Irregular1000) the forms in C \
         and Rust count the weights first, as the starting places are their sums; the library's replay \
         takes the lent ones and sees at the end whether they were right. Literal: all rows searched for each \
         column and the lists compared, the best of {LITERAL_TURNS}."
    );
    println!();
    println!("| code | verifying / C replay | verifying / branchless replay | verifying / plain replay | building / Rust | literal / branchless replay | verifying µs | C replay µs | branchless replay µs | plain replay µs | building µs | Rust µs | literal µs |");
    println!("|---|---|---|---|---|---|---|---|---|---|---|---|---|");
    for (code, _, _) in cases() {
        measure_parts(&code, turns);
    }
}
