//! The library's times as ratios to a hand-optimised form in Rust, and the literal form's.
//!
//! CPU time of one call, the forms taking turns in the same run, the best of many turns: 300, or as
//! many as the argument says, and a fifth of that for the programs, whose times are in the last five
//! tables. Above each table stands what was done. `bench sizes` has the last two tables alone, and
//! their picture.

mod changed;
mod face;
mod indexed;
mod programs;
mod sheets;
mod sizes;

use bench::cases::cases;
use bench::clock::cpu_microseconds;
use bench::optimised;
use ffi_face::{LentMatrix, Packed};
use generator::codes::Code;
use generator::{patterns, Codewords, Random};
use reference::{byte_count, pack};
use std::hint::black_box;

// In an archive of its own, libffi_bench.a, which no user links.
extern "C" {
    fn mlgd_one_step_accepted(
        n: u16,
        m: u16,
        rho: u16,
        gamma: u16,
        list: *const u16,
        list_len: usize,
        received: *const u8,
        received_len: usize,
        word: *mut u8,
        word_len: usize,
    ) -> u64;
}

/// The library's one-step voting without its check of the matrix.
///
/// # Safety
/// The check has accepted the matrix.
unsafe fn one_step_accepted(h: LentMatrix, received: &[u8], word: &mut [u8]) -> Packed {
    Packed(mlgd_one_step_accepted(
        h.n,
        h.m,
        h.rho,
        h.gamma,
        h.list.as_ptr(),
        h.list.len(),
        received.as_ptr(),
        received.len(),
        word.as_mut_ptr(),
        word.len(),
    ))
}

/// A form under measurement: what one call does, and its best time so far in microseconds.
struct Form<'a> {
    call: Box<dyn FnMut() + 'a>,
    calls_in_a_turn: usize,
    best: f64,
}

impl<'a> Form<'a> {
    /// A turn has `unit` calls or a multiple of them, and takes a millisecond or more.
    fn new(unit: usize, call: impl FnMut() + 'a) -> Form<'a> {
        let mut form = Form {
            call: Box::new(call),
            calls_in_a_turn: unit,
            best: f64::INFINITY,
        };
        form.turn();
        form.turn();
        let units = 1000.0 / (form.best * unit as f64);
        form.calls_in_a_turn = unit * units.ceil().max(1.0) as usize;
        form.best = f64::INFINITY;
        form
    }

    fn turn(&mut self) {
        let start = cpu_microseconds();
        for _ in 0..self.calls_in_a_turn {
            (self.call)();
        }
        let time = (cpu_microseconds() - start) / self.calls_in_a_turn as f64;
        self.best = self.best.min(time);
    }
}

/// The literal form is slow, and this many turns of it are enough.
const LITERAL_TURNS: usize = 5;

fn take_turns(turns: usize, library: &mut Form, optimised: &mut Form, literal: &mut Form) {
    for turn in 0..turns {
        if turn % 2 == 0 {
            library.turn();
            optimised.turn();
        } else {
            optimised.turn();
            library.turn();
        }
        if turn % turns.div_ceil(LITERAL_TURNS) == 0 {
            literal.turn();
        }
    }
}

fn print_row(code: &Code, part: &str, library: &Form, optimised: &Form, literal: &Form) {
    println!(
        "| {} | {part} | {:.2} | {:.1} | {:.2} | {:.2} | {:.1} |",
        code.name,
        library.best / optimised.best,
        literal.best / optimised.best,
        library.best,
        optimised.best,
        literal.best,
    );
}

fn measure_check(code: &Code, turns: usize) {
    let h = &code.matrix;
    let expected = reference::check(h);
    assert_eq!(ffi_face::check(h.into()), Packed::of_check(expected));
    assert_eq!(optimised::check(h), expected);

    let mut library = Form::new(1, || {
        black_box(ffi_face::check(black_box(h).into()));
    });
    let mut optimised = Form::new(1, || {
        black_box(optimised::check(black_box(h))).unwrap();
    });
    let mut literal = Form::new(1, || {
        black_box(reference::check(black_box(h))).unwrap();
    });
    take_turns(turns, &mut library, &mut optimised, &mut literal);
    print_row(code, "matrix check", &library, &optimised, &literal);
}

/// Codewords with gamma / 2 bits flipped, packed.
fn received_words(code: &Code, count: usize) -> Vec<Vec<u8>> {
    let mut random = Random::new(1);
    let codewords = Codewords::of(&code.matrix);
    let (n, half) = (code.matrix.n, code.matrix.gamma / 2);
    (0..count)
        .map(|_| {
            let sent = codewords.random(&mut random);
            let pattern = random.different(usize::from(half), usize::from(n));
            pack(&patterns::flipped(&sent, &pattern))
        })
        .collect()
}

/// Received words that one-step voting is measured on.
const WORDS: usize = 16;

fn measure_one_step(code: &Code, turns: usize) {
    let h = &code.matrix;
    let words = received_words(code, WORDS);
    let needed = byte_count(h.n);
    for received in &words {
        let mut expected = vec![0; needed];
        let answer = reference::one_step_accepted(h, received, &mut expected);
        let mut word = vec![0; needed];
        // SAFETY: the generated codes are accepted; `measure_check` has asserted it.
        let by_library = unsafe { one_step_accepted(h.into(), received, &mut word) };
        assert_eq!((by_library, &word), (Packed::of_voting(answer), &expected));
        word.fill(0);
        // SAFETY: the same.
        let by_optimised = unsafe { optimised::one_step_accepted(h, received, &mut word) };
        assert_eq!((by_optimised, &word), (answer, &expected));
    }

    let next = |at: &mut usize| {
        *at = (*at + 1) % WORDS;
        black_box(&words[*at][..])
    };
    let mut at = [0; 3];
    let [at_library, at_optimised, at_literal] = &mut at;
    let mut word = vec![vec![0; needed]; 3];
    let [to_library, to_optimised, to_literal] = &mut word[..] else {
        unreachable!()
    };
    let mut library = Form::new(WORDS, || {
        let received = next(at_library);
        // SAFETY: as above.
        black_box(unsafe { one_step_accepted(black_box(h).into(), received, to_library) });
    });
    let mut optimised = Form::new(WORDS, || {
        let received = next(at_optimised);
        // SAFETY: as above.
        black_box(unsafe { optimised::one_step_accepted(black_box(h), received, to_optimised) })
            .unwrap();
    });
    let mut literal = Form::new(1, || {
        let received = next(at_literal);
        black_box(reference::one_step_accepted(
            black_box(h),
            received,
            to_literal,
        ))
        .unwrap();
    });
    take_turns(turns, &mut library, &mut optimised, &mut literal);
    print_row(code, "one-step voting", &library, &optimised, &literal);
}

/// A program's run takes longer than a turn of the library: so many times fewer of them.
const PROGRAM_SHARE: usize = 5;

fn main() {
    let mut arguments = std::env::args().skip(1).peekable();
    let sizes_alone = arguments.next_if_eq("sizes").is_some();
    let turns: usize = arguments.next().map_or(300, |turns| {
        turns.parse().expect("the number of turns is a number")
    });
    let program_turns = turns.div_ceil(PROGRAM_SHARE);
    if sizes_alone {
        sizes::measure(program_turns, Some("docs/cost.svg"));
        return;
    }
    println!(
        "Matrix check and one-step voting, CPU time of a call. Library and optimised form take turns, \
         and the best of {turns} turns of each counts; a turn is the mean of one call (one-step \
         voting: of {WORDS}, on as many words), or of as many times that as take a millisecond. \
         Literal form: the best of {LITERAL_TURNS} turns, of one call or of a millisecond. \
         Irregular1000 is a (1000, 501) code of unlike columns: 500 rows of weight 12, columns of \
         weight 4 (600), 8 (200) and 10 (200)."
    );
    println!();
    println!("| code | part | library / optimised | literal / optimised | library µs | optimised µs | literal µs |");
    println!("|---|---|---|---|---|---|---|");
    for (code, _, _) in cases() {
        measure_check(&code, turns);
        measure_one_step(&code, turns);
    }
    indexed::measure(turns);
    face::measure(turns);
    changed::measure(turns);
    sheets::measure(turns);
    programs::measure(program_turns);
    programs::measure_widths(program_turns);
    println!();
    sizes::measure(program_turns, None);
}
