//! The count of changed bits: the library's, sixty-four places at a time, and loops in Rust that go byte
//! by byte.

use crate::indexed::best_times;
use crate::{Form, WORDS};
use bench::distance;
use ffi_face::Packed;
use generator::Random;
use std::hint::black_box;

/// The bytes of words of 7, 64, 155, 512, 961, 1,000 and 1,023 bits.
const LENGTHS: [usize; 7] = [1, 8, 20, 64, 121, 125, 128];

/// Two runs of bytes.
type Pair = (Vec<u8>, Vec<u8>);

/// A form that counts each of the pairs in one call, so that calling the form is not what is measured.
fn of_all<'a, T>(pairs: &'a [Pair], count: impl Fn(&[u8], &[u8]) -> T + 'a) -> Form<'a> {
    Form::new(1, move || {
        for (a, b) in pairs {
            black_box(count(black_box(a), black_box(b)));
        }
    })
}

/// All forms count what the reference does.
fn compare(pairs: &[Pair]) {
    for (a, b) in pairs {
        let answer = reference::changed(a, b);
        assert_eq!(ffi_face::changed(a, b), Packed::of_changed(answer));
        let counts = [
            distance::bytes_64(a, b),
            distance::bytes_32(a, b).into(),
            distance::bytes_16(a, b).into(),
            distance::words(a, b),
        ];
        assert_eq!(counts, [answer.unwrap() as u64; 4]);
    }
}

fn measure_length(long: usize, turns: usize) {
    let mut random = Random::new(1);
    let pairs: Vec<Pair> = (0..WORDS)
        .map(|_| (random.bytes(long), random.bytes(long)))
        .collect();
    compare(&pairs);
    let forms = [
        of_all(&pairs, ffi_face::changed),
        of_all(&pairs, distance::bytes_64),
        of_all(&pairs, distance::bytes_32),
        of_all(&pairs, distance::bytes_16),
        of_all(&pairs, distance::words),
    ];
    let times = best_times(turns, forms).map(|best| best * 1e3 / WORDS as f64);
    let [library, others @ ..] = times;
    let ratios = others.map(|other| format!("{:.2}", other / library));
    let times = times.map(|time| format!("{time:.1}"));
    let (ratios, times) = (ratios.join(" | "), times.join(" | "));
    println!("| {long} | {ratios} | {times} |");
}

pub fn measure(turns: usize) {
    println!();
    println!(
        "The count of changed bits (`mlgd_changed`, by words of eight bytes), CPU time of a call: how many \
         times as fast as other counts it is. Byte by byte: a loop in Rust, without bounds checks, with \
         a sum of 64 bits, as the library's loop over words has, of 32 bits, and of 16 bits, as the \
         library's loop over bytes had before. The compiler makes each of them take several bytes at a time in vector registers, the more \
         the narrower the sum is. Words: in Rust, by words of eight bytes too. {WORDS} pairs of runs of \
         random bytes one after the other, the forms taking turns, and the best of {turns} turns of each \
         counts, a turn being the mean of as many calls as take a millisecond."
    );
    println!();
    println!("| bytes | sum of 64 bits / library | sum of 32 bits / library | sum of 16 bits / library | words / library | library ns | 64 bits ns | 32 bits ns | 16 bits ns | words ns |");
    println!("|---|---|---|---|---|---|---|---|---|---|");
    for long in LENGTHS {
        measure_length(long, turns);
    }
}
