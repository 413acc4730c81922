//! All words of small codes.

use differential::{random, Subject};
use generator::codes::{self, Code};
use reference::{byte_count, pack};

/// All words of n bits, counted, voted on, and written to buffers of each kind.
fn all_words(code: &Code) {
    let mut random = random(200);
    let subject = Subject::new(&code.matrix, &mut random);
    let n = u32::from(code.matrix.n);
    for number in 0..1_u32 << n {
        let word: Vec<bool> = (0..n).map(|j| number >> (n - 1 - j) & 1 == 1).collect();
        subject.word(&pack(&word), &mut random);
    }
}

/// All contents of a received word's bytes, spare places set or not.
fn all_bytes(code: &Code) {
    let mut random = random(201);
    let subject = Subject::new(&code.matrix, &mut random);
    let count = byte_count(code.matrix.n);
    for number in 0..1_u32 << (8 * count) {
        let received = &number.to_be_bytes()[4 - count..];
        subject.failing(received, &mut random);
        subject.one_step(received, count + random.below(3), &mut random);
    }
}

#[test]
fn code_a_all_128_words() {
    all_words(&codes::code_a());
}

#[test]
fn code_b_all_512_words() {
    all_words(&codes::code_b());
}

#[test]
fn every_code_of_at_most_10_bits() {
    for code in codes::small() {
        if code.matrix.n <= 10 {
            all_words(&code);
        }
    }
}

#[test]
fn every_byte_and_every_two_bytes() {
    all_bytes(&codes::code_a());
    all_bytes(&codes::single_row(8));
    all_bytes(&codes::code_b());
}
