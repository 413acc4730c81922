//! Document 01's worked cases on the library, with the numbers as the document prints them.

use differential::{random, Subject};
use ffi_face::Packed;
use generator::codes;
use reference::Matrix;

/// One-step voting gives this answer and this word.
fn votes(h: &Matrix, received: &[u8], answer: Packed, word: &[u8]) {
    let mut random = random(100);
    let subject = Subject::new(h, &mut random);
    let voted = subject.word(received, &mut random);
    assert_eq!(voted, (answer, word.to_vec()));
}

#[test]
fn p1_to_p3_code_a() {
    let a = codes::code_a().matrix;
    let rows = [
        [0, 1, 3],
        [1, 2, 4],
        [2, 3, 5],
        [3, 4, 6],
        [0, 4, 5],
        [1, 5, 6],
        [0, 2, 6],
    ];
    assert_eq!(a.list, rows.concat());
    votes(&a, &[0x2E], Packed::new(0, 0, 0, 0), &[0x2E]);
    votes(&a, &[0xAE], Packed::new(0, 1, 0, 1), &[0x2E]);
    votes(&a, &[0xC0], Packed::new(0, 1, 0, 6), &[0x2E]);
    let mut random = random(101);
    let failing = Subject::new(&a, &mut random).failing(&[0xAE], &mut random);
    assert_eq!(failing, Packed::new(0, 0, 3, 0));
}

#[test]
fn p4_and_p5_code_b() {
    let b = codes::code_b().matrix;
    votes(&b, &[0x08, 0x00], Packed::new(0, 1, 0, 1), &[0x00, 0x00]);
    votes(&b, &[0x88, 0x00], Packed::new(1, 1, 4, 4), &[0x50, 0x00]);
}

#[test]
fn p9_and_p10() {
    let mut random = random(102);
    let p9 = Matrix {
        n: 2,
        m: 2,
        rho: 2,
        gamma: 2,
        list: vec![0, 1, 0, 1],
    };
    let p9 = Subject::new(&p9, &mut random).check();
    assert_eq!(p9, Packed::new(5 * 65536, 0, 0, 0));
    let p10 = Subject::new(&codes::triangle().matrix, &mut random).check();
    assert_eq!(p10, Packed::new(0, 0, 0, 0));
}
