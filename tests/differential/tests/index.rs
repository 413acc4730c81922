//! Building the index of a matrix: its numbers, the buffer's length, and refused matrices.

use differential::causes::{matrix_with, subset, PLACES};
use differential::{cases, random, Indexed};
use ffi_face::Packed;
use generator::codes::{self, Code};
use generator::{damage, Random};
use reference::Matrix;

const BUILT: Packed = Packed(0);

fn refused(number: u64, place: u64) -> Packed {
    Packed::new(number * 65536 + place, 0, 0, 0)
}

/// Builds into a buffer of exactly the index's numbers, one that is longer, one that is a number
/// short, and none.
fn each_room(code: &Code, random: &mut Random) {
    let indexed = Indexed::new(&code.matrix, random);
    let needed = usize::from(code.matrix.n) + 1 + code.matrix.list.len();
    let (answer, built) = indexed.build(needed, random);
    assert_eq!(answer, BUILT, "{}", code.name);
    assert!(built == indexed.own(), "{}", code.name);
    for room in [needed + 1, needed + 2 + random.below(12), 2 * needed] {
        let (answer, built) = indexed.build(room, random);
        assert_eq!(answer, BUILT, "{}", code.name);
        assert!(built[..needed] == *indexed.own(), "{}", code.name);
    }
    for room in [needed - 1, random.below(needed), code.matrix.n.into(), 0] {
        let (answer, _) = indexed.build(room, random);
        assert_eq!(answer, refused(10, 0), "{}", code.name);
    }
}

/// The numbers of codes A and B, by hand.
#[test]
fn code_a_and_code_b() {
    let mut random = random(1600);
    let a = Indexed::new(&codes::code_a().matrix, &mut random);
    let starts = [0, 3, 6, 9, 12, 15, 18, 21];
    let rows = [
        0, 4, 6, 0, 1, 5, 1, 2, 6, 0, 2, 3, 1, 3, 4, 2, 4, 5, 3, 5, 6,
    ];
    let expected = [&starts[..], &rows[..]].concat();
    assert_eq!(a.build(29, &mut random), (BUILT, expected));

    let b = Indexed::new(&codes::code_b().matrix, &mut random);
    let starts = [0, 2, 4, 6, 8, 10, 12, 14, 16, 18];
    let rows = [0, 3, 0, 4, 0, 5, 1, 3, 1, 4, 1, 5, 2, 3, 2, 4, 2, 5];
    let expected = [&starts[..], &rows[..]].concat();
    assert_eq!(b.build(28, &mut random), (BUILT, expected));
}

#[test]
fn small_codes() {
    let mut random = random(1601);
    for code in codes::small() {
        each_room(&code, &mut random);
        for _ in 0..cases(4) {
            each_room(&code.shuffled(&mut random), &mut random);
        }
    }
}

#[test]
fn medium_codes() {
    let mut random = random(1602);
    for code in codes::medium() {
        each_room(&code, &mut random);
        for _ in 0..cases(1) {
            each_room(&code.shuffled(&mut random), &mut random);
        }
    }
}

#[test]
fn large_codes() {
    let mut random = random(1603);
    for code in codes::large() {
        each_room(&code, &mut random);
    }
    for code in [codes::eg1023(), codes::cycle(1023)] {
        each_room(&code.shuffled(&mut random), &mut random);
    }
}

#[test]
fn buffers_of_every_length() {
    let mut random = random(1604);
    for code in codes::small() {
        let indexed = Indexed::new(&code.matrix, &mut random);
        let needed = indexed.own().len();
        for room in 0..needed + 10 {
            let (answer, _) = indexed.build(room, &mut random);
            assert_eq!(answer == BUILT, room >= needed, "{}", code.name);
            assert!(answer == BUILT || answer == refused(10, 0));
        }
    }
}

/// Buffers whose length is too short when only its low 16 bits are kept.
#[test]
fn buffers_beyond_16_bits() {
    let mut random = random(1605);
    for code in [codes::triangle(), codes::code_a(), codes::eg1023()] {
        let indexed = Indexed::new(&code.matrix, &mut random);
        let needed = indexed.own().len();
        for room in [65_535, 65_536, 65_537, 65_536 + needed - 1, 131_072] {
            let (answer, _) = indexed.build(room, &mut random);
            assert_eq!(answer, BUILT, "{} into {room}", code.name);
        }
    }
}

/// A refused matrix and any buffer: the matrix's number and place, and nothing is written.
#[test]
fn refused_matrices() {
    let mut random = random(1606);
    for number in 1..32 {
        let present: [bool; 5] = subset(number);
        let indexed = Indexed::new(&matrix_with(present), &mut random);
        let lowest = present.iter().position(|&cause| cause).expect("a cause");
        let expected = refused(lowest as u64 + 1, PLACES[lowest]);
        // The accepted matrix of these sizes needs 61 cells.
        for room in [0, 1, 20, 21, 40, 59, 60, 61, 62, 80] {
            let (answer, _) = indexed.build(room, &mut random);
            assert_eq!(answer, expected, "{present:?} into {room}");
        }
    }
    let accepted = Indexed::new(&matrix_with([false; 5]), &mut random);
    assert_eq!(accepted.build(61, &mut random).0, BUILT);
    assert_eq!(accepted.build(60, &mut random).0, refused(10, 0));
}

/// Sizes at the ends of ranges and of 16 bits, with short lists and buffers.
#[test]
fn extreme_sizes() {
    let mut random = random(1607);
    let extremes = [0, 1, 2, 32, 33, 1023, 1024, 65_535];
    for number in 0..extremes.len().pow(4) {
        let size = |at: u32| extremes[number / extremes.len().pow(at) % extremes.len()];
        let length = random.below(70);
        let h = Matrix {
            n: size(0),
            m: size(1),
            rho: size(2),
            gamma: size(3),
            list: (0..length as u16).collect(),
        };
        let indexed = Indexed::new(&h, &mut random);
        let room = random.below(140);
        indexed.build(room, &mut random);
    }
}

/// Everything by chance: the matrix and the buffer.
#[test]
fn calls_by_chance() {
    let mut random = random(1608);
    let codes = codes::small();
    let mut seen = [0; 11];
    for _ in 0..cases(4000) {
        let mut h = random.pick(&codes).matrix.clone();
        if random.once_in(2) {
            damage::change(&mut h, &mut random);
        }
        let indexed = Indexed::new(&h, &mut random);
        let near = usize::from(h.n).min(1100) + 1 + h.list.len();
        let room = match random.below(4) {
            0 => random.below(near),
            _ => (near + random.below(3)).saturating_sub(random.below(2)),
        };
        let (answer, _) = indexed.build(room, &mut random);
        seen[answer.refusal() as usize] += 1;
    }
    for number in [0, 1, 2, 3, 4, 5, 10] {
        assert!(seen[number] > 50, "{seen:?}");
    }
}
