//! Card 4: the count of changed bits, sixty-four places at a time, beside the reference, which goes
//! place by place.

use differential::{cases, random, Guarded};
use ffi_face::Packed;
use generator::codes::{self, Code};
use generator::Random;

/// The most bytes that a word has.
const MOST: usize = 128;

/// The library's count is the reference's, whichever run is lent first.
fn compare(a: &[u8], b: &[u8]) {
    let expected = Packed::of_changed(reference::changed(a, b));
    assert_eq!(ffi_face::changed(a, b), expected, "{a:02x?} {b:02x?}");
    assert_eq!(ffi_face::changed(b, a), expected, "{b:02x?} {a:02x?}");
}

/// Runs of every length between guards, which begin at any place of the memory, by chance, equal, and
/// different throughout. The bytes around them do not count, and nothing is written.
#[test]
fn every_length() {
    let mut random = random(2500);
    for long in 0..=MOST {
        for _ in 0..cases(40) {
            let a = random.bytes(long);
            let others: Vec<u8> = a.iter().map(|byte| !byte).collect();
            for b in [random.bytes(long), a.clone(), others] {
                let lent = [&a, &b].map(|run| Guarded::new(run, &mut random));
                compare(lent[0].lent(), lent[1].lent());
                assert!(lent[0].holds(&a) && lent[1].holds(&b));
            }
        }
    }
}

/// Each place of a run of each length alone differs, and each alone does not.
#[test]
fn every_place() {
    let mut random = random(2501);
    for long in 0..=MOST {
        let a = random.bytes(long);
        for j in 0..8 * long {
            let mut b = a.clone();
            b[j / 8] ^= 128 >> (j % 8);
            assert_eq!(ffi_face::changed(&a, &b), Packed::new(0, 0, 0, 1));
            b.iter_mut().for_each(|byte| *byte = !*byte);
            assert_eq!(
                ffi_face::changed(&a, &b),
                Packed::new(0, 0, 0, 8 * long - 1)
            );
        }
    }
}

/// A run of random bytes with one of them given.
fn with_byte(long: usize, at: usize, byte: u8, random: &mut Random) -> Vec<u8> {
    let mut run = random.bytes(long);
    run[at] = byte;
    run
}

/// All pairs of bytes as the first byte of a word, as its last one, as the first of the next word, as the first
/// byte behind all words and as the last one.
#[test]
fn every_pair_of_bytes() {
    let mut random = random(2502);
    for at in [0, 7, 8, 16, 19] {
        for pair in 0..=u16::MAX {
            let [x, y] = pair.to_be_bytes();
            let a = with_byte(20, at, x, &mut random);
            let b = with_byte(20, at, y, &mut random);
            compare(&a, &b);
        }
    }
}

/// Runs that lie over one another in the memory: the same one twice, and one that begins a few bytes later.
#[test]
fn overlapping_runs() {
    let mut random = random(2503);
    let bytes = random.bytes(2 * MOST);
    for long in 0..=MOST {
        for later in 0..=MOST {
            compare(&bytes[..long], &bytes[later..later + long]);
        }
    }
}

/// Runs between guards, both refused by 7 in either order; nothing is written.
fn refused(long: usize, other: usize, random: &mut Random) {
    let [a, b] = [long, other].map(|long| random.bytes(long));
    let lent = [&a, &b].map(|run| Guarded::new(run, random));
    let [one, two] = [lent[0].lent(), lent[1].lent()];
    let expected = Packed::new(7 << 16, 0, 0, 0);
    assert_eq!(ffi_face::changed(one, two), expected, "{long} {other}");
    assert_eq!(ffi_face::changed(two, one), expected, "{other} {long}");
    assert_eq!(Packed::of_changed(reference::changed(&a, &b)), expected);
    assert!(lent[0].holds(&a) && lent[1].holds(&b));
}

/// Refusal 7: unlike lengths, among them those that are one apart, and those of which one is too long as well.
#[test]
fn unlike_lengths() {
    let mut random = random(2504);
    for long in 0..MOST + 3 {
        for other in 0..long {
            refused(long, other, &mut random);
        }
    }
}

/// Refusal 7: runs of more than 128 bytes, also where 16 bits do not hold their lengths, equal and unlike.
#[test]
fn longer_runs() {
    let mut random = random(2505);
    let lengths = [
        MOST + 1,
        MOST + 8,
        2 * MOST - 1,
        2 * MOST,
        2 * MOST + 20,
        8 * MOST,
        (1 << 16) - 1,
        1 << 16,
        (1 << 16) + 20,
        (1 << 16) + MOST,
        1 << 20,
    ];
    for long in lengths {
        for other in [0, 20, MOST, long - 1, long, long % (1 << 16)] {
            refused(long, other, &mut random);
        }
    }
}

/// What one-step voting says it changed is this count of the word written and the word received.
fn beside_one_step(code: &Code, times: usize, random: &mut Random) {
    let h = &code.matrix;
    for _ in 0..times {
        let received = reference::pack(&random.bits(usize::from(h.n)));
        let mut word = vec![0; received.len()];
        let answer = ffi_face::one_step(h.into(), &received, &mut word);
        let changed = ffi_face::changed(&word, &received);
        assert_eq!(answer.0 >> 52, changed.0 >> 52, "{}", code.name);
        compare(&word, &received);
    }
}

#[test]
fn voting_counts_the_same() {
    let mut random = random(2506);
    for code in [codes::small(), codes::medium(), codes::large()].concat() {
        beside_one_step(&code, cases(5), &mut random);
    }
}
