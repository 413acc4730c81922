//! Demand 3, the flipping rule: a codeword changed within the half comes back, and the answer is
//! the one the rule names. The reference's opinion is asked as well.

use differential::{cases, random, Subject};
use ffi_face::Packed;
use generator::codes::{self, Code};
use generator::{patterns, Codewords, Random};
use reference::pack;

/// The rule for one codeword and one pattern of at most gamma / 2 flips.
fn comes_back(subject: &Subject, sent: &[bool], pattern: &[usize], random: &mut Random) {
    assert!(pattern.len() <= usize::from(subject.matrix().gamma / 2));
    let received = pack(&patterns::flipped(sent, pattern));
    let rounds = usize::from(!pattern.is_empty());
    let room = subject.needed() + random.below(4);
    let (answer, word) = subject.one_step(&received, room, random);
    assert_eq!(answer, Packed::new(0, rounds, 0, pattern.len()));
    assert_eq!(word[..subject.needed()], pack(sent));
}

/// All patterns within the half if they are few, else patterns of each size by chance.
fn small_code(code: &Code, random: &mut Random) {
    let n = usize::from(code.matrix.n);
    let half = usize::from(code.matrix.gamma / 2);
    let subject = Subject::new(&code.matrix, random);
    let most = 3000;
    let few = patterns::count_up_to(half, n, most) < most;
    for sent in Codewords::of(&code.matrix).some(8, random) {
        for size in 0..=half {
            let patterns = if few {
                patterns::of_size(size, n)
            } else {
                some_patterns(code, size, 20, random)
            };
            for pattern in patterns {
                comes_back(&subject, &sent, &pattern, random);
            }
        }
    }
}

/// Patterns of one size by chance, and those that come nearest to a wrong vote.
fn some_patterns(code: &Code, size: usize, count: usize, random: &mut Random) -> Vec<Vec<usize>> {
    let n = usize::from(code.matrix.n);
    let mut some = patterns::against_one_bit(code, size, random);
    some.extend((0..count).map(|_| random.different(size, n)));
    some
}

#[test]
fn all_patterns_on_small_codes() {
    let mut random = random(300);
    for code in codes::small() {
        small_code(&code, &mut random);
        small_code(&code.shuffled(&mut random), &mut random);
    }
}

#[test]
fn patterns_on_medium_codes() {
    let mut random = random(301);
    for code in codes::medium() {
        small_code(&code, &mut random);
    }
}

#[test]
fn patterns_on_large_codes() {
    let mut random = random(302);
    for code in codes::large() {
        let half = usize::from(code.matrix.gamma / 2);
        let subject = Subject::new(&code.matrix, &mut random);
        let codewords = Codewords::of(&code.matrix);
        let mut sizes = vec![0, 1, half / 2, half.saturating_sub(1), half];
        sizes.retain(|&size| size <= half);
        sizes.dedup();
        for size in sizes {
            for _ in 0..cases(1) {
                for pattern in some_patterns(&code, size, 1, &mut random) {
                    let sent = codewords.random(&mut random);
                    comes_back(&subject, &sent, &pattern, &mut random);
                }
            }
        }
    }
}

#[test]
fn eg1023_within_the_half() {
    let mut random = random(303);
    let code = codes::eg1023();
    let subject = Subject::new(&code.matrix, &mut random);
    let codewords = Codewords::of(&code.matrix);
    for _ in 0..cases(20) {
        let size = random.below(17);
        for pattern in some_patterns(&code, size, 1, &mut random) {
            let sent = codewords.random(&mut random);
            comes_back(&subject, &sent, &pattern, &mut random);
        }
    }
}

/// Demand 3, last part: two codewords changed within the half never give the same received word.
#[test]
fn received_words_within_the_half_are_distinct() {
    let mut random = random(304);
    for code in [codes::code_a(), codes::code_b(), codes::projective_prime(3)] {
        let n = usize::from(code.matrix.n);
        let half = usize::from(code.matrix.gamma / 2);
        let mut seen = std::collections::HashSet::new();
        for sent in Codewords::of(&code.matrix).some(1 << 12, &mut random) {
            for size in 0..=half {
                for pattern in patterns::of_size(size, n) {
                    assert!(seen.insert(patterns::flipped(&sent, &pattern)));
                }
            }
        }
    }
}
