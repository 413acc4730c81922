//! Words past the half and words by chance.

use differential::{cases, random, Subject};
use generator::codes::{self, Code};
use generator::{patterns, Codewords, Random};
use reference::pack;

/// A codeword with more flips than voting is sure to undo, and words of other kinds.
fn words(code: &Code, random: &mut Random) -> Vec<Vec<bool>> {
    let n = usize::from(code.matrix.n);
    let gamma = usize::from(code.matrix.gamma);
    let codewords = Codewords::of(&code.matrix);
    let mut words = vec![random.bits(n)];
    for size in [gamma / 2 + 1, gamma + 1, 1 + random.below(n)] {
        let size = size.min(n);
        let sent = codewords.random(random);
        words.push(patterns::flipped(&sent, &random.different(size, n)));
        for pattern in patterns::against_one_bit(code, size, random) {
            words.push(patterns::flipped(&sent, &pattern));
        }
    }
    words
}

fn compare(code: &Code, times: usize, random: &mut Random) {
    let n = usize::from(code.matrix.n);
    let subject = Subject::new(&code.matrix, random);
    subject.check();
    subject.word(&pack(&vec![true; n]), random);
    subject.word(&pack(&vec![false; n]), random);
    for _ in 0..times {
        for word in words(code, random) {
            subject.word(&pack(&word), random);
        }
    }
}

#[test]
fn small_codes() {
    let mut random = random(400);
    for code in codes::small() {
        compare(&code, cases(10), &mut random);
    }
}

#[test]
fn medium_codes() {
    let mut random = random(401);
    for code in codes::medium() {
        compare(&code, cases(2), &mut random);
        compare(&code.shuffled(&mut random), cases(1), &mut random);
    }
}

#[test]
fn large_codes() {
    let mut random = random(402);
    for code in codes::large() {
        compare(&code, cases(1), &mut random);
    }
}

/// Every bit alone: each has its own byte and place.
#[test]
fn single_bits() {
    let mut random = random(403);
    let mut all = [codes::small(), codes::medium()].concat();
    all.push(codes::array_code(341, 3, 3));
    for code in all {
        let n = usize::from(code.matrix.n);
        let subject = Subject::new(&code.matrix, &mut random);
        for j in 0..n {
            if n < 100 || j % 8 == 0 || j + 9 > n || random.once_in(16) {
                let word = patterns::flipped(&vec![false; n], &[j]);
                subject.one_step(&pack(&word), subject.needed(), &mut random);
                subject.failing(&pack(&word), &mut random);
            }
        }
    }
}
