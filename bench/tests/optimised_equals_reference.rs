//! The hand-optimised form gives the reference's answers, so that its times mean something.

use bench::optimised;
use generator::codes::{self, Code};
use generator::{damage, patterns, Codewords, Random};
use reference::{byte_count, check, one_step_accepted, pack};

#[test]
fn accepted_matrices() {
    for code in codes::all() {
        assert_eq!(optimised::check(&code.matrix), Ok(()), "{}", code.name);
    }
}

#[test]
fn damaged_matrices() {
    let mut random = Random::new(11);
    let mut codes = codes::small();
    codes.extend([codes::tanner155(), codes::complete_graph(12).transposed()]);
    codes.extend([codes::grid(16), codes::array_code(17, 16, 4)]);
    for _ in 0..3000 {
        let mut h = random.pick(&codes).matrix.clone();
        for _ in 0..1 + random.below(2) {
            damage::change(&mut h, &mut random);
        }
        assert_eq!(optimised::check(&h), check(&h), "{h:?}");
    }
    // Overlaps of rows far apart and near, in a matrix of the largest size.
    for _ in 0..4 {
        let mut h = codes::array_code(341, 3, 3).matrix;
        damage::exchange_columns(&mut h, &mut random);
        assert_eq!(optimised::check(&h), check(&h));
    }
}

/// Both forms on one received word and one buffer.
fn compare(code: &Code, received: &[u8], room: usize, random: &mut Random) {
    let mut word = random.bytes(room);
    let mut expected = word.clone();
    // SAFETY: the generated codes are accepted.
    let answer = unsafe { optimised::one_step_accepted(&code.matrix, received, &mut word) };
    let expected_answer = one_step_accepted(&code.matrix, received, &mut expected);
    assert_eq!(answer, expected_answer, "{}", code.name);
    assert_eq!(word, expected, "{}", code.name);
}

#[test]
fn votes() {
    let mut random = Random::new(12);
    for code in codes::all() {
        let n = usize::from(code.matrix.n);
        let needed = byte_count(code.matrix.n);
        let codewords = Codewords::of(&code.matrix);
        for flips in [0, code.matrix.gamma / 2, code.matrix.gamma, code.matrix.n] {
            let pattern = random.different(usize::from(flips).min(n), n);
            let received = patterns::flipped(&codewords.random(&mut random), &pattern);
            compare(&code, &pack(&received), needed + 2, &mut random);
        }
        let received = random.bytes(needed);
        compare(&code, &received, needed, &mut random);
        compare(&code, &received, needed - 1, &mut random);
        compare(&code, &received[1..], needed, &mut random);
    }
}
