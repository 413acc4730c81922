//! Document 02, card 6: "Undecided samples are no errors", by hand.
//!
//! Code A with P6's setting: level step 0.5, b = 3, so L = 3 and samples below 0.25 have level 0.

use reference::{
    iterative, one_step, open, step, Answer, Matrix, Outcome, Refusal, Session, Setting,
};

fn code_a() -> Matrix {
    Matrix {
        n: 7,
        m: 7,
        rho: 3,
        gamma: 3,
        list: vec![
            0, 1, 3, 1, 2, 4, 2, 3, 5, 3, 4, 6, 0, 4, 5, 1, 5, 6, 0, 2, 6,
        ],
    }
}

const P6: Setting = Setting {
    bits: 3,
    limit: 5,
    kind: 0,
    step: 0.5,
};

const P6_SAMPLES: [f32; 7] = [0.5, -1.0, -1.0, -1.0, -1.0, -1.0, -1.0];

/// Samples of level 0 whose hard bit is 1: the smallest float, and the last below a half-way.
const ONES_OF_LEVEL_0: [f32; 3] = [f32::from_bits(1), 0.1, 0.249_999_98];

/// Samples of level 0 whose hard bit is 0, both zeros among them.
const ZEROS_OF_LEVEL_0: [f32; 5] = [0.0, -0.0, -f32::from_bits(1), -0.1, -0.249_999_98];

fn answer(outcome: Outcome, rounds: usize, failing: usize, changed: usize) -> Answer {
    Answer {
        outcome,
        rounds,
        failing,
        changed,
    }
}

/// A whole call: its answer, word and levels.
fn voted(samples: [f32; 7]) -> (Answer, u8, [i16; 7]) {
    let (mut word, mut levels) = ([0xA5], [99; 7]);
    let answer = iterative(&code_a(), &P6, &samples, &mut word, &mut levels);
    (answer.expect("no refusal applies"), word[0], levels)
}

/// A session that was opened.
#[derive(Clone)]
struct Opened {
    record: Session,
    answer: Answer,
    word: [u8; 1],
    levels: [i16; 7],
}

impl Opened {
    fn new(samples: [f32; 7]) -> Opened {
        let (mut record, mut word, mut levels) = (Session::EMPTY, [0xA5], [99; 7]);
        let opened = open(
            &mut record,
            &code_a(),
            &P6,
            &samples,
            &mut word,
            &mut levels,
        );
        Opened {
            record,
            answer: opened.expect("no refusal applies"),
            word,
            levels,
        }
    }

    /// One step, lent these levels as the opening's.
    fn step(&mut self, received: u8, opened: &[i16]) -> Result<Answer, Refusal> {
        step(
            &mut self.record,
            &code_a(),
            &[received],
            opened,
            &mut self.word,
            &mut self.levels,
        )
    }

    /// What a step of a copy counts as changed.
    fn changed(&self, received: u8, opened: [i16; 7]) -> usize {
        let stepped = self.clone().step(received, &opened);
        stepped.expect("no refusal applies").changed
    }
}

/// P6 with a first sample of level 0: bit 0 has three odd checks against it, the others an odd one
/// and two even ones. It is turned, and not counted.
#[test]
fn one_undecided_sample_that_is_turned() {
    for first in ONES_OF_LEVEL_0 {
        let mut samples = P6_SAMPLES;
        samples[0] = first;
        let expected = answer(Outcome::Decoded, 1, 0, 0);
        assert_eq!(voted(samples), (expected, 0x00, [-3; 7]), "{first:e}");
    }
    // 0.25 is half-way and has level 1: −2 after the round, and counted.
    let mut samples = P6_SAMPLES;
    samples[0] = 0.25;
    let expected = answer(Outcome::Decoded, 1, 0, 1);
    let levels = [-2, -3, -3, -3, -3, -3, -3];
    assert_eq!(voted(samples), (expected, 0x00, levels));
}

/// 2E is bits 2, 4, 5 and 6. Bit 4 is received as 0: its checks 1 2 4, 3 4 6 and 0 4 5 have one other
/// one each, so E = 3. The other bits have one check with bit 4 that speaks against them and two for
/// them.
#[test]
fn an_undecided_0_that_is_turned() {
    for fourth in ZEROS_OF_LEVEL_0 {
        let samples = [-1.0, -1.0, 1.0, -1.0, fourth, 1.0, 1.0];
        let expected = answer(Outcome::Decoded, 1, 0, 0);
        let levels = [-3, -3, 3, -3, 3, 3, 3];
        assert_eq!(voted(samples), (expected, 0x2E, levels), "{fourth:e}");
    }
    let samples = [-1.0, -1.0, 1.0, -1.0, -0.25, 1.0, 1.0];
    let expected = answer(Outcome::Decoded, 1, 0, 1);
    let levels = [-3, -3, 3, -3, 2, 3, 3];
    assert_eq!(voted(samples), (expected, 0x2E, levels));
}

/// Bits 0 and 1 are wrong, bit 1 without a level. Round 1: E is −1 for both, −3 for bit 3 and 1 for
/// the others. Bit 0 is left, and round 2 undoes it. Two bits end different, one of them had a level.
#[test]
fn a_decided_and_an_undecided_wrong_bit() {
    let samples = [1.0, 0.1, -1.0, -1.0, -1.0, -1.0, -1.0];
    let levels = [-2, -2, -2, -3, -2, -2, -2];
    let expected = answer(Outcome::Decoded, 2, 0, 1);
    assert_eq!(voted(samples), (expected, 0x00, levels));
    // "one-step voting on a word counts as before": P3.
    let mut word = [0xA5];
    let voted = one_step(&code_a(), &[0xC0], &mut word);
    assert_eq!(voted, Ok(answer(Outcome::Decoded, 1, 0, 6)));
}

/// No sample has a level: 1 at bit 0 alone, and at none of them or all.
#[test]
fn all_undecided() {
    let mut samples = [-0.1; 7];
    samples[0] = 0.1;
    let levels = [-3, -1, -1, -1, -1, -1, -1];
    let expected = answer(Outcome::Decoded, 1, 0, 0);
    assert_eq!(voted(samples), (expected, 0x00, levels));
    // P8.
    assert_eq!(voted([0.1; 7]), (expected, 0x00, [-3; 7]));
    // No check fails.
    let expected = answer(Outcome::Decoded, 0, 0, 0);
    assert_eq!(voted([-0.1; 7]), (expected, 0x00, [0; 7]));
    assert_eq!(voted([-0.0; 7]), (expected, 0x00, [0; 7]));
}

/// Every sample has a level: each bit that ends different is counted, though the levels of bits 0 and
/// 1 are 0 at the end. The rounds are worked out in the tests of iterative voting.
#[test]
fn all_decided() {
    let samples = [1.0, 1.0, -1.0, -1.0, -1.0, -1.0, -1.0];
    let expected = answer(Outcome::Decoded, 2, 0, 2);
    assert_eq!(voted(samples), (expected, 0x00, [0, 0, 0, -3, 0, 0, 0]));
}

/// A failed answer counts in the same way: P7's limit, and one round of the case with two wrong bits.
#[test]
fn failed_blocks() {
    let failed = |limit, samples: [f32; 7]| {
        let setting = Setting { limit, ..P6 };
        let (mut word, mut levels) = ([0xA5], [99; 7]);
        let answer = iterative(&code_a(), &setting, &samples, &mut word, &mut levels);
        (answer.expect("no refusal applies"), word[0])
    };
    let samples = [1.0, 0.1, -1.0, -1.0, -1.0, -1.0, -1.0];
    assert_eq!(failed(0, samples), (answer(Outcome::Failed, 0, 4, 0), 0xC0));
    // Bit 1 alone was turned.
    assert_eq!(failed(1, samples), (answer(Outcome::Failed, 1, 3, 0), 0x80));
}

/// "Stepping equals the whole call [..] when every step is lent those levels unaltered too."
#[test]
fn stepping_equals_the_whole_call() {
    // P8.
    let mut p8 = Opened::new([0.1; 7]);
    let levels = p8.levels;
    assert_eq!(levels, [0; 7]);
    assert_eq!(p8.answer, answer(Outcome::Working, 0, 7, 0));
    let stepped = p8.step(0xFE, &levels);
    assert_eq!(stepped, Ok(answer(Outcome::Decoded, 1, 0, 0)));
    assert_eq!((p8.word, p8.levels), ([0x00], [-3; 7]));

    let samples = [1.0, 0.1, -1.0, -1.0, -1.0, -1.0, -1.0];
    let mut session = Opened::new(samples);
    let levels = session.levels;
    assert_eq!(levels, [2, 0, -2, -2, -2, -2, -2]);
    assert_eq!(session.answer, answer(Outcome::Working, 0, 4, 0));
    let first = session.step(0xC0, &levels);
    assert_eq!(first, Ok(answer(Outcome::Working, 1, 3, 0)));
    assert_eq!(session.levels, [1, -1, -1, -3, -1, -1, -1]);
    let second = session.step(0xC0, &levels);
    let (whole, word, left) = voted(samples);
    assert_eq!(second, Ok(whole));
    assert_eq!((session.word, session.levels), ([word], left));
}

/// Steps lent other levels than the opening's: a place counts where the lent level is not 0, "and what
/// they hold is never refused".
#[test]
fn other_levels_than_the_openings() {
    // The step leaves 00; the lent received word is 80.
    let p6 = Opened::new(P6_SAMPLES);
    assert_eq!(p6.changed(0x80, p6.levels), 1);
    assert_eq!(p6.changed(0x80, [0; 7]), 0);
    for other in [1, -1, 3, -3, 4, -4, 127, -127, -128, -32_768] {
        assert_eq!(p6.changed(0x80, [other; 7]), 1, "{other}");
        assert_eq!(p6.changed(0x80, [other, 0, 0, 0, 0, 0, 0]), 1, "{other}");
        let rest = [0, other, other, other, other, other, other];
        assert_eq!(p6.changed(0x80, rest), 0, "{other}");
    }
    // P8's step leaves 00; the levels at the end, which are not 0, count all seven.
    let p8 = Opened::new([0.1; 7]);
    assert_eq!(p8.changed(0xFE, [-3; 7]), 7);
    assert_eq!(p8.changed(0xFE, [0, -128, 0, 5, 0, 0, -1]), 3);
    // The received word is the lent one, whatever was received at the opening.
    assert_eq!(p8.changed(0x00, [1; 7]), 0);
    assert_eq!(p8.changed(0xC0, [1; 7]), 2);
    assert_eq!(p8.changed(0xC0, [0, 1, 1, 1, 1, 1, 1]), 1);
    assert_eq!(p8.changed(0xC0, [0, 0, 1, 1, 1, 1, 1]), 0);
}

/// "a wrong length of those is 7": a longer level buffer is lent by its first n.
#[test]
fn wrong_lengths() {
    let p6 = Opened::new(P6_SAMPLES);
    let longer = [&p6.levels[..], &[0, 0]].concat();
    for length in 0..=9 {
        let mut session = p6.clone();
        let stepped = session.step(0x80, &longer[..length]);
        let expected = match length {
            7 => Ok(answer(Outcome::Decoded, 1, 0, 1)),
            _ => Err(Refusal::plain(7)),
        };
        assert_eq!(stepped, expected, "{length}");
        if stepped.is_err() {
            let left = (session.record, session.word, session.levels);
            assert_eq!(left, (p6.record, p6.word, p6.levels));
        }
    }
}
