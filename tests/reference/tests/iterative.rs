//! "Iterative voting" and "Rounds one at a time": P6 to P8, and one round followed by hand.

use reference::{iterative, open, step, Answer, Matrix, Outcome, Refusal, Session, Setting, State};

fn code_a() -> Matrix {
    Matrix {
        n: 7,
        m: 7,
        rho: 3,
        gamma: 3,
        list: vec![
            0, 1, 3, 1, 2, 4, 2, 3, 5, 3, 4, 6, 0, 4, 5, 1, 5, 6, 0, 2, 6,
        ],
    }
}

const P6: Setting = Setting {
    bits: 3,
    limit: 5,
    kind: 0,
    step: 0.5,
};

const P6_SAMPLES: [f32; 7] = [0.5, -1.0, -1.0, -1.0, -1.0, -1.0, -1.0];

fn answer(outcome: Outcome, rounds: usize, failing: usize, changed: usize) -> Answer {
    Answer {
        outcome,
        rounds,
        failing,
        changed,
    }
}

/// Iterative voting on code A into buffers longer than needed.
fn voted(setting: &Setting, samples: &[f32]) -> (Answer, u8, Vec<i16>) {
    let mut word = [0xA5; 3];
    let mut levels = [99; 9];
    let answer = iterative(&code_a(), setting, samples, &mut word, &mut levels);
    assert_eq!(word[1..], [0xA5, 0xA5]);
    assert_eq!(levels[7..], [99, 99]);
    (
        answer.expect("no refusal applies"),
        word[0],
        levels[..7].to_vec(),
    )
}

#[test]
fn p6_one_round_undoes_a_weak_bit() {
    let expected = answer(Outcome::Decoded, 1, 0, 1);
    let levels = vec![-2, -3, -3, -3, -3, -3, -3];
    assert_eq!(voted(&P6, &P6_SAMPLES), (expected, 0x00, levels));
}

#[test]
fn p7_no_round_allowed() {
    let setting = Setting { limit: 0, ..P6 };
    let (answered, word, levels) = voted(&setting, &P6_SAMPLES);
    assert_eq!(answered, answer(Outcome::Failed, 0, 3, 0));
    assert_eq!(word, 0x80);
    assert_eq!(levels, [1, -2, -2, -2, -2, -2, -2]);
}

#[test]
fn p8_the_first_hard_bit_is_the_samples() {
    // No sample has a level: card 6, "P8 then gives changed 0".
    let expected = answer(Outcome::Decoded, 1, 0, 0);
    assert_eq!(voted(&P6, &[0.1; 7]), (expected, 0x00, vec![-3; 7]));
}

/// Bits 0 and 1 are 1 with weak levels. Row 0 1 3 is even. Bit 0: the others of 0 1 3 are odd, of
/// 0 4 5 and 0 2 6 even, so E = −1; bit 1 in the same way. Bit 3: the others of 0 1 3 are even, as
/// are those of 2 3 5 and 3 4 6: −3. Bits 2, 4, 5 and 6 have one odd row with bit 0, one with bit
/// 1, and an even one: E = 1.
#[test]
fn one_round_by_hand() {
    let setting = Setting { limit: 1, ..P6 };
    let samples = [1.0, 1.0, -1.0, -1.0, -1.0, -1.0, -1.0];
    let (answered, word, levels) = voted(&setting, &samples);
    assert_eq!(levels, [1, 1, -1, -3, -1, -1, -1]);
    assert_eq!(word, 0xC0);
    assert_eq!(answered, answer(Outcome::Failed, 1, 4, 0));
    // The next round starts from the same word: levels 0, 0, 0, −3, 0, 0, 0, all bits 0.
    let setting = Setting { limit: 2, ..P6 };
    let (answered, word, levels) = voted(&setting, &samples);
    assert_eq!(levels, [0, 0, 0, -3, 0, 0, 0]);
    assert_eq!(word, 0x00);
    assert_eq!(answered, answer(Outcome::Decoded, 2, 0, 2));
}

#[test]
fn the_sum_is_cut_and_not_e() {
    // Width 2: L is 1, E is −3, and 1 − 3 is cut to −1.
    let setting = Setting { bits: 2, ..P6 };
    let (answered, word, levels) = voted(&setting, &P6_SAMPLES);
    assert_eq!(levels, vec![-1; 7]);
    assert_eq!(word, 0x00);
    assert_eq!(answered, answer(Outcome::Decoded, 1, 0, 1));
}

#[test]
fn refusals_in_their_order() {
    let refused = |h: &Matrix, setting: Setting, samples: &[f32], word: usize, levels: usize| {
        let mut word = vec![0x5A; word];
        let mut levels = vec![99; levels];
        let refusal = iterative(h, &setting, samples, &mut word, &mut levels).expect_err("refused");
        assert!(word.iter().all(|&byte| byte == 0x5A));
        assert!(levels.iter().all(|&level| level == 99));
        (refusal.number, refusal.place)
    };
    let a = code_a();
    let bad_matrix = Matrix {
        gamma: 4,
        ..code_a()
    };
    let bad_setting = Setting { bits: 13, ..P6 };
    let not_finite = [0.0, 0.0, 0.0, f32::NAN, 0.0, f32::INFINITY, 0.0];
    assert_eq!(refused(&bad_matrix, bad_setting, &not_finite, 0, 0), (1, 0));
    assert_eq!(refused(&a, bad_setting, &not_finite, 0, 0), (6, 0));
    assert_eq!(refused(&a, P6, &not_finite, 0, 7), (7, 0));
    assert_eq!(refused(&a, P6, &not_finite, 1, 6), (7, 0));
    assert_eq!(refused(&a, P6, &not_finite[..6], 1, 7), (7, 0));
    assert_eq!(refused(&a, P6, &[0.0; 8], 1, 8), (7, 0));
    assert_eq!(refused(&a, P6, &not_finite, 1, 7), (8, 3));
}

#[test]
fn p6_in_single_rounds() {
    let a = code_a();
    let mut record = Session::EMPTY;
    let (mut word, mut levels) = ([0xA5; 2], [99; 8]);
    let opened = open(&mut record, &a, &P6, &P6_SAMPLES, &mut word, &mut levels);
    assert_eq!(opened, Ok(answer(Outcome::Working, 0, 3, 0)));
    assert_eq!(word, [0x80, 0xA5]);
    assert_eq!(levels, [1, -2, -2, -2, -2, -2, -2, 99]);
    let at_opening = [1, -2, -2, -2, -2, -2, -2];
    let working = Session {
        state: State::Working,
        bits: 3,
        limit: 5,
        k: 0,
        n: 7,
        m: 7,
        rho: 3,
        gamma: 3,
    };
    assert_eq!(record, working);

    let mut step = |record: &mut Session| {
        let stepped = step(record, &a, &[0x80], &at_opening, &mut word, &mut levels);
        (stepped, word, levels)
    };
    let (stepped, word, levels) = step(&mut record);
    assert_eq!(stepped, Ok(answer(Outcome::Decoded, 1, 0, 1)));
    assert_eq!(word, [0x00, 0xA5]);
    assert_eq!(levels, [-2, -3, -3, -3, -3, -3, -3, 99]);
    let decoded = Session {
        state: State::Decoded,
        k: 1,
        ..working
    };
    assert_eq!(record, decoded);

    let after_the_end = step(&mut record);
    assert_eq!(after_the_end, (Err(Refusal::plain(21)), word, levels));
    assert_eq!(record, decoded);
}

#[test]
fn p7_is_failed_at_opening() {
    let setting = Setting { limit: 0, ..P6 };
    let mut record = Session::EMPTY;
    let (mut word, mut levels) = ([0], [0; 7]);
    let opened = open(
        &mut record,
        &code_a(),
        &setting,
        &P6_SAMPLES,
        &mut word,
        &mut levels,
    );
    assert_eq!(opened, Ok(answer(Outcome::Failed, 0, 3, 0)));
    assert_eq!((record.state, record.k), (State::Failed, 0));
}

/// Each pair of causes: the one that is asked first is given, and nothing is written.
#[test]
fn the_order_in_which_a_step_asks() {
    let working = Session {
        state: State::Working,
        bits: 3,
        limit: 5,
        k: 4,
        n: 7,
        m: 7,
        rho: 3,
        gamma: 3,
    };
    let refused_with = |record: Session,
                        h: &Matrix,
                        received: &[u8],
                        opened: &[i16],
                        word: &[u8],
                        levels: &[i16]| {
        let (mut kept, mut word_kept, mut levels_kept) = (record, word.to_vec(), levels.to_vec());
        let refusal = step(
            &mut kept,
            h,
            received,
            opened,
            &mut word_kept,
            &mut levels_kept,
        );
        if let Err(refusal) = refusal {
            assert_eq!(
                (kept, &word_kept[..], &levels_kept[..]),
                (record, word, levels)
            );
            assert_eq!(refusal.place, 0);
            return refusal.number;
        }
        0
    };
    let o = [1, -2, -2, -2, -2, -2, -2];
    let refused = |record: Session, h: &Matrix, received: &[u8], word: &[u8], levels: &[i16]| {
        refused_with(record, h, received, &o, word, levels)
    };
    let a = code_a();
    let bad = Matrix {
        gamma: 4,
        ..code_a()
    };
    let (z, r) = ([0x80], [1, -2, -2, -2, -2, -2, -2]);
    assert_eq!(refused(working, &a, &z, &z, &r), 0);
    for (bits, limit, k) in [
        (1, 5, 4),
        (13, 5, 4),
        (3, 256, 4),
        (3, 5, 5),
        (3, 5, 6),
        (3, 0, 0),
    ] {
        let record = Session {
            bits,
            limit,
            k,
            ..working
        };
        assert_eq!(refused(record, &a, &z, &z, &r), 20);
        assert_eq!(refused(record, &bad, &z, &z, &r), 20);
        // The same numbers in a record that has ended are not asked about.
        for state in [State::Decoded, State::Failed] {
            let record = Session { state, ..record };
            assert_eq!(refused(record, &bad, &z, &z, &r), 21);
        }
        let record = Session {
            state: State::Empty,
            ..record
        };
        assert_eq!(refused(record, &bad, &z, &z, &r), 20);
    }
    let other_sizes = Session { n: 8, ..working };
    assert_eq!(refused(other_sizes, &bad, &[], &[], &[]), 1);
    assert_eq!(refused(other_sizes, &a, &[], &[], &[]), 22);
    assert_eq!(refused(working, &a, &[0x81, 0], &z, &r), 7);
    assert_eq!(refused(working, &a, &[0x81], &[], &r), 7);
    assert_eq!(refused(working, &a, &[0x81], &[0x81], &r[..6]), 7);
    assert_eq!(refused(working, &a, &[0x81], &[0x81], &r), 9);
    // The opening's levels: their length with the other lengths, their numbers not at all.
    for wrong in [&[][..], &o[..6], &[0; 8], &[0; 9]] {
        let refused = |record: Session, h: &Matrix, received: &[u8]| {
            refused_with(record, h, received, wrong, &[0x81], &r)
        };
        let empty = Session::EMPTY;
        let ended = Session {
            state: State::Failed,
            ..working
        };
        assert_eq!(refused(empty, &a, &z), 20);
        assert_eq!(refused(ended, &a, &z), 21);
        assert_eq!(refused(working, &bad, &z), 1);
        assert_eq!(refused(other_sizes, &a, &z), 22);
        assert_eq!(refused(working, &a, &z), 7);
        assert_eq!(refused(working, &a, &[0x81]), 7);
        assert_eq!(refused(working, &a, &[]), 7);
    }
    for numbers in [[0; 7], [-32_768; 7], [32_767; 7], [4; 7], [-4; 7]] {
        assert_eq!(refused_with(working, &a, &z, &numbers, &z, &r), 0);
        assert_eq!(refused_with(working, &a, &[0x81], &numbers, &z, &r), 9);
        assert_eq!(refused_with(working, &a, &z, &numbers, &[0x81], &r), 23);
    }
    assert_eq!(refused(working, &a, &z, &[0x81], &r), 23);
    assert_eq!(
        refused(working, &a, &z, &z, &[1, -2, -2, -2, -2, -2, -4]),
        23
    );
    assert_eq!(
        refused(working, &a, &z, &z, &[1, -2, -2, -2, -2, -2, 4]),
        23
    );
    assert_eq!(
        refused(working, &a, &z, &z, &[1, -2, -2, -2, -2, -2, 3, 4]),
        0
    );
    // L is that of the record's b.
    for (bits, largest) in [(8, 127), (9, 255), (12, 2047)] {
        let wide = Session { bits, ..working };
        let ends = [-largest, 0, 0, 0, 0, 0, largest];
        assert_eq!(refused(wide, &a, &z, &z, &ends), 0);
        for level in [largest + 1, -largest - 1, 32_767, -32_768] {
            let beyond = [level, 0, 0, 0, 0, 0, 0];
            assert_eq!(refused(wide, &a, &z, &z, &beyond), 23, "{bits} {level}");
        }
    }
}
