//! Document 02, card 7: "Finer levels", by hand.

use reference::firmware::{self, Call};
use reference::{
    check_setting, iterative, level, narrow, open, quantise, step, widen, Answer, Matrix, Outcome,
    Refusal, Session, Setting, State,
};

fn code_a() -> Matrix {
    Matrix {
        n: 7,
        m: 7,
        rho: 3,
        gamma: 3,
        list: vec![
            0, 1, 3, 1, 2, 4, 2, 3, 5, 3, 4, 6, 0, 4, 5, 1, 5, 6, 0, 2, 6,
        ],
    }
}

fn level_step(bits: u16, limit: u16, step: f32) -> Setting {
    Setting {
        bits,
        limit,
        kind: 0,
        step,
    }
}

/// "each level the same number": all 256 over, and all but −128 back.
#[test]
fn all_old_numbers() {
    let old: Vec<i8> = (-128..=127).collect();
    let mut levels = vec![9_999; 259];
    assert_eq!(widen(&old, &mut levels), Ok(()));
    for (at, level) in (-128..=127).enumerate() {
        assert_eq!(levels[at], level);
    }
    assert_eq!(levels[256..], [9_999; 3]);

    let mut back = vec![55; 259];
    assert_eq!(
        narrow(&levels[..256], &mut back),
        Err(Refusal {
            number: 13,
            place: 0
        })
    );
    assert_eq!(back, [55; 259]);
    assert_eq!(narrow(&levels[1..256], &mut back), Ok(()));
    assert_eq!(back[..255], old[1..]);
    assert_eq!(back[255..], [55; 4]);
}

/// "where they lie within −127 to 127"; "its first index as place".
#[test]
fn levels_that_do_not_fit() {
    let taken = |levels: &[i16]| {
        let mut old = [55; 4];
        let answer = narrow(levels, &mut old);
        assert!(answer.is_ok() || old == [55; 4]);
        answer.map_or_else(|refusal| (refusal.number, refusal.place), |()| (0, 0))
    };
    assert_eq!(taken(&[127, -127, 0]), (0, 0));
    for level in [128, -128, 129, -129, 255, 256, 2047, -2047, 32_767, -32_768] {
        assert_eq!(taken(&[level, 0, 0]), (13, 0), "{level}");
        assert_eq!(taken(&[127, -127, level]), (13, 2), "{level}");
        assert_eq!(taken(&[0, level, level, -level.max(-32_767)]), (13, 1));
    }
}

/// 7: too few cells; for what is taken back, also more levels than a place can name. It is asked
/// first.
#[test]
fn lengths() {
    let plain_7 = Err(Refusal::plain(7));
    assert_eq!(widen(&[], &mut []), Ok(()));
    assert_eq!(narrow(&[], &mut []), Ok(()));
    let mut levels = [99; 2];
    assert_eq!(widen(&[1, 2, 3], &mut levels), plain_7);
    assert_eq!(levels, [99; 2]);
    assert_eq!(widen(&[-1], &mut levels), Ok(()));
    assert_eq!(levels, [-1, 99]);
    let mut old = [99; 2];
    assert_eq!(narrow(&[1, 2, 3], &mut old), plain_7);
    assert_eq!(narrow(&[300, 2, 3], &mut old), plain_7);
    assert_eq!(narrow(&[300], &mut []), plain_7);
    assert_eq!(old, [99; 2]);
    assert_eq!(narrow(&[-1], &mut old), Ok(()));
    assert_eq!(old, [-1, 99]);

    let mut levels = vec![5; 65_537];
    let mut old = vec![99; 65_537];
    assert_eq!(narrow(&levels, &mut old), plain_7);
    levels[0] = 128;
    assert_eq!(narrow(&levels, &mut old), plain_7);
    levels.pop();
    assert_eq!(narrow(&levels, &mut old), Err(Refusal::plain(13)));
    (levels[0], levels[65_535]) = (127, 128);
    assert_eq!(narrow(&levels, &mut old), Err(Refusal::at(13, 65_535)));
    assert_eq!(narrow(&levels, &mut old[..65_535]), plain_7);
    assert_eq!(old, vec![99; 65_537]);
    levels[65_535] = -127;
    assert_eq!(narrow(&levels, &mut old), Ok(()));
    assert_eq!(old[65_534..], [5, -127, 99]);
    // Bringing over names no place.
    let mut levels = vec![99; 65_537];
    assert_eq!(widen(&vec![-128; 65_537], &mut levels), Ok(()));
    assert_eq!(levels, vec![-128; 65_537]);
}

/// "Let b go to 12": L is 255, 511, 1,023 and 2,047. "Refusals 6 and 20 now take b as out of range
/// from 13".
#[test]
fn widths_from_9_to_12() {
    for (bits, largest) in [(9, 255), (10, 511), (11, 1023), (12, 2047)] {
        let by_step = level_step(bits, 5, 0.5);
        assert_eq!(check_setting(&by_step), Ok(()));
        // 2.25 is half-way between the levels 4 and 5.
        assert_eq!(level(&by_step, 2.25), 5);
        assert_eq!(level(&by_step, -2.25), -5);
        assert_eq!(level(&by_step, 2.25_f32.next_down()), 4);
        let end = 0.5 * largest as f32;
        assert_eq!(level(&by_step, end - 0.25), largest);
        assert_eq!(level(&by_step, (end - 0.25).next_down()), largest - 1);
        assert_eq!(level(&by_step, end + 0.25), largest);
        assert_eq!(level(&by_step, f32::MIN), -largest);
        let by_scale = Setting {
            kind: 1,
            step: largest as f32,
            ..by_step
        };
        assert_eq!(level(&by_scale, 4.5), 5);
        assert_eq!(level(&by_scale, -4.5_f32.next_down()), -4);
        assert_eq!(level(&by_scale, f32::MAX), largest);
    }
    assert_eq!(
        check_setting(&level_step(13, 5, 0.5)),
        Err(Refusal::plain(6))
    );
    let (mut levels, mut word) = ([99; 3], [0x5A]);
    let samples = [1.0e9, -1.0e9, 0.3];
    let quantised = quantise(&level_step(12, 0, 0.5), &samples, &mut levels, &mut word);
    assert_eq!(
        (quantised, levels, word),
        (Ok(()), [2047, -2047, 1], [0xA0])
    );
}

/// P6 with b = 12 and level step 2^−10: levels 512 and −1,024. Three checks speak against bit 0, one
/// for and two against each other bit, so that a round takes 3 from bit 0 and 1 from the others. After
/// 171 rounds bit 0 is at −1.
#[test]
fn p6_with_fine_levels() {
    let setting = level_step(12, 200, 1.0 / 1024.0);
    let samples = [0.5, -1.0, -1.0, -1.0, -1.0, -1.0, -1.0];
    let (mut word, mut levels) = ([0xA5], [99; 7]);
    let voted = iterative(&code_a(), &setting, &samples, &mut word, &mut levels);
    let answer = Answer {
        outcome: Outcome::Decoded,
        rounds: 171,
        failing: 0,
        changed: 1,
    };
    assert_eq!((voted, word), (Ok(answer), [0x00]));
    let low = -1024 - 171;
    assert_eq!(levels, [-1, low, low, low, low, low, low]);

    // One round, with bits 1 to 6 at the least level: the sum is cut to −2,047.
    let setting = level_step(12, 1, 1.0 / 1024.0);
    let samples = [2.0, -2.0, -2.0, -2.0, -2.0, -2.0, -9.0];
    let voted = iterative(&code_a(), &setting, &samples, &mut word, &mut levels);
    assert_eq!(voted.map(|answer| answer.outcome), Ok(Outcome::Failed));
    assert_eq!(levels, [2044, -2047, -2047, -2047, -2047, -2047, -2047]);

    // "two bytes a level, low byte first": 2,044 is 07FC, −2,047 is F801.
    let list: Vec<u8> = code_a().list.iter().flat_map(|&c| [c as u8, 0]).collect();
    let bytes: Vec<u8> = samples.iter().flat_map(|y| y.to_le_bytes()).collect();
    let call = Call {
        n: 7,
        m: 7,
        rho: 3,
        gamma: 3,
        list: &list,
        bits: 12,
        limit: 1,
        kind: 0,
        step: (1.0_f32 / 1024.0).to_bits(),
        samples: &bytes,
    };
    let (mut levels, mut report) = ([0x5A; 15], [0x5A; 8]);
    let short = firmware::decode(&call, &mut word, &mut levels[..13], &mut report);
    assert_eq!((short, levels), (0x7_0000, [0x5A; 15]));
    assert_eq!(
        firmware::decode(&call, &mut word, &mut levels, &mut report),
        1
    );
    assert_eq!(levels[..2], [0xFC, 0x07]);
    assert_eq!(levels[2..14], [0x01, 0xF8].repeat(6));
    assert_eq!(levels[14], 0x5A);
    assert_eq!(report, [1, 0, 3, 0, 0, 0, 0, 0]);
}

/// "Refusals 6 and 20 now take b as out of range from 13": the record's b, and its L.
#[test]
fn the_record_of_a_step() {
    let mut record = Session::EMPTY;
    let setting = level_step(12, 9, 0.5);
    let samples = [0.5, -1.0, -1.0, -1.0, -1.0, -1.0, -1.0];
    let (mut word, mut levels) = ([0], [0; 7]);
    let opened = open(
        &mut record,
        &code_a(),
        &setting,
        &samples,
        &mut word,
        &mut levels,
    );
    assert_eq!(opened.map(|answer| answer.outcome), Ok(Outcome::Working));
    assert_eq!((record.state, record.bits), (State::Working, 12));
    let stepped = |bits: u16, level: i16| {
        let mut record = Session { bits, ..record };
        let before = record;
        let (mut word, mut levels) = ([0x80], [level, 0, 0, 0, 0, 0, 0]);
        let answer = step(
            &mut record,
            &code_a(),
            &[0x80],
            &[1; 7],
            &mut word,
            &mut levels,
        );
        if answer.is_err() {
            assert_eq!((record, levels[0]), (before, level));
        }
        answer.map_or_else(|refusal| refusal.number, |_| 0)
    };
    for (bits, largest) in [(8, 127), (9, 255), (10, 511), (11, 1023), (12, 2047)] {
        assert_eq!(stepped(bits, largest), 0);
        assert_eq!(stepped(bits, -largest), 0);
        assert_eq!(stepped(bits, largest + 1), 23);
        assert_eq!(stepped(bits, -largest - 1), 23);
        assert_eq!(stepped(bits, -32_768), 23);
    }
    for bits in [13, 14, 16, 17, 65_535] {
        assert_eq!(stepped(bits, 0), 20);
    }
}
