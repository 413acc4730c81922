//! Document 02, cards 3 and 7: P6 to P8 of document 01 through the bytes, and a refusal of each number.
//! The bytes are written out by hand.

use reference::firmware::{decode, Call};

/// Rows 0 1 3, 1 2 4, 2 3 5, 3 4 6, 0 4 5, 1 5 6, 0 2 6, two bytes a number, the low one first.
#[rustfmt::skip]
const LIST: [u8; 42] = [
    0, 0, 1, 0, 3, 0,
    1, 0, 2, 0, 4, 0,
    2, 0, 3, 0, 5, 0,
    3, 0, 4, 0, 6, 0,
    0, 0, 4, 0, 5, 0,
    1, 0, 5, 0, 6, 0,
    0, 0, 2, 0, 6, 0,
];

/// 0.5 is 2^−1: exponent field 126, 3F000000.
const HALF: u32 = 0x3F00_0000;

/// 0.5, then six of −1, BF800000.
#[rustfmt::skip]
const P6_SAMPLES: [u8; 28] = [
    0x00, 0x00, 0x00, 0x3F,
    0x00, 0x00, 0x80, 0xBF,
    0x00, 0x00, 0x80, 0xBF,
    0x00, 0x00, 0x80, 0xBF,
    0x00, 0x00, 0x80, 0xBF,
    0x00, 0x00, 0x80, 0xBF,
    0x00, 0x00, 0x80, 0xBF,
];

/// The float nearest 0.1 is 3DCCCCCD.
#[rustfmt::skip]
const P8_SAMPLES: [u8; 28] = [
    0xCD, 0xCC, 0xCC, 0x3D,
    0xCD, 0xCC, 0xCC, 0x3D,
    0xCD, 0xCC, 0xCC, 0x3D,
    0xCD, 0xCC, 0xCC, 0x3D,
    0xCD, 0xCC, 0xCC, 0x3D,
    0xCD, 0xCC, 0xCC, 0x3D,
    0xCD, 0xCC, 0xCC, 0x3D,
];

/// "Code A", "level step 0.5, b = 3, limit 5".
const P6: Call = Call {
    n: 7,
    m: 7,
    rho: 3,
    gamma: 3,
    list: &LIST,
    bits: 3,
    limit: 5,
    kind: 0,
    step: HALF,
    samples: &P6_SAMPLES,
};

/// Stands in every byte that is lent to be written.
const LENT: u8 = 0xA5;

/// The number, and the byte of the word, seven levels and the report, in buffers that are longer.
fn decoded(call: &Call) -> (u32, u8, [[u8; 2]; 7], [u8; 8]) {
    let (mut word, mut levels, mut report) = ([LENT; 3], [LENT; 17], [LENT; 11]);
    let number = decode(call, &mut word, &mut levels, &mut report);
    assert_eq!(word[1..], [LENT; 2]);
    assert_eq!(levels[14..], [LENT; 3]);
    assert_eq!(report[8..], [LENT; 3]);
    let seven = std::array::from_fn(|j| [levels[2 * j], levels[2 * j + 1]]);
    let eight = report[..8].try_into().expect("eight bytes");
    (number, word[0], seven, eight)
}

/// The number of a refused call. None of the three buffers is written.
fn refused_into<const W: usize, const L: usize, const R: usize>(call: &Call) -> u32 {
    let (mut word, mut levels, mut report) = ([LENT; W], [LENT; L], [LENT; R]);
    let number = decode(call, &mut word, &mut levels, &mut report);
    assert_eq!((word, levels, report), ([LENT; W], [LENT; L], [LENT; R]));
    number
}

/// The same with buffers that fit.
fn refused(call: &Call) -> u32 {
    refused_into::<1, 14, 8>(call)
}

/// The two bytes of 0, −1, −2 and −3: "two bytes a level, low byte first".
const MINUS: [[u8; 2]; 4] = [[0x00, 0x00], [0xFF, 0xFF], [0xFE, 0xFF], [0xFD, 0xFF]];

/// "00, decoded, rounds 1, changed 1, levels −2 and six times −3": FFFE and FFFD in two's complement.
#[test]
fn p6() {
    let three = MINUS[3];
    let levels = [MINUS[2], three, three, three, three, three, three];
    let report = [1, 0, 0, 0, 1, 0, 0, 0];
    assert_eq!(decoded(&P6), (0, 0x00, levels, report));
}

/// "P6 with limit 0: 80, failed, rounds 0, failing 3, changed 0." The levels are 1 and −2.
#[test]
fn p7() {
    let p7 = Call { limit: 0, ..P6 };
    let two = MINUS[2];
    let levels = [[0x01, 0x00], two, two, two, two, two, two];
    let report = [0, 0, 3, 0, 0, 0, 0, 0];
    assert_eq!(decoded(&p7), (1, 0x80, levels, report));
}

/// "P6's setting, seven samples 0.1: 00, decoded, rounds 1, changed 7, levels all −3." Card 6: "P8
/// then gives changed 0".
#[test]
fn p8() {
    let p8 = Call {
        samples: &P8_SAMPLES,
        ..P6
    };
    let report = [1, 0, 0, 0, 0, 0, 0, 0];
    assert_eq!(decoded(&p8), (0, 0x00, [MINUS[3]; 7], report));
}

/// Refusals 1 to 5. 1 × 65,536 = 0x1_0000, and so on.
#[test]
fn refusals_of_the_matrix() {
    assert_eq!(refused(&Call { n: 1, ..P6 }), 0x1_0000);
    let shorter = Call {
        list: &LIST[..40],
        ..P6
    };
    assert_eq!(refused(&shorter), 0x2_0000);

    // Entry 6, bytes 12 and 13, becomes 258: not below 7.
    let mut list = LIST;
    list[13] = 1;
    assert_eq!(refused(&Call { list: &list, ..P6 }), 0x3_0006);
    // Entry 2, the 3 of row 0, becomes 4: column 3 has two ones, and row 0 is 0 1 4.
    let mut list = LIST;
    list[4] = 4;
    assert_eq!(refused(&Call { list: &list, ..P6 }), 0x4_0003);
    // Rows 1 and 2 exchange 4 and 3: row 1 is 1 2 3, row 2 is 2 4 5. Row 0, 0 1 3, shares 1 and 3
    // with row 1.
    let mut list = LIST;
    (list[10], list[14]) = (3, 4);
    assert_eq!(refused(&Call { list: &list, ..P6 }), 0x5_0000);
}

/// Refusals 6, 7 and 8.
#[test]
fn refusals_of_the_block() {
    assert_eq!(refused(&Call { bits: 13, ..P6 }), 0x6_0000);
    assert_eq!(refused(&Call { limit: 256, ..P6 }), 0x6_0000);
    assert_eq!(refused(&Call { kind: 2, ..P6 }), 0x6_0000);
    // 2^20 is 49800000, 2^−20 is 35800000.
    for step in [0x4980_0001, 0x357F_FFFF, 0x7F80_0000, 0x7F80_0001] {
        assert_eq!(refused(&Call { step, ..P6 }), 0x6_0000, "{step:x}");
    }

    let samples = &P6_SAMPLES[..24];
    assert_eq!(refused(&Call { samples, ..P6 }), 0x7_0000);
    assert_eq!(refused_into::<0, 14, 8>(&P6), 0x7_0000);
    assert_eq!(refused_into::<1, 13, 8>(&P6), 0x7_0000);
    assert_eq!(refused_into::<1, 7, 8>(&P6), 0x7_0000);
    assert_eq!(refused_into::<1, 14, 7>(&P6), 0x7_0000);

    // Sample 4, bytes 16 to 19, becomes FF800000, minus infinity.
    let mut samples = P6_SAMPLES;
    samples[19] = 0xFF;
    let infinite = Call {
        samples: &samples,
        ..P6
    };
    assert_eq!(refused(&infinite), 0x8_0004);
}

/// "A wrong byte length is 2 for the list": 41 and 43 bytes have 20 and 21 numbers in them.
#[test]
fn odd_lengths() {
    let longer = [&LIST[..], &[0]].concat();
    for list in [&LIST[..41], &longer] {
        assert_eq!(refused(&Call { list, ..P6 }), 0x2_0000);
    }
    for count in [25, 26, 27] {
        let samples = &P6_SAMPLES[..count];
        assert_eq!(refused(&Call { samples, ..P6 }), 0x7_0000);
    }
    let longer = [&P6_SAMPLES[..], &[0]].concat();
    let samples = &longer;
    assert_eq!(refused(&Call { samples, ..P6 }), 0x7_0000);
}

/// The ends of the step's range are accepted: 2^20 takes each sample to level 0, 2^−20 to ±3.
#[test]
fn ends_of_the_steps_range() {
    let least = Call {
        limit: 0,
        step: 0x3580_0000,
        ..P6
    };
    let report = [0, 0, 3, 0, 0, 0, 0, 0];
    let three = MINUS[3];
    let levels = [[0x03, 0x00], three, three, three, three, three, three];
    assert_eq!(decoded(&least), (1, 0x80, levels, report));
    let most = Call {
        step: 0x4980_0000,
        ..least
    };
    assert_eq!(decoded(&most), (1, 0x80, [MINUS[0]; 7], report));
}
