//! The firmware's face refused: each length near the right one, each number at and beyond the ends
//! of its range. Of each call it is asked that a refused one writes nothing.

use differential::firmware::{list_bytes, refused, sizes_of, Block, Firmware, GOOD, REPORT};
use differential::{bytes_for, cases, random};
use generator::codes::{self, Code};
use generator::{settings, stream, Random};
use reference::firmware::Call;
use reference::Matrix;

/// A length so many more or fewer; none below 0.
fn off_by(length: usize, by: isize) -> Option<usize> {
    length.checked_add_signed(by)
}

/// All exponent fields 255: the infinite, each bit of the fraction alone, all of them, some others.
fn not_finite(random: &mut Random) -> Vec<u32> {
    let mut fractions = vec![0, 0x7F_FFFF, 0x3F_FFFF, 0x40_0001];
    fractions.extend((0..23).map(|place| 1 << place));
    fractions.extend((0..cases(20)).map(|_| 1 + random.below(0x7F_FFFF) as u32));
    let patterns = fractions.iter().map(|fraction| 0x7F80_0000 + fraction);
    patterns.flat_map(|bits| [bits, bits | 1 << 31]).collect()
}

/// Codes with and without spare places, the least n and the greatest.
fn some_codes() -> Vec<Code> {
    vec![
        codes::single_row(2),
        codes::triangle(),
        codes::code_a(),
        codes::single_row(8),
        codes::code_b(),
        codes::grid(4),
        codes::tanner155(),
        codes::euclidean(4),
        codes::cycle(1023),
    ]
}

/// The list in every length near the right one: the bytes count, not the entries.
#[test]
fn lengths_of_the_list() {
    let mut random = random(2100);
    let mut codes = some_codes();
    codes.push(codes::eg1023());
    for code in codes {
        let (h, right) = (&code.matrix, list_bytes(&code.matrix.list));
        let block = Block::by_chance(h.n.into(), &mut random);
        let entries = right.len() / 2;
        let others = [Some(0), Some(1), Some(entries), Some(2 * right.len())];
        let near = (-3..=3).map(|by| off_by(right.len(), by));
        for length in near.chain(others).flatten() {
            for fill in [0, random.byte()] {
                let mut bytes = right.clone();
                bytes.resize(length, fill);
                let firmware = Firmware::of_bytes(sizes_of(h), &bytes, &mut random);
                let left = firmware.decode(&block.longer(&mut random), &mut random);
                let refused = left.returned == refused(2, 0);
                assert_eq!(refused, length != right.len(), "{} {length}", code.name);
                assert!(refused || left.refusal() == 0);
            }
        }
    }
}

/// A call with lengths that fit, or one refused by 7 for them.
fn fits_or_7(firmware: &Firmware, block: &Block, fits: bool, random: &mut Random) {
    let left = firmware.decode(block, random);
    if fits {
        assert_eq!(left.refusal(), 0, "{block:?}");
    } else {
        assert_eq!(left.returned, refused(7, 0), "{block:?}");
    }
}

/// The samples in every length near the right one.
#[test]
fn lengths_of_the_samples() {
    let mut random = random(2101);
    for code in some_codes() {
        let n = usize::from(code.matrix.n);
        let firmware = Firmware::new(&code.matrix, &mut random);
        let right = Block::by_chance(n, &mut random);
        let others = [Some(0), Some(1), Some(n), Some(8 * n)];
        let near = (-5..=5).map(|by| off_by(4 * n, by));
        for length in near.chain(others).flatten() {
            for fill in [0, random.byte()] {
                let mut block = right.longer(&mut random);
                block.samples.resize(length, fill);
                fits_or_7(&firmware, &block, length == 4 * n, &mut random);
            }
        }
    }
}

/// Each written buffer in every length near the needed one.
#[test]
fn lengths_of_the_written() {
    let mut random = random(2113);
    for code in some_codes() {
        let n = usize::from(code.matrix.n);
        let firmware = Firmware::new(&code.matrix, &mut random);
        let right = Block::by_chance(n, &mut random);
        let needed = [bytes_for(n), 2 * n, REPORT];
        for buffer in 0..3 {
            let near = (-2..=2).map(|by| off_by(needed[buffer], by));
            for length in near
                .chain([Some(0), Some(1), Some(needed[buffer] / 2)])
                .flatten()
            {
                let mut block = right.longer(&mut random);
                let rooms = [
                    &mut block.for_word,
                    &mut block.for_levels,
                    &mut block.for_report,
                ];
                *rooms[buffer] = length;
                fits_or_7(&firmware, &block, length >= needed[buffer], &mut random);
            }
        }
    }
}

/// The three written buffers in every combination of lengths, in one call.
#[test]
fn lengths_together() {
    let mut random = random(2102);
    let code = codes::code_b();
    let firmware = Firmware::new(&code.matrix, &mut random);
    let right = Block::by_chance(9, &mut random);
    for for_word in 0..=4 {
        for for_levels in [0, 1, 8, 9, 10, 16, 17, 18, 19, 20, 36] {
            for for_report in [0, 1, 6, 7, 8, 9, 16] {
                let block = Block {
                    for_word,
                    for_levels,
                    for_report,
                    ..right.clone()
                };
                let fits = for_word >= 2 && for_levels >= 18 && for_report >= 8;
                fits_or_7(&firmware, &block, fits, &mut random);
            }
        }
    }
}

/// Steps that are infinite or no number, with each kind.
#[test]
fn steps_not_finite() {
    let mut random = random(2103);
    for code in [codes::code_a(), codes::single_row(2), codes::cycle(300)] {
        let firmware = Firmware::new(&code.matrix, &mut random);
        let right = Block::by_chance(code.matrix.n.into(), &mut random);
        for step in not_finite(&mut random) {
            for kind in [0, 1, 2, 65_535] {
                let block = Block {
                    step,
                    kind,
                    ..right.longer(&mut random)
                };
                let left = firmware.decode(&block, &mut random);
                assert_eq!(left.returned, refused(6, 0), "{step:08x} kind {kind}");
            }
        }
    }
}

/// Every pattern with exponent field 255, of both signs, with kind 0; with kind 1 every 61st. The
/// reference is asked about some of them in `steps_not_finite`.
#[test]
fn all_steps_not_finite() {
    let h = codes::single_row(2).matrix;
    let (list, samples) = (list_bytes(&h.list), stream::block(&[0.5, -0.5]));
    let mut call = Call {
        n: h.n,
        m: h.m,
        rho: h.rho,
        gamma: h.gamma,
        list: &list,
        bits: GOOD.bits,
        limit: GOOD.limit,
        kind: 0,
        step: GOOD.step.to_bits(),
        samples: &samples,
    };
    let (mut word, mut levels, mut report) = ([0xEE; 1], [0xEE; 4], [0xEE; REPORT]);
    let mut returned = |call: &Call| {
        let returned = firmware_face::decode(call, &mut word, &mut levels, &mut report);
        let stay = (word, levels, report) == ([0xEE; 1], [0xEE; 4], [0xEE; REPORT]);
        (returned, stay)
    };
    for (kind, every) in [(0, 1), (1, 61)] {
        call.kind = kind;
        for fraction in (0..1 << 23).step_by(every) {
            for sign in [0, 1 << 31] {
                call.step = sign + 0x7F80_0000 + fraction;
                assert_eq!(returned(&call), (refused(6, 0), true), "{call:?}");
            }
        }
    }
    // With a right step the same buffers are written. The bits 1 0 of levels ±15 stay for three
    // rounds, and their check fails.
    call.step = GOOD.step.to_bits();
    assert_eq!(returned(&call), (1, false));
}

/// "from 2^−20 to 2^20, both ends included".
const STEPS: [u32; 5] = [
    0x3580_0000,
    0x3580_0001,
    0x3F80_0000,
    0x497F_FFFF,
    0x4980_0000,
];

/// Zeros, steps without a leading one, the neighbours of the ends, the largest.
const BEYOND: [u32; 10] = [
    0x0000_0000,
    0x0000_0001,
    0x0040_0000,
    0x007F_FFFF,
    0x0080_0000,
    0x3500_0000,
    0x357F_FFFF,
    0x4980_0001,
    0x4A00_0000,
    0x7F7F_FFFF,
];

/// Steps of both signs, with each kind: only those of the range are accepted.
#[test]
fn ends_of_the_steps_range() {
    let mut random = random(2104);
    let firmware = Firmware::new(&codes::code_a().matrix, &mut random);
    let right = Block::by_chance(7, &mut random);
    let mut beyond = [&STEPS[..], &BEYOND].concat();
    beyond.iter_mut().for_each(|step| *step |= 1 << 31);
    beyond.extend(BEYOND);
    beyond.extend(STEPS.map(u32::swap_bytes));
    let others = settings::steps_out_of_range();
    beyond.extend(others.iter().map(|step| step.to_bits()));
    for &step in STEPS.iter().chain(&beyond) {
        for kind in [0, 1, 2, 256, 257, 65_535] {
            let block = Block {
                step,
                kind,
                ..right.longer(&mut random)
            };
            let left = firmware.decode(&block, &mut random);
            let fits = STEPS.contains(&step) && kind <= 1;
            let expected = if fits { 0 } else { refused(6, 0) };
            assert_eq!(left.returned & !1, expected, "{step:08x} kind {kind}");
        }
    }
}

/// The ends of the ranges of width, limit and kind and of a byte, and numbers beyond them.
const NUMBERS: [u16; 18] = [
    0, 1, 2, 3, 8, 9, 12, 13, 254, 255, 256, 257, 258, 264, 268, 512, 32_768, 65_535,
];

/// A change of the setting, and which numbers it is accepted with.
type Part = (fn(&mut Block, u16), fn(u16) -> bool);

const PARTS: [Part; 3] = [
    (
        |block, bits| block.bits = bits,
        |bits| (2..=12).contains(&bits),
    ),
    (|block, limit| block.limit = limit, |limit| limit <= 255),
    (|block, kind| block.kind = kind, |kind| kind <= 1),
];

/// Widths, limits and kinds out of range, one at a time.
#[test]
fn settings_out_of_range() {
    let mut random = random(2105);
    let firmware = Firmware::new(&codes::code_b().matrix, &mut random);
    let right = Block::by_chance(9, &mut random);
    for number in NUMBERS {
        for (change, accepted) in PARTS {
            let mut block = right.longer(&mut random);
            change(&mut block, number);
            let left = firmware.decode(&block, &mut random);
            let expected = if accepted(number) { 0 } else { refused(6, 0) };
            assert_eq!(left.returned & !1, expected, "{block:?}");
        }
    }
    for setting in settings::refused(&GOOD) {
        let block = Block::new(&setting, &[0.5; 9]);
        let left = firmware.decode(&block, &mut random);
        assert_eq!(left.returned, refused(6, 0), "{setting:?}");
    }
}

/// Samples that are infinite or no number: the place counts samples, and the first is given.
#[test]
fn samples_not_finite() {
    let mut random = random(2106);
    for code in some_codes() {
        let firmware = Firmware::new(&code.matrix, &mut random);
        let n = usize::from(code.matrix.n);
        let right = Block::by_chance(n, &mut random);
        let patterns = not_finite(&mut random);
        for &bits in &patterns {
            for place in [0, n / 2, n - 1] {
                let mut block = right.with_sample(place, bits);
                let left = firmware.decode(&block, &mut random);
                assert_eq!(left.returned, refused(8, place), "{bits:08x}");
                for later in place + 1..n {
                    if random.once_in(4) {
                        block = block.with_sample(later, *random.pick(&patterns));
                    }
                }
                let left = firmware.decode(&block.longer(&mut random), &mut random);
                assert_eq!(left.returned, refused(8, place), "{bits:08x}");
            }
        }
    }
}

/// Neighbours of the patterns with exponent field 255, and all other fields, are accepted.
#[test]
fn samples_of_every_exponent() {
    let mut random = random(2107);
    let firmware = Firmware::new(&codes::euclidean(4).matrix, &mut random);
    for fraction in [0, 1, 0x40_0000, 0x7F_FFFF] {
        for sign in [0, 1 << 31] {
            let samples: Vec<f32> = (0..255)
                .map(|field: u32| f32::from_bits(sign + (field << 23) + fraction))
                .collect();
            let left = firmware.decode(&Block::new(&GOOD, &samples), &mut random);
            assert_eq!(left.refusal(), 0, "{fraction:x}");
        }
    }
}

/// A place of each refusal that needs more than a byte.
#[test]
fn large_places() {
    let mut random = random(2108);
    let eg = codes::eg1023().matrix;
    let right = Block::by_chance(1023, &mut random);
    let mut compare = |h: &Matrix, block: &Block, expected: u32| {
        let firmware = Firmware::new(h, &mut random);
        let left = firmware.decode(block, &mut random);
        assert_eq!(left.returned, expected, "{expected:x}");
    };
    for place in [256, 16_384, 32_735] {
        let mut h = eg.clone();
        h.list[place] = 1023;
        compare(&h, &right, refused(3, place));
        h.list[place] = 65_535;
        compare(&h, &right, refused(3, place));
    }
    // Rows 300 and 900 of the cycle, 300 301 and 900 901, become 300 302 and 900 902.
    let mut h = codes::cycle(1023).matrix;
    (h.list[601], h.list[1801]) = (302, 902);
    compare(&h, &right, refused(4, 301));
    // Every column weighs 32 and none weighs 31: the place is n.
    let mut h = eg.clone();
    h.gamma = 31;
    compare(&h, &right, refused(4, 1023));
    // Two equal rows at 700 and 900, on columns of their own.
    let mut rows: Vec<Vec<usize>> = codes::cycle(1021).rows();
    rows.insert(700, vec![1021, 1022]);
    rows.insert(900, vec![1021, 1022]);
    let h = Code::from_rows("equal rows", 1023, &rows).matrix;
    compare(&h, &right, refused(5, 700));
    let last = right.with_sample(1022, f32::INFINITY.to_bits());
    compare(&eg, &last, refused(8, 1022));
}

/// Sizes at the ends of their ranges and beyond, with lists of a few lengths.
#[test]
fn sizes() {
    let mut random = random(2109);
    let extremes = [0, 1, 2, 3, 32, 33, 256, 1023, 1024, 32_768, 65_535];
    let all = |at: usize| std::array::from_fn(|k| extremes[at / 11_usize.pow(k as u32) % 11]);
    let right = Block::by_chance(7, &mut random);
    let mut seen = [0; 3];
    for sizes in (0..11_usize.pow(4)).map(all) {
        let [n, m, rho, gamma]: [u16; 4] = sizes;
        let fit = (2..=1023).contains(&n)
            && (1..=1023).contains(&m)
            && (2..=32).contains(&rho)
            && (1..=32).contains(&gamma)
            && u32::from(m) * u32::from(rho) >= u32::from(n) * u32::from(gamma);
        let length = *random.pick(&[0, 1, 2, 3, 42]);
        let bytes = random.bytes(length);
        let firmware = Firmware::of_bytes(sizes, &bytes, &mut random);
        let refusal = firmware.decode(&right, &mut random).refusal();
        assert_eq!(refusal == 1, !fit, "{sizes:?}");
        seen[refusal.min(2) as usize] += 1;
    }
    assert!(seen[1] > 10_000 && seen[2] > 100, "{seen:?}");
}
