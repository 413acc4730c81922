//! Card 7: levels of 9 to 12 bits in every call that has levels, and where b and ±L end.

use differential::firmware::{self, Block, Firmware, REPORT};
use differential::rule::{sample, with_limit};
use differential::{
    cases, levels_by_chance, narrow, quantise_exactly, random, widen, Indexed, Lent, Opened,
    Subject, Tried, WORKING,
};
use ffi_face::Packed;
use generator::codes;
use generator::{noise, patterns, settings, unlike, Random};
use reference::{largest_level, pack, Setting};

/// Every width and its L, as the papers have it.
const WIDTHS: [(u16, i16); 11] = [
    (2, 1),
    (3, 3),
    (4, 7),
    (5, 15),
    (6, 31),
    (7, 63),
    (8, 127),
    (9, 255),
    (10, 511),
    (11, 1023),
    (12, 2047),
];

/// The finer ones.
const FINE: [(u16, i16); 4] = [(9, 255), (10, 511), (11, 1023), (12, 2047)];

fn refused(number: u64, place: u64) -> Packed {
    Packed::new(number * 65536 + place, 0, 0, 0)
}

/// A block through every call: whole, with an index, for the firmware, and stepped. All say and
/// write the same. Gives the answer and the levels.
fn block(
    tried: &Tried,
    setting: &Setting,
    samples: &[f32],
    random: &mut Random,
) -> (Packed, Vec<i16>) {
    let (n, needed) = (tried.n(), tried.subject().needed());
    let left = tried
        .subject()
        .iterative(setting, samples, needed, n, random);
    let indexed = tried.indexed.block(setting, samples, random);
    assert_eq!(indexed.answer, left.answer);
    let block = Block::new(setting, samples).longer(random);
    let written = tried.firmware.decode(&block, random);
    assert_eq!(u64::from(written.returned), left.answer.0 % (1 << 32));
    if left.answer.refusal() == 0 {
        assert_eq!(indexed.levels[..n], left.levels);
        assert_eq!(written.signed()[..n], left.levels);
        tried.subject().stepped(setting, samples, random);
    }
    (left.answer, left.levels)
}

/// A codeword with one wrong place, whose level is twice its column's ones and one: all of its checks
/// fail, so that two rounds leave level 1 and the third turns it.
fn three_rounds(tried: &Tried, setting: &Setting, random: &mut Random) -> Vec<f32> {
    let sent = tried.codewords.random(random);
    let wrong = random.below(tried.n());
    let ones = tried.code.columns()[wrong].len();
    let magnitude = |j: usize| if j == wrong { 2 * ones + 1 } else { 20 };
    patterns::flipped(&sent, &[wrong])
        .into_iter()
        .enumerate()
        .map(|(j, bit)| sample(setting, bit, magnitude(j) as i32, random))
        .collect()
}

/// A codeword with noise, its strongest samples at about this level.
fn received(tried: &Tried, setting: &Setting, strongest: f32, random: &mut Random) -> Vec<f32> {
    let deviation = *random.pick(&[0.3, 0.5, 0.7, 1.0, 3.0]);
    let sent = tried.codewords.random(random);
    let unit = match setting.kind {
        0 => setting.step,
        _ => setting.step / largest_level(setting.bits) as f32,
    };
    noise::received(&sent, deviation, random)
        .into_iter()
        .map(|sample| sample * strongest * unit)
        .collect()
}

/// Which b is accepted, in each call: from 2 to 12.
#[test]
fn widths_of_every_call() {
    let mut random = random(2900);
    let tried = Tried::new(codes::code_b(), &mut random);
    let samples = [0.5, -0.5, 0.1, -0.1, 9.0, -9.0, 0.0, -0.0, 0.5];
    let mut widths: Vec<u16> = (0..=40).collect();
    widths.extend([
        254, 255, 256, 258, 264, 265, 268, 269, 32_768, 32_780, 65_535,
    ]);
    for bits in widths {
        for kind in [0, 1] {
            let setting = Setting {
                kind,
                ..settings::level_step(bits, 3, 0.25)
            };
            let expected = if (2..=12).contains(&bits) { 0 } else { 6 };
            let quantised = quantise_exactly(&setting, &samples, &mut random);
            assert_eq!(quantised.answer.refusal(), expected, "{bits}");
            let (answer, _) = block(&tried, &setting, &samples, &mut random);
            assert_eq!(answer.refusal(), expected, "{bits}");
            let mut lent = Lent::by_chance(tried.subject(), &mut random);
            let opened = tried
                .subject()
                .open(&mut lent, &setting, &samples, &mut random);
            assert_eq!(opened.refusal(), expected, "{bits}");
        }
    }
}

/// Both ends of the levels, the last half-way below L and beyond, for both kinds of step.
#[test]
fn samples_at_the_ends() {
    let mut random = random(2901);
    for (bits, largest) in WIDTHS {
        let l = f32::from(largest);
        for exponent in [-20, -8, -1, 0, 3, 8] {
            // A full scale of L × 2^e has the half-ways of the level step 2^e, and all of these
            // samples are floats.
            let unit = 2.0_f32.powi(exponent);
            for setting in [
                settings::level_step(bits, 0, unit),
                settings::full_scale(bits, 0, l * unit),
            ] {
                let half_way = (l - 0.5) * unit;
                let samples = [
                    l * unit,
                    half_way,
                    half_way.next_down(),
                    (l + 0.5) * unit,
                    (l + 1.0) * unit,
                    f32::MAX,
                    0.5 * unit,
                    (0.5 * unit).next_down(),
                ];
                let levels = [
                    largest,
                    largest,
                    largest - 1,
                    largest,
                    largest,
                    largest,
                    1,
                    0,
                ];
                let left = quantise_exactly(&setting, &samples, &mut random);
                assert_eq!((left.answer, &left.levels[..]), (Packed(0), &levels[..]));
                let left = quantise_exactly(&setting, &samples.map(|y| -y), &mut random);
                let negative = levels.map(|level| -level);
                assert_eq!((left.answer, &left.levels[..]), (Packed(0), &negative[..]));
            }
        }
    }
}

/// Every level of every width, as a whole number of steps, and the half-way before it.
#[test]
fn every_level() {
    let mut random = random(2902);
    for (bits, largest) in WIDTHS {
        let settings = [
            settings::level_step(bits, 0, 1.0),
            settings::full_scale(bits, 0, largest.into()),
        ];
        let levels: Vec<i16> = (-largest..=largest).collect();
        for setting in settings {
            for levels in levels.chunks(1023) {
                let samples: Vec<f32> = levels.iter().map(|&level| level.into()).collect();
                let left = quantise_exactly(&setting, &samples, &mut random);
                assert_eq!(left.levels, levels, "{setting:?}");
                // Half a step toward zero is a half-way, which goes away from zero.
                let inward = |&level: &i16| f32::from(level) - 0.5 * f32::from(level.signum());
                let samples: Vec<f32> = levels.iter().map(inward).collect();
                let left = quantise_exactly(&setting, &samples, &mut random);
                assert_eq!(left.levels, levels, "{setting:?}");
            }
        }
    }
}

/// P6 with 12 bits and level step 2^−10: bit 0 has level 512, from which each round takes 3, and the
/// others −1,024, from which it takes 1. It comes back in round 171, with level −1.
#[test]
fn p6_with_fine_levels() {
    let mut random = random(2903);
    let tried = Tried::new(codes::code_a(), &mut random);
    let samples = [0.5, -1.0, -1.0, -1.0, -1.0, -1.0, -1.0];
    let by_step = settings::level_step(12, 171, 2.0_f32.powi(-10));
    let by_scale = settings::full_scale(12, 171, 2047.0 / 1024.0);
    for setting in [by_step, by_scale] {
        let (answer, levels) = block(&tried, &setting, &samples, &mut random);
        assert_eq!(answer, Packed::new(0, 171, 0, 1));
        let low = -1024 - 171;
        assert_eq!(levels, [-1, low, low, low, low, low, low]);
        let one_less = Setting {
            limit: 170,
            ..setting
        };
        let (answer, levels) = block(&tried, &one_less, &samples, &mut random);
        assert_eq!(answer, Packed::new(1, 170, 3, 0));
        assert_eq!(levels[..2], [2, -1024 - 170]);
    }
}

/// Code A, bit 0 at L or above and the others at −L or below: a round takes 3 from L, and the others are
/// cut at −L. With the signs of the codeword 2E the others are cut at L.
#[test]
fn sums_are_cut_at_both_ends() {
    let mut random = random(2904);
    let tried = Tried::new(codes::code_a(), &mut random);
    for (bits, l) in WIDTHS.into_iter().skip(2) {
        let setting = settings::level_step(bits, 1, 0.5);
        let samples = [1e9, -1e9, -1e9, -1e9, -1e9, -1e9, -1e9];
        let (answer, levels) = block(&tried, &setting, &samples, &mut random);
        assert_eq!(answer, Packed::new(1, 1, 3, 0), "{bits}");
        assert_eq!(levels, [l - 3, -l, -l, -l, -l, -l, -l]);
        // 2E is bits 2, 4, 5 and 6; bit 0 is wrong.
        let samples = [1e9, -1e9, 1e9, -1e9, 1e9, 1e9, 1e9];
        let (answer, levels) = block(&tried, &setting, &samples, &mut random);
        assert_eq!(answer, Packed::new(1, 1, 3, 0), "{bits}");
        assert_eq!(levels, [l - 3, -l, l, -l, l, l, l]);
    }
}

/// The bytes of the C face: those levels, low byte first, and what lies beyond them stays.
#[test]
fn bytes_of_levels() {
    let mut random = random(2905);
    let code = codes::single_row(8);
    let firmware = Firmware::new(&code.matrix, &mut random);
    let samples = [2047.0, -2047.0, 256.0, -256.0, 255.0, -255.0, 1.0, -1.0_f32];
    let bytes = [
        0xFF, 0x07, 0x01, 0xF8, 0x00, 0x01, 0x00, 0xFF, 0xFF, 0x00, 0x01, 0xFF, 0x01, 0x00, 0xFF,
        0xFF,
    ];
    let right = Block::new(&settings::level_step(12, 0, 1.0), &samples);
    assert_eq!((right.for_levels, right.for_report), (16, REPORT));
    for for_levels in 0..=40 {
        let block = Block {
            for_levels,
            ..right.clone()
        };
        let left = firmware.decode(&block, &mut random);
        if for_levels < 16 {
            assert_eq!(left.returned, firmware::refused(7, 0), "{for_levels}");
        } else {
            assert_eq!((left.refusal(), &left.levels[..16]), (0, &bytes[..]));
        }
    }
}

/// Level buffers of 2n − 1, 2n and 2n + 1 bytes with every width; the last byte of the longest stays.
#[test]
fn lengths_of_the_level_bytes() {
    let mut random = random(2906);
    for code in [
        codes::single_row(2),
        codes::code_a(),
        codes::code_b(),
        codes::tanner155(),
        codes::cycle(1023),
    ] {
        let tried = Tried::new(code, &mut random);
        let n = tried.n();
        for (bits, _) in WIDTHS {
            for kind in [0, 1] {
                let setting = settings::around_one(bits, 2, kind, &mut random);
                let samples = received(&tried, &setting, 9.0, &mut random);
                let (_, levels) = block(&tried, &setting, &samples, &mut random);
                let bytes: Vec<u8> = levels
                    .iter()
                    .flat_map(|level| level.to_le_bytes())
                    .collect();
                for for_levels in [n, 2 * n - 1, 2 * n, 2 * n + 1] {
                    let block = Block {
                        for_levels,
                        ..Block::new(&setting, &samples)
                    };
                    // That the bytes beyond stay, `decode` compares.
                    let left = tried.firmware.decode(&block, &mut random);
                    if for_levels < 2 * n {
                        assert_eq!(left.returned, firmware::refused(7, 0));
                    } else {
                        assert_eq!((left.refusal(), &left.levels[..2 * n]), (0, &bytes[..]));
                    }
                }
            }
        }
    }
}

/// What the blocks ended with: at once, later, failed, and the largest magnitude of a level.
#[derive(Debug, Default)]
struct Seen {
    at_once: usize,
    later: usize,
    failed: usize,
    farthest: u16,
}

impl Seen {
    fn count(&mut self, answer: Packed, levels: &[i16]) {
        match (answer.place(), (answer.0 >> 32) % 256) {
            (0, 0) => self.at_once += 1,
            (0, _) => self.later += 1,
            _ => self.failed += 1,
        }
        let farthest = levels.iter().map(|level| level.unsigned_abs()).max();
        self.farthest = self.farthest.max(farthest.unwrap_or(0));
    }
}

/// Blocks of finer levels in every call, weak ones that a few rounds turn and strong ones.
fn compare(tried: &Tried, limits: &[u16], times: usize, seen: &mut Seen, random: &mut Random) {
    for (bits, largest) in FINE {
        for kind in [0, 1] {
            for _ in 0..times {
                let setting = Setting {
                    kind,
                    ..settings::level_step(bits, *random.pick(limits), settings::some_step(random))
                };
                let strongest = *random.pick(&[1.5, 4.0, 20.0, 200.0, largest.into()]);
                let samples = received(&tried, &setting, strongest, random);
                let (answer, levels) = block(&tried, &setting, &samples, random);
                assert_eq!(answer.refusal(), 0, "{}", tried.code.name);
                seen.count(answer, &levels);
            }
        }
    }
}

#[test]
fn small_codes() {
    let mut random = random(2907);
    let mut seen = Seen::default();
    for code in codes::small() {
        let tried = Tried::new(code, &mut random);
        let limits = [0, 1, 5, 30, 255];
        compare(&tried, &limits, cases(3), &mut seen, &mut random);
    }
    assert!(
        seen.at_once > 50 && seen.later > 50 && seen.failed > 50,
        "{seen:?}"
    );
    assert_eq!(seen.farthest, 2047);
}

#[test]
fn medium_codes() {
    let mut random = random(2908);
    let mut seen = Seen::default();
    for code in codes::medium() {
        let tried = Tried::new(code, &mut random);
        compare(&tried, &[1, 5, 12], cases(1), &mut seen, &mut random);
    }
    assert!(seen.later > 20 && seen.failed > 20, "{seen:?}");
}

/// Blocks with noise, and some that are decoded in the third round and not in the second.
#[test]
fn large_codes() {
    let mut random = random(2909);
    let mut seen = Seen::default();
    for code in [
        codes::eg1023(),
        codes::qc961(),
        codes::cycle(1023),
        unlike::irregular1000(),
    ] {
        let tried = Tried::new(code, &mut random);
        for bits in [9, 12] {
            let limit = *random.pick(&[2, 5, 8]);
            let setting = settings::level_step(bits, limit, 0.01);
            let samples = received(&tried, &setting, 20.0, &mut random);
            let (answer, _) = block(&tried, &setting, &samples, &mut random);
            assert_eq!(answer.refusal(), 0, "{}", tried.code.name);
            let samples = three_rounds(&tried, &setting, &mut random);
            for limit in [2, 3] {
                let setting = with_limit(&setting, limit);
                let (answer, levels) = block(&tried, &setting, &samples, &mut random);
                seen.count(answer, &levels);
            }
        }
    }
    // Four codes with two widths; how the blocks with noise end is left to chance.
    let ended = (seen.at_once, seen.later, seen.failed);
    assert_eq!(ended, (0, 8, 8));
}

/// A record working on this subject's sizes, with a word by chance and all levels 0.
fn in_its_midst(subject: &Subject, bits: u16, random: &mut Random) -> (Lent, Opened) {
    let h = subject.matrix();
    let n = usize::from(h.n);
    let mut lent = Lent::by_chance(subject, random);
    lent.record = vec![1, bits, 30, 7, h.n, h.m, h.rho, h.gamma];
    let word = pack(&random.bits(n));
    lent.word[..word.len()].copy_from_slice(&word);
    lent.levels[..n].fill(0);
    (lent, Opened::by_chance(subject, random))
}

/// The refusal of a step of which nothing is kept.
fn refusal(subject: &Subject, lent: &Lent, opened: &Opened, random: &mut Random) -> u64 {
    subject.step(&mut lent.clone(), opened, random).refusal()
}

/// 23 by the L of the record's b: L is accepted and L + 1 is not, of both signs and at every place; −32,768
/// is beyond, whatever b is.
#[test]
fn levels_beyond_the_records_own() {
    let mut random = random(2910);
    for code in [codes::code_a(), codes::code_b(), codes::tanner155()] {
        let subject = Subject::new(&code.matrix, &mut random);
        let n = usize::from(code.matrix.n);
        for (bits, largest) in WIDTHS {
            let (good, opened) = in_its_midst(&subject, bits, &mut random);
            for place in [0, 1, n / 2, n - 1, random.below(n)] {
                let mut with = |level: i16| {
                    let mut lent = good.clone();
                    lent.levels[place] = level;
                    refusal(&subject, &lent, &opened, &mut random)
                };
                assert_eq!([with(largest), with(-largest)], [0, 0], "{bits}");
                for level in [largest + 1, -largest - 1, 32_767, -32_767, -32_768] {
                    assert_eq!(with(level), 23, "{level} of {bits} bits");
                }
            }
        }
        // 128 of a record of eight bits and of nine.
        for (bits, expected) in [(8, 23), (9, 0), (12, 0)] {
            let (mut lent, opened) = in_its_midst(&subject, bits, &mut random);
            for level in [128, -128] {
                lent.levels[n - 1] = level;
                assert_eq!(refusal(&subject, &lent, &opened, &mut random), expected);
            }
        }
    }
}

/// 20 by the record's b: 12 is usable and 13 is not, whatever else would be refused. A record that has
/// ended is 21.
#[test]
fn widths_of_the_record() {
    let mut random = random(2911);
    let code = codes::code_b();
    let subject = Subject::new(&code.matrix, &mut random);
    let mut damaged = code.matrix.clone();
    damaged.list[3] = 9;
    let other = Subject::new(&damaged, &mut random);
    for bits in (0..=20).chain([255, 256, 258, 268, 32_780, 65_535]) {
        let (good, opened) = in_its_midst(&subject, bits, &mut random);
        let fits = (2..=12).contains(&bits);
        let mut expect = |lent: &Lent, number: u64, on: &Subject, opened: &Opened| {
            let refusal = refusal(on, lent, opened, &mut random);
            let expected = if fits { number } else { 20 };
            assert_eq!(refusal, expected, "{bits}, else {number}");
        };
        expect(&good, 0, &subject, &opened);
        expect(&good, 3, &other, &opened);
        let mut lent = good.clone();
        lent.record[4] = 10;
        expect(&lent, 22, &subject, &opened);
        let mut lent = good.clone();
        lent.levels.truncate(8);
        expect(&lent, 7, &subject, &opened);
        let short = Opened {
            levels: levels_by_chance(8, &mut Random::new(bits.into())),
            ..opened.clone()
        };
        expect(&good, 7, &subject, &short);
        let mut set = opened.clone();
        set.received[1] |= 1;
        expect(&good, 9, &subject, &set);
        let mut lent = good.clone();
        lent.levels[4] = -32_768;
        expect(&lent, 23, &subject, &opened);
        for state in [2, 3] {
            let mut lent = good.clone();
            lent.record[0] = state;
            let refusal = refusal(&subject, &lent, &opened, &mut random);
            assert_eq!(refusal, 21, "{bits}");
        }
    }
}

/// b = 13 in the setting, and 12, beside each other cause of an opening and of a whole call: 1 to 5 come
/// before it, 10 too, 7 and 8 after it.
#[test]
fn thirteen_bits_among_other_causes() {
    let mut random = random(2912);
    let code = codes::code_b();
    let good = vec![0.5; 9];
    let mut not_finite = good.clone();
    not_finite[6] = f32::NAN;
    for (bits, expected) in [(12, [0, 3, 10, 7, 7, 8]), (13, [6, 3, 10, 6, 6, 6])] {
        let setting = settings::level_step(bits, 3, 0.25);
        let mut damaged = code.matrix.clone();
        damaged.list[3] = 9;
        let right = Indexed::new(&code.matrix, &mut random);
        let wrong = Indexed::new(&damaged, &mut random);
        let own = right.own();
        let mut call = |on: &Indexed, index: &[u16], samples: &[f32], rooms| {
            let left = on.iterative(index, &setting, samples, rooms, &mut random);
            left.answer.refusal()
        };
        let met = [
            call(&right, own, &good, (2, 9)),
            call(&wrong, own, &good, (2, 9)),
            call(&right, &own[1..], &good, (2, 9)),
            call(&right, own, &good, (2, 8)),
            call(&right, own, &good[1..], (2, 9)),
            call(&right, own, &not_finite, (2, 9)),
        ];
        assert_eq!(met, expected, "{bits}");
        let mut open = |on: &Subject, samples: &[f32], for_levels: usize| {
            let mut lent = Lent::by_chance(on, &mut random);
            lent.levels.resize(for_levels, -32_768);
            let answer = on.open(&mut lent, &setting, samples, &mut random);
            answer.refusal()
        };
        let met = [
            open(right.subject(), &good, 9),
            open(wrong.subject(), &good, 9),
            open(right.subject(), &good, 8),
            open(right.subject(), &good[1..], 9),
            open(right.subject(), &not_finite, 9),
        ];
        let [accepted, matrix, _, buffer, samples, sample] = expected;
        assert_eq!(met, [accepted, matrix, buffer, samples, sample], "{bits}");
    }
}

/// A session opened with another b than a step's record has: the levels are asked by the record's.
#[test]
fn another_width_between_steps() {
    let mut random = random(2913);
    let code = codes::tanner155();
    let tried = Tried::new(code, &mut random);
    let (subject, n) = (tried.subject(), tried.n());
    for (bits, largest) in WIDTHS {
        for (other, other_largest) in WIDTHS {
            let setting = settings::level_step(bits, 9, 0.5);
            let samples: Vec<f32> = (0..n).map(|j| [1e9, -1e9, 0.3][j % 3]).collect();
            let mut lent = Lent::by_chance(subject, &mut random);
            let answer = subject.open(&mut lent, &setting, &samples, &mut random);
            assert_eq!(answer.place(), WORKING);
            let opened = Opened::of(subject, &lent);
            lent.record[1] = other;
            let stepped = subject.step(&mut lent, &opened, &mut random);
            let expected = if largest > other_largest { 23 } else { 0 };
            assert_eq!(stepped.refusal(), expected, "{bits} then {other}");
        }
    }
}

/// Levels of up to eight bits are taken back, from the quantiser and after rounds; a session goes on with
/// its levels brought over, those of the opening too. Levels of more bits are taken back where they fit.
#[test]
fn sessions_go_on_with_levels_brought_over() {
    let mut random = random(2914);
    for code in [codes::small(), vec![codes::tanner155()]].concat() {
        let tried = Tried::new(code, &mut random);
        let (subject, n) = (tried.subject(), tried.n());
        for (bits, largest) in WIDTHS {
            let setting = settings::around_one(bits, 6, 0, &mut random);
            let strongest = *random.pick(&[2.0, f32::from(largest)]);
            let samples = received(&tried, &setting, strongest, &mut random);
            let whole = subject.iterative(&setting, &samples, subject.needed(), n, &mut random);
            let mut lent = Lent::by_chance(subject, &mut random);
            let mut answer = subject.open(&mut lent, &setting, &samples, &mut random);
            let mut opened = Opened::of(subject, &lent);
            loop {
                let back = stored_and_brought_over(&opened.levels, &mut random);
                assert!(bits > 8 || back.is_some());
                opened.levels = back.unwrap_or(opened.levels);
                if let Some(levels) = stored_and_brought_over(&lent.levels[..n], &mut random) {
                    lent.levels[..n].copy_from_slice(&levels);
                } else {
                    assert!(bits > 8);
                }
                if answer.place() != WORKING {
                    break;
                }
                answer = subject.step(&mut lent, &opened, &mut random);
            }
            assert_eq!(
                (answer, &lent.levels[..n]),
                (whole.answer, &whole.levels[..])
            );
        }
    }
}

/// Levels taken back and brought over again, where they fit: the same numbers.
fn stored_and_brought_over(levels: &[i16], random: &mut Random) -> Option<Vec<i16>> {
    let too_far = levels
        .iter()
        .position(|level| !(-127..=127).contains(level));
    let (answer, old) = narrow(levels, levels.len(), random);
    if let Some(place) = too_far {
        assert_eq!(answer, refused(13, place as u64));
        return None;
    }
    assert_eq!(answer, Packed(0));
    let (answer, over) = widen(&old, old.len(), random);
    assert_eq!((answer, &over[..]), (Packed(0), levels));
    Some(over)
}
