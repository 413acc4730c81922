//! Sessions refused: the record's fields one by one, buffers, the number of the opening's levels, spare
//! places, levels out of range, and the order in which a step asks.

use differential::causes::{matrix_with, subset, PLACES};
use differential::{cases, level_by_chance, levels_by_chance, random, Lent, Opened, Subject};
use ffi_face::Packed;
use generator::codes::{self, Code};
use generator::{damage, settings, Codewords, Random};
use reference::{largest_level, pack, Setting};

fn refused(number: u64, place: u64) -> Packed {
    Packed::new(number * 65536 + place, 0, 0, 0)
}

/// A session in its midst: the record is working, word and levels fit, and so does what is lent of the
/// opening.
fn in_its_midst(subject: &Subject, bits: u16, random: &mut Random) -> (Lent, Opened) {
    let h = subject.matrix();
    let n = usize::from(h.n);
    let mut lent = Lent::by_chance(subject, random);
    lent.record = vec![1, bits, 30, 7, h.n, h.m, h.rho, h.gamma];
    let word = pack(&random.bits(n));
    lent.word[..word.len()].copy_from_slice(&word);
    let largest = largest_level(bits);
    for level in &mut lent.levels[..n] {
        *level = (random.below(2 * largest as usize + 1) as i32 - largest) as i16;
    }
    (lent, Opened::by_chance(subject, random))
}

/// Codes with every number of spare places.
fn some_codes() -> Vec<Code> {
    let mut codes = codes::small();
    codes.extend([codes::tanner155(), codes::euclidean(4)]);
    codes
}

/// The answer to a step of which nothing is kept.
fn answer(subject: &Subject, lent: &Lent, opened: &Opened, random: &mut Random) -> Packed {
    subject.step(&mut lent.clone(), opened, random)
}

/// The refusal of a record whose width alone is set to another: one that is narrower may find levels beyond
/// its own.
fn of_width(bits: u16, levels: &[i16]) -> u64 {
    if !(2..=12).contains(&bits) {
        return 20;
    }
    let largest = largest_level(bits);
    match levels.iter().any(|&level| i32::from(level).abs() > largest) {
        true => 23,
        false => 0,
    }
}

/// The refusal of a record of which another field alone is set from `is` to this value.
fn of_field(field: usize, value: u16, is: u16) -> u64 {
    match (field, value) {
        (0, 1) => 0,
        (0, 2 | 3) => 21,
        (2, 8..=255) => 0,
        (3, 0..30) => 0,
        (0 | 2 | 3, _) => 20,
        _ if value == is => 0,
        _ => 22,
    }
}

/// Each field of the record set to other values, alone.
#[test]
fn every_field_of_the_record() {
    let mut random = random(1400);
    let mut by_levels = [0; 2];
    for code in some_codes() {
        let subject = Subject::new(&code.matrix, &mut random);
        let n = usize::from(code.matrix.n);
        for bits in [2, 5, 8, 12] {
            let (lent, opened) = in_its_midst(&subject, bits, &mut random);
            assert_eq!(answer(&subject, &lent, &opened, &mut random).refusal(), 0);
            for field in 0..8 {
                let is = lent.record[field];
                let mut values = vec![
                    0, 1, 2, 3, 4, 5, 6, 7, 8, 9, 12, 13, 14, 29, 30, 31, 254, 255, 256, 257, 1023,
                    1024, 32_768, 65_535,
                ];
                values.extend([is.wrapping_sub(1), is + 1, is + 256, is + 32_768]);
                for value in values {
                    let mut lent = lent.clone();
                    lent.record[field] = value;
                    let answer = answer(&subject, &lent, &opened, &mut random);
                    let expected = match field {
                        1 => of_width(value, &lent.levels[..n]),
                        _ => of_field(field, value, is),
                    };
                    if field == 1 && (2..=12).contains(&value) {
                        by_levels[usize::from(expected == 23)] += 1;
                    }
                    assert_eq!(answer.refusal(), expected, "field {field}, value {value}");
                }
            }
        }
    }
    // Other widths, accepted and refused.
    assert!(by_levels.iter().all(|&count| count > 50), "{by_levels:?}");
}

/// The record is empty or has ended: nothing else of it is asked.
#[test]
fn records_that_are_not_working() {
    let mut random = random(1401);
    let subject = Subject::new(&codes::code_b().matrix, &mut random);
    for state in [0, 2, 3, 4, 7, 256, 258, 65_535] {
        for _ in 0..cases(50) {
            let (mut lent, opened) = in_its_midst(&subject, 4, &mut random);
            lent.record[0] = state;
            if random.once_in(2) {
                let field = 1 + random.below(7);
                lent.record[field] = random.number() as u16;
            }
            let number = if state == 2 || state == 3 { 21 } else { 20 };
            let answer = answer(&subject, &lent, &opened, &mut random);
            assert_eq!(answer, refused(number, 0));
        }
    }
}

/// A record of another length than eight is refused as 7 before anything else is asked.
#[test]
fn records_of_another_length() {
    let mut random = random(1402);
    for code in [codes::code_a().matrix, matrix_with([true; 5])] {
        let subject = Subject::new(&code, &mut random);
        let n = usize::from(code.n);
        for length in [0, 1, 7, 9, 16, 264] {
            for state in 0..5 {
                let (mut lent, opened) = in_its_midst(&subject, 4, &mut random);
                lent.record[0] = state;
                lent.record.resize(length, 3);
                let answer = answer(&subject, &lent, &opened, &mut random);
                assert_eq!(answer, refused(7, 0));
                let good = settings::some(&mut random);
                let setting = match random.below(2) {
                    0 => good,
                    _ => *random.pick(&settings::refused(&good)),
                };
                let answer = subject.open(&mut lent, &setting, &vec![1.0; n], &mut random);
                assert_eq!(answer, refused(7, 0));
            }
        }
    }
}

#[test]
fn buffers_of_a_step() {
    let mut random = random(1403);
    for code in some_codes() {
        let subject = Subject::new(&code.matrix, &mut random);
        let (n, needed) = (usize::from(code.matrix.n), subject.needed());
        let (good, good_opened) = in_its_midst(&subject, 6, &mut random);
        let mut good = good;
        good.word.resize(needed + 9, 0xFF);
        good.levels.resize(n + 9, -32_768);
        for for_word in [0, needed - 1, needed, needed + 1, needed + 9] {
            for for_levels in [0, n - 1, n, n + 1, n + 9] {
                for length in [0, needed - 1, needed, needed + 1] {
                    for count in [0, n - 1, n, n + 1] {
                        let mut lent = good.clone();
                        lent.word.truncate(for_word);
                        lent.levels.truncate(for_levels);
                        let mut opened = good_opened.clone();
                        opened.received.resize(length, 0);
                        opened.levels.resize(count, 0);
                        let answer = answer(&subject, &lent, &opened, &mut random);
                        let written = for_word >= needed && for_levels >= n;
                        let fits = written && length == needed && count == n;
                        assert_eq!(answer == refused(7, 0), !fits, "{}", code.name);
                    }
                }
            }
        }
    }
}

/// The opening's levels: exactly n of them. One fewer, one more, none, and as many as 16 bits take for
/// n; of any numbers.
#[test]
fn the_number_of_the_openings_levels() {
    let mut random = random(1410);
    for code in [some_codes(), codes::large()].concat() {
        let subject = Subject::new(&code.matrix, &mut random);
        let n = usize::from(code.matrix.n);
        let (lent, good) = in_its_midst(&subject, 5, &mut random);
        assert_eq!(answer(&subject, &lent, &good, &mut random).refusal(), 0);
        let others = [0, 1, n - 1, n + 1, n + 8, 2 * n, 65_536, 65_536 + n];
        for count in others.into_iter().filter(|&count| count != n) {
            let mut opened = good.clone();
            opened.levels = levels_by_chance(count, &mut random);
            let answer = answer(&subject, &lent, &opened, &mut random);
            assert_eq!(answer, refused(7, 0), "{}, {count} levels", code.name);
        }
    }
}

/// What the opening's levels hold is never asked: levels that would be beyond ±L, at every place and at
/// all of them.
#[test]
fn the_numbers_of_the_openings_levels() {
    let mut random = random(1411);
    for code in some_codes() {
        let subject = Subject::new(&code.matrix, &mut random);
        let n = usize::from(code.matrix.n);
        for bits in 2..=12 {
            let largest = largest_level(bits) as i16;
            let (lent, good) = in_its_midst(&subject, bits, &mut random);
            for level in [
                -32_768, -128, -127, -largest, -1, 0, 1, largest, 127, 256, 32_767,
            ] {
                for place in [0, 1, n / 2, n - 1, random.below(n)] {
                    let mut opened = good.clone();
                    opened.levels[place] = level;
                    assert_eq!(answer(&subject, &lent, &opened, &mut random).refusal(), 0);
                }
                let mut opened = good.clone();
                opened.levels.fill(level);
                assert_eq!(answer(&subject, &lent, &opened, &mut random).refusal(), 0);
            }
        }
    }
}

#[test]
fn spare_places() {
    let mut random = random(1404);
    for code in some_codes() {
        let subject = Subject::new(&code.matrix, &mut random);
        let last = subject.needed() - 1;
        let spare = 8 * subject.needed() - usize::from(code.matrix.n);
        for place in 0..spare {
            let (good, opened) = in_its_midst(&subject, 3, &mut random);
            let mut set = opened.clone();
            set.received[last] |= 1 << place;
            let mut lent = good.clone();
            assert_eq!(answer(&subject, &lent, &set, &mut random), refused(9, 0));
            lent.word[last] |= 1 << place;
            assert_eq!(
                answer(&subject, &lent, &opened, &mut random),
                refused(23, 0)
            );
            assert_eq!(answer(&subject, &lent, &set, &mut random), refused(9, 0));
        }
        // The lowest place that isn't spare.
        let (mut lent, mut opened) = in_its_midst(&subject, 3, &mut random);
        lent.word[last] |= 1 << spare;
        opened.received[last] |= 1 << spare;
        assert_eq!(answer(&subject, &lent, &opened, &mut random).refusal(), 0);
    }
}

/// Levels one beyond ±L, at the ends of eight and of sixteen bits, and such as are within ±L by their low
/// byte, at every place; beyond the first n they are not asked about.
#[test]
fn levels_out_of_range() {
    let mut random = random(1405);
    for code in some_codes() {
        let subject = Subject::new(&code.matrix, &mut random);
        let n = usize::from(code.matrix.n);
        for bits in 2..=12 {
            let largest = largest_level(bits);
            let (mut good, opened) = in_its_midst(&subject, bits, &mut random);
            good.levels.resize(n + 3, 0);
            let mut ends = vec![largest + 1, -largest - 1];
            ends.extend([127, -127, 128, -128, 255, 256, -256, 4096, -4096]);
            ends.extend([32_767, -32_767, -32_768]);
            for &level in ends.iter().filter(|end| end.abs() > largest) {
                let places = [0, 1, n / 2, n - 2, n - 1, n, n + 2, random.below(n)];
                for place in places {
                    let mut lent = good.clone();
                    lent.levels[place] = level as i16;
                    let answer = answer(&subject, &lent, &opened, &mut random);
                    let expected = if place < n { 23 } else { 0 };
                    assert_eq!(answer.refusal(), expected, "{level} at {place}");
                }
            }
            for level in [largest, -largest] {
                let mut lent = good.clone();
                lent.levels.fill(level as i16);
                assert_eq!(answer(&subject, &lent, &opened, &mut random).refusal(), 0);
            }
        }
    }
}

/// Another matrix between opening and step: refused ones by 1 to 5, then other sizes by 22.
#[test]
fn other_matrices() {
    let mut random = random(1406);
    let codes = codes::small();
    let mut seen = [0; 24];
    for code in &codes {
        let subject = Subject::new(&code.matrix, &mut random);
        for _ in 0..cases(30) {
            let (lent, opened) = in_its_midst(&subject, 4, &mut random);
            let mut other = random.pick(&codes).matrix.clone();
            if random.once_in(2) {
                other = code.matrix.clone();
                damage::change(&mut other, &mut random);
            }
            let other = Subject::new(&other, &mut random);
            let answer = answer(&other, &lent, &opened, &mut random);
            seen[answer.refusal() as usize] += 1;
        }
    }
    for number in [0, 1, 2, 3, 4, 5, 22] {
        assert!(seen[number] > 5, "{seen:?}");
    }
}

/// All sets of causes: the one that is asked first is given, with its place.
#[test]
fn the_order_in_which_a_step_asks() {
    let mut random = random(1407);
    for number in 0..3 << 10 {
        let state = number >> 10;
        let present: [bool; 10] = subset(number);
        let [sizes, length, entry, weight, overlap, other_sizes, ..] = present;
        let [.., buffer, count, spare, current] = present;
        let h = matrix_with([sizes, length, entry, weight, overlap]);
        let subject = Subject::new(&h, &mut random);
        let n = usize::from(h.n);
        for _ in 0..cases(2) {
            let (mut lent, mut opened) = in_its_midst(&subject, 4, &mut random);
            match state {
                0 => {}
                1 => match random.below(5) {
                    0 => lent.record[0] = *random.pick(&[0, 4, 65_535]),
                    1 => lent.record[1] = *random.pick(&[1, 13]),
                    2 => lent.record[2] = 256,
                    3 => lent.record[3] = 30,
                    _ => lent.record[2] = *random.pick(&[0, 7]),
                },
                _ => lent.record[0] = *random.pick(&[2, 3]),
            }
            if other_sizes {
                lent.record[4 + random.below(4)] += 1;
            }
            if spare {
                opened.received[2] |= *random.pick(&[1, 2, 4, 8, 15]);
            }
            if current {
                match random.below(2) {
                    0 => lent.word[2] |= *random.pick(&[1, 2, 4, 8, 15]),
                    _ => lent.levels[random.below(n - 1)] = *random.pick(&[8, -8, 256, -32_768]),
                }
            }
            if buffer {
                match random.below(4) {
                    0 => lent.word.truncate(2),
                    1 => lent.levels.truncate(n - 1),
                    2 => opened.received.truncate(2),
                    _ => opened.received.push(0),
                }
            }
            if count {
                let count = *random.pick(&[0, n - 1, n + 1, 65_536 + n]);
                opened.levels = levels_by_chance(count, &mut random);
            }
            let answer = answer(&subject, &lent, &opened, &mut random);
            let asked = [1, 2, 3, 4, 5, 22, 7, 7, 9, 23];
            let expected = match (state, present.iter().position(|&cause| cause)) {
                (1, _) => refused(20, 0),
                (2, _) => refused(21, 0),
                (_, None) => {
                    assert_eq!(answer.refusal(), 0);
                    answer
                }
                (_, Some(at)) => refused(asked[at], PLACES.get(at).copied().unwrap_or(0)),
            };
            assert_eq!(answer, expected, "{state} {present:?}");
        }
    }
}

/// All sets of causes of an opening, 1 to 8, with any record: the lowest is given.
#[test]
fn the_order_in_which_an_opening_asks() {
    let mut random = random(1408);
    for number in 0..256 {
        let present: [bool; 8] = subset(number);
        let [sizes, length, entry, weight, overlap, setting, buffer, sample] = present;
        let h = matrix_with([sizes, length, entry, weight, overlap]);
        let subject = Subject::new(&h, &mut random);
        let n = usize::from(h.n);
        for _ in 0..cases(4) {
            let mut lent = Lent::by_chance(&subject, &mut random);
            let good = settings::some(&mut random);
            let setting = match setting {
                true => *random.pick(&settings::refused(&good)),
                false => good,
            };
            let mut samples = vec![0.25; n];
            let place = random.below(n - 1);
            if sample {
                samples[place] = *random.pick(&[f32::NAN, f32::INFINITY, f32::NEG_INFINITY]);
            }
            if buffer {
                match random.below(4) {
                    0 => lent.word.truncate(2),
                    1 => lent.levels.truncate(n - 1),
                    2 => samples.truncate(n - 1),
                    _ => samples.push(0.0),
                }
            }
            let answer = subject.open(&mut lent, &setting, &samples, &mut random);
            match present.iter().position(|&cause| cause) {
                None => assert_eq!(answer.refusal(), 0),
                Some(at) => {
                    let places = [&PLACES[..], &[0, 0, place as u64]].concat();
                    assert_eq!(answer, refused(at as u64 + 1, places[at]), "{present:?}");
                }
            }
        }
    }
}

/// Everything by chance.
#[test]
fn calls_by_chance() {
    let mut random = random(1409);
    let codes = codes::small();
    for _ in 0..cases(3000) {
        let code = random.pick(&codes).clone();
        let codewords = Codewords::of(&code.matrix);
        let subject = Subject::new(&code.matrix, &mut random);
        let mut setting = settings::some(&mut random);
        if random.once_in(6) {
            setting = *random.pick(&settings::refused(&setting));
        }
        let setting = Setting {
            limit: setting.limit % 9,
            ..setting
        };
        let sent = codewords.random(&mut random);
        let samples: Vec<f32> = sent
            .iter()
            .map(|&bit| {
                let symbol = if bit { 1.0 } else { -1.0 };
                setting.step * (symbol + random.gaussian()) as f32
            })
            .collect();
        let mut lent = Lent::by_chance(&subject, &mut random);
        subject.open(&mut lent, &setting, &samples, &mut random);
        let mut opened = Opened::of(&subject, &lent);
        for _ in 0..random.below(6) {
            match random.below(15) {
                0 => {
                    let field = random.below(8);
                    lent.record[field] = random.below(16) as u16;
                }
                1 => {
                    let at = random.below(lent.levels.len());
                    lent.levels[at] = level_by_chance(&mut random);
                }
                2 => {
                    let at = random.below(lent.word.len());
                    lent.word[at] = random.byte();
                }
                3 => {
                    let at = random.below(opened.levels.len());
                    opened.levels[at] = level_by_chance(&mut random);
                }
                4 if random.once_in(4) => {
                    opened
                        .levels
                        .truncate(1 + random.below(opened.levels.len()));
                }
                5 if random.once_in(4) => opened.levels.push(level_by_chance(&mut random)),
                _ => {}
            }
            let mut other = code.matrix.clone();
            if random.once_in(8) {
                damage::change(&mut other, &mut random);
                let other = Subject::new(&other, &mut random);
                other.step(&mut lent, &opened, &mut random);
            } else {
                subject.step(&mut lent, &opened, &mut random);
            }
        }
    }
}
