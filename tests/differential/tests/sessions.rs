//! Sessions: after every call the record, word, levels and answer; stepped runs against whole
//! calls; words, levels and matrices that change between steps.

use differential::{
    cases, level_by_chance, levels_by_chance, random, Lent, Opened, Subject, WORKING,
};
use ffi_face::Packed;
use generator::codes::{self, Code};
use generator::{noise, settings, Codewords, Random};
use reference::{largest_level, pack, Setting};

fn block(codewords: &Codewords, random: &mut Random) -> Vec<f32> {
    let deviation = *random.pick(&[0.0, 0.3, 0.5, 0.7, 1.0, 3.0]);
    noise::received(&codewords.random(random), deviation, random)
}

/// A setting of any width and kind.
fn some_setting(limits: &[u16], random: &mut Random) -> Setting {
    let (bits, kind) = (2 + random.below(11) as u16, random.below(2) as u16);
    let limit = *random.pick(limits);
    settings::around_one(bits, limit, kind, random)
}

#[test]
fn p6_to_p8() {
    let mut random = random(1300);
    let a = Subject::new(&codes::code_a().matrix, &mut random);
    let samples = [0.5, -1.0, -1.0, -1.0, -1.0, -1.0, -1.0];
    let p6 = settings::level_step(3, 5, 0.5);
    let mut lent = Lent::by_chance(&a, &mut random);
    let opened = a.open(&mut lent, &p6, &samples, &mut random);
    assert_eq!(opened, Packed::new(WORKING, 0, 3, 0));
    assert_eq!(lent.record, [1, 3, 5, 0, 7, 7, 3, 3]);
    assert_eq!(lent.word[0], 0x80);
    assert_eq!(lent.levels[..7], [1, -2, -2, -2, -2, -2, -2]);
    let opened = Opened::of(&a, &lent);
    let stepped = a.step(&mut lent, &opened, &mut random);
    assert_eq!(stepped, Packed::new(0, 1, 0, 1));
    assert_eq!(lent.record, [2, 3, 5, 1, 7, 7, 3, 3]);
    assert_eq!(lent.word[0], 0x00);
    assert_eq!(lent.levels[..7], [-2, -3, -3, -3, -3, -3, -3]);

    let p7 = settings::level_step(3, 0, 0.5);
    let opened = a.open(&mut lent, &p7, &samples, &mut random);
    assert_eq!(opened, Packed::new(1, 0, 3, 0));
    assert_eq!(lent.record, [3, 3, 0, 0, 7, 7, 3, 3]);

    let opened = a.open(&mut lent, &p6, &[0.1; 7], &mut random);
    assert_eq!(opened, Packed::new(WORKING, 0, 7, 0));
    assert_eq!(lent.word[0], 0xFE);
    assert_eq!(lent.levels[..7], [0; 7]);
    let opened = Opened::of(&a, &lent);
    let stepped = a.step(&mut lent, &opened, &mut random);
    assert_eq!(stepped, Packed::new(0, 1, 0, 0));
    assert_eq!(lent.levels[..7], [-3; 7]);
}

#[test]
fn small_codes() {
    let mut random = random(1301);
    let mut most = 0;
    for code in codes::small() {
        let subject = Subject::new(&code.matrix, &mut random);
        let codewords = Codewords::of(&code.matrix);
        for _ in 0..cases(20) {
            let setting = some_setting(&[0, 1, 2, 5, 30, 255], &mut random);
            let samples = block(&codewords, &mut random);
            most = most.max(subject.stepped(&setting, &samples, &mut random));
        }
    }
    assert_eq!(most, 255);
}

#[test]
fn medium_codes() {
    let mut random = random(1302);
    for code in codes::medium() {
        let subject = Subject::new(&code.matrix, &mut random);
        let codewords = Codewords::of(&code.matrix);
        for _ in 0..cases(4) {
            let setting = some_setting(&[0, 1, 2, 5, 12], &mut random);
            let samples = block(&codewords, &mut random);
            subject.stepped(&setting, &samples, &mut random);
        }
    }
}

#[test]
fn large_codes() {
    let mut random = random(1303);
    for code in codes::large() {
        let subject = Subject::new(&code.matrix, &mut random);
        let codewords = Codewords::of(&code.matrix);
        for _ in 0..cases(2) {
            let setting = some_setting(&[1, 2, 5], &mut random);
            let samples = block(&codewords, &mut random);
            subject.stepped(&setting, &samples, &mut random);
        }
    }
}

/// An opening replaces any record, one that is working too.
#[test]
fn openings_replace_any_record() {
    let mut random = random(1304);
    let code = codes::code_b();
    let subject = Subject::new(&code.matrix, &mut random);
    let codewords = Codewords::of(&code.matrix);
    for state in [0, 1, 2, 3, 4, 5, 255, 256, 257, 65_535] {
        for _ in 0..cases(20) {
            let mut lent = Lent::by_chance(&subject, &mut random);
            lent.record = (0..8).map(|_| random.number() as u16).collect();
            lent.record[0] = state;
            let setting = some_setting(&[0, 1, 5, 255], &mut random);
            let samples = block(&codewords, &mut random);
            let answer = subject.open(&mut lent, &setting, &samples, &mut random);
            assert_eq!(answer.refusal(), 0);
            let limit = setting.limit;
            assert_eq!(lent.record[1..], [setting.bits, limit, 0, 9, 6, 3, 2]);
        }
    }
}

/// A record that is working on this subject's sizes.
fn working(subject: &Subject, bits: u16, limit: u16, k: u16) -> Vec<u16> {
    let h = subject.matrix();
    vec![1, bits, limit, k, h.n, h.m, h.rho, h.gamma]
}

/// A word by chance, spare places zero.
fn some_word(subject: &Subject, random: &mut Random) -> Vec<u8> {
    pack(&random.bits(usize::from(subject.matrix().n)))
}

/// A step is a function of what it is lent: words and levels that no opening left.
#[test]
fn words_and_levels_by_chance() {
    let mut random = random(1305);
    for code in [codes::small(), codes::medium()].concat() {
        let subject = Subject::new(&code.matrix, &mut random);
        let n = usize::from(code.matrix.n);
        for _ in 0..cases(10) {
            let bits = 2 + random.below(11) as u16;
            let limit = 1 + random.below(255) as u16;
            let k = match random.below(2) {
                0 => limit - 1,
                _ => random.below(usize::from(limit)) as u16,
            };
            let largest = largest_level(bits);
            let mut lent = Lent::by_chance(&subject, &mut random);
            lent.record = working(&subject, bits, limit, k);
            let word = some_word(&subject, &mut random);
            lent.word[..word.len()].copy_from_slice(&word);
            for level in &mut lent.levels[..n] {
                let above = random.below(2 * largest as usize + 1) as i32;
                *level = (above - largest) as i16;
            }
            if random.once_in(4) {
                let end = *random.pick(&[largest, -largest, 0, 1, -1]);
                lent.levels[..n].fill(end as i16);
            }
            let opened = Opened::by_chance(&subject, &mut random);
            let answer = subject.step(&mut lent, &opened, &mut random);
            assert_eq!(answer.refusal(), 0);
            // As long as the record works, go on with what the step left.
            for _ in 0..3 {
                if lent.record[0] == 1 {
                    subject.step(&mut lent, &opened, &mut random);
                }
            }
        }
    }
}

/// Between steps: bits of the word and levels disturbed, another received word, other levels of the
/// opening, k set back.
#[test]
fn disturbed_between_steps() {
    let mut random = random(1306);
    for code in codes::small() {
        let subject = Subject::new(&code.matrix, &mut random);
        let codewords = Codewords::of(&code.matrix);
        let n = usize::from(code.matrix.n);
        for _ in 0..cases(10) {
            let setting = some_setting(&[2, 5, 30], &mut random);
            let largest = largest_level(setting.bits) as i16;
            let samples = block(&codewords, &mut random);
            let mut lent = Lent::by_chance(&subject, &mut random);
            subject.open(&mut lent, &setting, &samples, &mut random);
            let mut opened = Opened::of(&subject, &lent);
            for _ in 0..8 {
                let j = random.below(n);
                match random.below(7) {
                    0 => lent.word[j / 8] ^= 128 >> (j % 8),
                    1 => lent.levels[j] = *random.pick(&[largest, -largest, 0, 1]),
                    2 => opened.received[j / 8] ^= 128 >> (j % 8),
                    3 => opened.levels[j] = level_by_chance(&mut random),
                    4 => opened.levels = levels_by_chance(n, &mut random),
                    5 => lent.record[3] = lent.record[3].saturating_sub(1),
                    _ => lent.record[0] = 1,
                }
                subject.step(&mut lent, &opened, &mut random);
            }
        }
    }
}

/// Two codes of the same sizes.
fn of_same_sizes(random: &mut Random) -> Vec<(Code, Code)> {
    let mut pairs = Vec::new();
    for code in [
        codes::code_a(),
        codes::code_b(),
        codes::cycle(16),
        codes::tanner155(),
        codes::projective(3),
    ] {
        let shuffled = code.shuffled(random);
        pairs.push((code, shuffled));
    }
    pairs
}

/// Each step may be lent another matrix of the same sizes.
#[test]
fn matrices_swapped_between_steps() {
    let mut random = random(1307);
    for (code, other) in of_same_sizes(&mut random) {
        let subjects = [
            Subject::new(&code.matrix, &mut random),
            Subject::new(&other.matrix, &mut random),
        ];
        let codewords = Codewords::of(&code.matrix);
        for _ in 0..cases(10) {
            let setting = some_setting(&[3, 8], &mut random);
            let samples = block(&codewords, &mut random);
            let mut lent = Lent::by_chance(&subjects[0], &mut random);
            subjects[0].open(&mut lent, &setting, &samples, &mut random);
            let opened = Opened::of(&subjects[0], &lent);
            for at in 1..=usize::from(setting.limit) {
                subjects[at % 2].step(&mut lent, &opened, &mut random);
            }
        }
    }
}
