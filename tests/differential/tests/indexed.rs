//! Voting that is lent the matrix's own index. Each call is compared with the reference and with
//! the call without an index: answer, word, levels, and every cell beside them.

use differential::{cases, random, Indexed, Left};
use ffi_face::Packed;
use generator::codes::{self, Code};
use generator::{noise, patterns, settings, Codewords, Random};
use reference::{byte_count, pack, Setting};

fn refused(number: u64, place: u64) -> Packed {
    Packed::new(number * 65536 + place, 0, 0, 0)
}

/// P1 to P5: code A or B, the received word, what comes out.
#[test]
fn p1_to_p5() {
    let mut random = random(1700);
    let a = Indexed::new(&codes::code_a().matrix, &mut random);
    let b = Indexed::new(&codes::code_b().matrix, &mut random);
    let mut votes = |code: &Indexed, received: &[u8], answer, word: &[u8]| {
        let voted = code.one_step(code.own(), received, word.len(), &mut random);
        assert_eq!(voted, (answer, word.to_vec()));
    };
    votes(&a, &[0x2E], Packed::new(0, 0, 0, 0), &[0x2E]);
    votes(&a, &[0xAE], Packed::new(0, 1, 0, 1), &[0x2E]);
    votes(&a, &[0xC0], Packed::new(0, 1, 0, 6), &[0x2E]);
    votes(&b, &[0x08, 0x00], Packed::new(0, 1, 0, 1), &[0x00, 0x00]);
    votes(&b, &[0x88, 0x00], Packed::new(1, 1, 4, 4), &[0x50, 0x00]);
}

#[test]
fn p6_to_p8() {
    let mut random = random(1701);
    let a = Indexed::new(&codes::code_a().matrix, &mut random);
    let p6 = settings::level_step(3, 5, 0.5);
    let samples = [0.5, -1.0, -1.0, -1.0, -1.0, -1.0, -1.0];
    let mut compare = |setting, samples: &[f32], answer, word: u8, levels: [i16; 7]| {
        let left = a.iterative(a.own(), setting, samples, (1, 7), &mut random);
        let expected = Left {
            answer,
            word: vec![word],
            levels: levels.to_vec(),
        };
        assert_eq!(left, expected);
    };
    let decoded = Packed::new(0, 1, 0, 1);
    compare(&p6, &samples, decoded, 0x00, [-2, -3, -3, -3, -3, -3, -3]);
    let p7 = settings::level_step(3, 0, 0.5);
    let failed = Packed::new(1, 0, 3, 0);
    compare(&p7, &samples, failed, 0x80, [1, -2, -2, -2, -2, -2, -2]);
    compare(&p6, &[0.1; 7], Packed::new(0, 1, 0, 0), 0x00, [-3; 7]);
}

/// All words of the smallest codes, spare places set or not.
#[test]
fn every_word() {
    let mut random = random(1702);
    for code in codes::small() {
        let count = byte_count(code.matrix.n);
        if code.matrix.n > 9 {
            continue;
        }
        let indexed = Indexed::new(&code.matrix, &mut random);
        let spare = 8 * count - usize::from(code.matrix.n);
        for number in 0..1_u32 << (8 * count) {
            let places = number % (1 << spare);
            if places == 0 || random.once_in(32) {
                let received = &number.to_be_bytes()[4 - count..];
                let (answer, _) = indexed.word(received, &mut random);
                assert_eq!(answer == refused(9, 0), places != 0, "{}", code.name);
            }
        }
    }
}

/// Words past the half and by chance.
fn words(code: &Code, times: usize, random: &mut Random) {
    let indexed = Indexed::new(&code.matrix, random);
    let codewords = Codewords::of(&code.matrix);
    let (n, gamma) = (indexed.n(), usize::from(code.matrix.gamma));
    indexed.word(&pack(&vec![true; n]), random);
    indexed.word(&pack(&vec![false; n]), random);
    for _ in 0..times {
        indexed.word(&pack(&random.bits(n)), random);
        for size in [gamma / 2 + 1, gamma + 1, 1 + random.below(n)] {
            let pattern = random.different(size.min(n), n);
            let sent = codewords.random(random);
            indexed.word(&pack(&patterns::flipped(&sent, &pattern)), random);
        }
    }
}

/// Noise from none to one that hides the word.
const DEVIATIONS: [f64; 6] = [0.0, 0.3, 0.5, 0.7, 1.0, 3.0];

/// Blocks of every width, the kind, the limit and the noise by chance.
fn blocks(code: &Code, limits: &[u16], times: usize, random: &mut Random) {
    let indexed = Indexed::new(&code.matrix, random);
    let codewords = Codewords::of(&code.matrix);
    let first = random.below(11);
    for at in first..first + times {
        let (bits, kind) = (2 + (at % 11) as u16, random.below(2) as u16);
        let limit = *random.pick(limits);
        let setting = settings::around_one(bits, limit, kind, random);
        let deviation = *random.pick(&DEVIATIONS);
        let mut samples = noise::received(&codewords.random(random), deviation, random);
        match random.below(8) {
            0 => samples.fill(*random.pick(&[0.0, -0.0, 1e-30, f32::MAX, f32::MIN])),
            1 => samples[random.below(indexed.n())] = f32::MIN,
            _ => {}
        }
        let left = indexed.block(&setting, &samples, random);
        assert_eq!(left.answer.refusal(), 0, "{}", code.name);
    }
}

#[test]
fn small_codes() {
    let mut random = random(1703);
    for code in codes::small() {
        words(&code, cases(10), &mut random);
        blocks(&code, &[0, 1, 2, 5, 30, 255], cases(28), &mut random);
    }
}

#[test]
fn medium_codes() {
    let mut random = random(1704);
    for code in codes::medium() {
        words(&code, cases(2), &mut random);
        blocks(&code, &[0, 1, 2, 5, 30], cases(11), &mut random);
        let shuffled = code.shuffled(&mut random);
        words(&shuffled, cases(1), &mut random);
        blocks(&shuffled, &[1, 2, 5, 30], cases(11), &mut random);
    }
}

#[test]
fn large_codes() {
    let mut random = random(1705);
    for code in codes::large() {
        words(&code, cases(1), &mut random);
        blocks(&code, &[1, 5, 30], cases(3), &mut random);
    }
}

/// The flipping rule with an index: a codeword changed within the half comes back.
#[test]
fn the_flipping_rule() {
    let mut random = random(1706);
    for code in [
        codes::code_a(),
        codes::code_b(),
        codes::euclidean(2),
        codes::tanner155(),
        codes::projective(4),
        codes::qc961(),
        codes::eg1023(),
    ] {
        let indexed = Indexed::new(&code.matrix, &mut random);
        let codewords = Codewords::of(&code.matrix);
        let half = usize::from(code.matrix.gamma / 2);
        for size in (0..=half).step_by((half / 4).max(1)) {
            let mut tried = patterns::against_one_bit(&code, size, &mut random);
            tried.extend((0..cases(2)).map(|_| random.different(size, indexed.n())));
            for pattern in tried {
                let sent = codewords.random(&mut random);
                comes_back(&indexed, &sent, &pattern, &mut random);
            }
        }
    }
}

/// The rule for one codeword and one pattern of at most gamma / 2 flips.
fn comes_back(indexed: &Indexed, sent: &[bool], pattern: &[usize], random: &mut Random) {
    let received = pack(&patterns::flipped(sent, pattern));
    let rounds = usize::from(!pattern.is_empty());
    let (answer, word) = indexed.word(&received, random);
    assert_eq!(answer, Packed::new(0, rounds, 0, pattern.len()));
    assert_eq!(word[..received.len()], pack(sent));
}

/// What the library has built is what it trusts.
#[test]
fn the_built_index_is_trusted() {
    let mut random = random(1707);
    for code in codes::all() {
        let indexed = Indexed::new(&code.matrix, &mut random);
        let needed = indexed.own().len();
        let (_, built) = indexed.build(needed + 3, &mut random);
        let lent = indexed.lend(&built[..needed], &mut random);
        assert_eq!(lent, (0, 0), "{}", code.name);
        // The buffer whole, with the cells that stayed, is no index.
        let lent = indexed.lend(&built, &mut random);
        assert_eq!(lent, (10, 0), "{}", code.name);
    }
}

/// One code for each number of spare places, and a large one.
fn some_codes() -> Vec<Code> {
    let mut codes = codes::small();
    codes.extend([codes::tanner155(), codes::euclidean(4), codes::cycle(1023)]);
    codes
}

/// With the own index, 7 and 9 of one-step voting.
#[test]
fn received_words_and_buffers() {
    let mut random = random(1708);
    for code in some_codes() {
        let indexed = Indexed::new(&code.matrix, &mut random);
        let needed = indexed.subject().needed();
        let mut votes = |received: &[u8], room| {
            let (answer, _) = indexed.one_step(indexed.own(), received, room, &mut random);
            answer
        };
        let mut received = vec![0; needed];
        for room in [0, needed - 1, needed, needed + 1, needed + 9] {
            let answer = votes(&received, room);
            assert_eq!(answer == refused(7, 0), room < needed, "{}", code.name);
        }
        assert_eq!(votes(&[], needed), refused(7, 0));
        assert_eq!(votes(&received[1..], needed), refused(7, 0));
        assert_eq!(
            votes(&[&received[..], &[0]].concat(), needed),
            refused(7, 0)
        );
        if code.matrix.n % 8 != 0 {
            received[needed - 1] = 1;
            assert_eq!(votes(&received, needed - 1), refused(7, 0));
            assert_eq!(votes(&received, needed), refused(9, 0));
            assert_eq!(votes(&received, needed + 4), refused(9, 0));
        }
    }
}

/// With the own index, 6 to 8 of iterative voting.
#[test]
fn settings_samples_and_buffers() {
    let mut random = random(1709);
    for code in some_codes() {
        let indexed = Indexed::new(&code.matrix, &mut random);
        let (n, needed) = (indexed.n(), indexed.subject().needed());
        let good = settings::around_one(5, 2, 0, &mut random);
        let samples = vec![0.5; n];
        let mut votes = |setting: &Setting, samples: &[f32], rooms| {
            let left = indexed.iterative(indexed.own(), setting, samples, rooms, &mut random);
            left.answer
        };
        for setting in settings::refused(&good).iter().step_by(5) {
            let answer = votes(setting, &samples, (needed, n));
            assert_eq!(answer, refused(6, 0), "{setting:?}");
        }
        for rooms in [(needed - 1, n), (needed, n - 1), (0, n), (needed, 0)] {
            assert_eq!(votes(&good, &samples, rooms), refused(7, 0));
        }
        for other in [&samples[1..], &[&samples[..], &[0.5]].concat(), &[]] {
            assert_eq!(votes(&good, other, (needed, n)), refused(7, 0));
        }
        for place in [0, n / 2, n - 1] {
            let mut samples = samples.clone();
            samples[place..].fill(f32::NAN);
            let answer = votes(&good, &samples, (needed, n));
            assert_eq!(answer, refused(8, place as u64), "{}", code.name);
        }
    }
}
