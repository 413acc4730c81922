//! Card 6, undecided samples are no errors: in every call that is lent samples, changed counts the
//! places with a level at opening whose bit ends different; steps count by the levels that they are
//! lent as the opening's.

use differential::firmware::Block;
use differential::rule::sample;
use differential::{cases, levels_by_chance, random, Lent, Opened, Subject, Tried, WORKING};
use ffi_face::Packed;
use generator::codes;
use generator::{patterns, settings, unlike, Random};
use reference::{hard_bit, largest_level, level, pack, unpack, Setting};

/// What a block ends with: changed as it is answered, and at how many of all places the word differs
/// from the hard bits.
#[derive(Clone, Copy, Debug, PartialEq)]
struct Counts {
    changed: usize,
    all: usize,
}

/// A block through every call: whole, with an index, for the firmware, and stepped. All say the
/// same, and the counts are those of the places one by one.
fn counts(tried: &Tried, setting: &Setting, samples: &[f32], random: &mut Random) -> Counts {
    let (subject, needed) = (tried.subject(), tried.subject().needed());
    let left = subject.block(setting, samples, random);
    let changed = left.answer.changed();
    let answer = tried.indexed.block(setting, samples, random).answer;
    assert_eq!(answer, left.answer);
    let block = Block::new(setting, samples).longer(random);
    let [.., in_report] = tried.firmware.decode(&block, random).counts();
    assert_eq!(in_report, changed);
    subject.stepped(setting, samples, random);

    let hard: Vec<bool> = samples.iter().map(|&sample| hard_bit(sample)).collect();
    let word = unpack(subject.matrix().n, &left.word[..needed]);
    let turned = |j: &usize| word[*j] != hard[*j];
    let decided = |j: &usize| level(setting, samples[*j]) != 0;
    let places = || (0..tried.n()).filter(turned);
    assert_eq!(changed, places().filter(decided).count());
    // The count of changed bits in two words, and one-step voting on a word, count all places.
    let all = ffi_face::changed(&left.word[..needed], &pack(&hard)).changed();
    assert_eq!(all, places().count());
    let (voted, word) = subject.one_step(&pack(&hard), needed, random);
    assert_eq!(
        voted.changed(),
        ffi_face::changed(&word, &pack(&hard)).changed()
    );
    Counts { changed, all }
}

/// Which samples of a block have a level.
#[derive(Clone, Copy, Debug, PartialEq)]
enum With {
    None,
    One,
    Some,
    AllButOne,
    All,
}

const WITH: [With; 5] = [
    With::None,
    With::One,
    With::Some,
    With::AllButOne,
    With::All,
];

/// A codeword with some wrong bits, as samples of which these have a level. Those without have either
/// sign, zeros of both signs among them.
fn some_block(tried: &Tried, with: With, setting: &Setting, random: &mut Random) -> Vec<f32> {
    let n = tried.n();
    let (wrong, one, times) = (
        random.below(2 + n / 8),
        random.below(n),
        2 + random.below(9),
    );
    let sent = tried.codewords.random(random);
    let bits = patterns::flipped(&sent, &random.different(wrong.min(n), n));
    let largest = largest_level(setting.bits) as usize;
    let mut samples = Vec::new();
    for (j, bit) in bits.into_iter().enumerate() {
        let decided = match with {
            With::None => false,
            With::One => j == one,
            With::Some => !random.once_in(times),
            With::AllButOne => j != one,
            With::All => true,
        };
        let magnitude = if decided {
            1 + random.below(largest)
        } else {
            0
        };
        samples.push(sample(setting, bit, magnitude as i32, random));
    }
    samples
}

/// A setting of any width, kind and step.
fn some_setting(limits: &[u16], random: &mut Random) -> Setting {
    let limit = *random.pick(limits);
    Setting {
        limit,
        ..settings::some(random)
    }
}

/// What the blocks with some turned bits ended with: none of them counted, some, or all.
#[derive(Debug, Default)]
struct Seen {
    none: usize,
    some: usize,
    all: usize,
}

/// Blocks of every kind. Where no sample has a level nothing is counted, and where all have one
/// everything is.
fn compare(tried: &Tried, limits: &[u16], times: usize, seen: &mut Seen, random: &mut Random) {
    for with in WITH {
        for _ in 0..times {
            let setting = some_setting(limits, random);
            let samples = some_block(tried, with, &setting, random);
            let counts = counts(&tried, &setting, &samples, random);
            let Counts { changed, all } = counts;
            match with {
                With::None => assert_eq!(changed, 0, "{}", tried.code.name),
                With::One => assert!(changed <= 1, "{}", tried.code.name),
                With::Some => assert!(changed <= all, "{}", tried.code.name),
                With::AllButOne => assert!(all - changed <= 1, "{}", tried.code.name),
                With::All => assert_eq!(changed, all, "{}", tried.code.name),
            }
            if all > 0 {
                seen.none += usize::from(changed == 0);
                seen.some += usize::from(0 < changed && changed < all);
                seen.all += usize::from(changed == all);
            }
        }
    }
}

#[test]
fn small_codes() {
    let mut random = random(2700);
    let mut seen = Seen::default();
    for code in codes::small() {
        let tried = Tried::new(code, &mut random);
        let limits = [0, 1, 2, 5, 30, 255];
        compare(&tried, &limits, cases(12), &mut seen, &mut random);
    }
    let Seen { none, some, all } = seen;
    assert!(none > 200 && some > 50 && all > 100, "{seen:?}");
}

#[test]
fn medium_codes() {
    let mut random = random(2701);
    let mut seen = Seen::default();
    for code in codes::medium() {
        let tried = Tried::new(code, &mut random);
        compare(&tried, &[1, 2, 5, 12], cases(2), &mut seen, &mut random);
    }
    let Seen { none, some, all } = seen;
    assert!(none > 20 && some > 20 && all > 20, "{seen:?}");
}

#[test]
fn large_codes() {
    let mut random = random(2702);
    let mut seen = Seen::default();
    for code in [
        codes::eg1023(),
        codes::qc961(),
        codes::cycle(1023),
        codes::single_row(31).copies(33),
        unlike::irregular1000(),
    ] {
        let tried = Tried::new(code, &mut random);
        compare(&tried, &[1, 2, 5], cases(1), &mut seen, &mut random);
    }
    let Seen { none, some, all } = seen;
    assert!(none > 2 && some > 2 && all > 2, "{seen:?}");
}

/// The cases that the reference's tests work out by hand, code A with P6's setting.
#[test]
fn by_hand() {
    let mut random = random(2703);
    let tried = Tried::new(codes::code_a(), &mut random);
    let p6 = settings::level_step(3, 5, 0.5);
    let mut compare = |samples: [f32; 7], rounds, word, levels: [i16; 7], changed, all| {
        let left = tried.subject().iterative(&p6, &samples, 1, 7, &mut random);
        assert_eq!(left.answer, Packed::new(0, rounds, 0, changed));
        assert_eq!(
            (&left.word[..], &left.levels[..]),
            (&[word][..], &levels[..])
        );
        let counts = counts(&tried, &p6, &samples, &mut random);
        assert_eq!(counts, Counts { changed, all });
    };
    // P8, and with seven samples of the other sign.
    compare([0.1; 7], 1, 0x00, [-3; 7], 0, 7);
    compare([-0.1; 7], 0, 0x00, [0; 7], 0, 0);
    for one in [f32::from_bits(1), 0.1, 0.25_f32.next_down()] {
        let samples = [one, -1.0, -1.0, -1.0, -1.0, -1.0, -1.0];
        compare(samples, 1, 0x00, [-3; 7], 0, 1);
    }
    let levels = [-3, -3, 3, -3, 3, 3, 3];
    for zero in [0.0, -0.0, -f32::from_bits(1), -0.1, -0.25_f32.next_down()] {
        let samples = [-1.0, -1.0, 1.0, -1.0, zero, 1.0, 1.0];
        compare(samples, 1, 0x2E, levels, 0, 1);
    }
    // Half-way samples have a level.
    let samples = [0.25, -1.0, -1.0, -1.0, -1.0, -1.0, -1.0];
    compare(samples, 1, 0x00, [-2, -3, -3, -3, -3, -3, -3], 1, 1);
    let samples = [-1.0, -1.0, 1.0, -1.0, -0.25, 1.0, 1.0];
    compare(samples, 1, 0x2E, [-3, -3, 3, -3, 2, 3, 3], 1, 1);
    // Two wrong bits: one of them with a level, and both. The levels at the end are not asked.
    let samples = [1.0, 0.1, -1.0, -1.0, -1.0, -1.0, -1.0];
    compare(samples, 2, 0x00, [-2, -2, -2, -3, -2, -2, -2], 1, 2);
    let samples = [1.0, 1.0, -1.0, -1.0, -1.0, -1.0, -1.0];
    compare(samples, 2, 0x00, [0, 0, 0, -3, 0, 0, 0], 2, 2);
}

/// A session opened with a block of any kind, which is working: what is lent to its steps.
fn opened(tried: &Tried, random: &mut Random) -> (Lent, Opened) {
    let subject = tried.subject();
    loop {
        let setting = some_setting(&[1, 2, 5], random);
        let with = *random.pick(&WITH);
        let samples = some_block(tried, with, &setting, random);
        let mut lent = Lent::by_chance(subject, random);
        let answer = subject.open(&mut lent, &setting, &samples, random);
        assert_eq!(answer.changed(), 0);
        if answer.place() == WORKING {
            let opened = Opened::of(subject, &lent);
            return (lent, opened);
        }
    }
}

/// A step lent other levels than the opening's: the record, the word and the levels that it leaves and
/// the answer but for changed are the same. Gives changed.
fn stepped_with(
    subject: &Subject,
    (lent, opened): (&Lent, &Opened),
    levels: &[i16],
    (left, answer): (&Lent, Packed),
    random: &mut Random,
) -> usize {
    let other = Opened {
        levels: levels.to_vec(),
        ..opened.clone()
    };
    let mut lent = lent.clone();
    let other_answer = subject.step(&mut lent, &other, random);
    assert_eq!(&lent, left);
    let changed = |answer: Packed| (answer.changed() as u64) << 52;
    assert_eq!(
        other_answer.0 - changed(other_answer),
        answer.0 - changed(answer)
    );
    other_answer.changed()
}

/// All of the opening's levels 0, none of them, any numbers, one 0 more, those of the last call, and the
/// received word another: counted as they are lent.
#[test]
fn other_levels_than_the_openings() {
    let mut random = random(2704);
    for code in [codes::small(), codes::medium()].concat() {
        let tried = Tried::new(code, &mut random);
        let (subject, n) = (tried.subject(), tried.n());
        for _ in 0..cases(3) {
            let (mut lent, mut opened) = opened(&tried, &mut random);
            while lent.record[0] == 1 {
                if random.once_in(3) {
                    opened.received = pack(&random.bits(n));
                }
                let mut left = lent.clone();
                let answer = subject.step(&mut left, &opened, &mut random);
                let all = ffi_face::changed(&left.word[..subject.needed()], &opened.received);
                let any = levels_by_chance(n, &mut random);
                let mut with = |levels: &[i16]| {
                    let (lent, left) = ((&lent, &opened), (&left, answer));
                    stepped_with(subject, lent, levels, left, &mut random)
                };
                assert_eq!(with(&opened.levels), answer.changed());
                assert_eq!(with(&vec![0; n]), 0);
                for level in [1, -1, 127, -128, 256, -32_768] {
                    assert_eq!(with(&vec![level; n]), all.changed());
                }
                let negated: Vec<i16> = opened.levels.iter().map(|level| -level).collect();
                assert_eq!(with(&negated), answer.changed());
                with(&lent.levels[..n]);
                with(&left.levels[..n]);
                with(&any);
                lent = left;
            }
        }
    }
}

/// Each place alone has a level: it is counted exactly if its bit differs from the lent received word;
/// and each alone has none.
#[test]
fn each_place_alone() {
    let mut random = random(2705);
    for code in [codes::small(), vec![codes::tanner155()]].concat() {
        let tried = Tried::new(code, &mut random);
        let (subject, n) = (tried.subject(), tried.n());
        let (lent, mut opened) = opened(&tried, &mut random);
        for received in [opened.received.clone(), pack(&random.bits(n))] {
            opened.received = received;
            let mut left = lent.clone();
            let answer = subject.step(&mut left, &opened, &mut random);
            let word = unpack(subject.matrix().n, &left.word[..subject.needed()]);
            let received = unpack(subject.matrix().n, &opened.received);
            let all = (0..n).filter(|&j| word[j] != received[j]).count();
            for j in 0..n {
                let turned = usize::from(word[j] != received[j]);
                let mut with = |levels: &[i16]| {
                    let (lent, left) = ((&lent, &opened), (&left, answer));
                    stepped_with(subject, lent, levels, left, &mut random)
                };
                let mut alone = vec![0; n];
                alone[j] = [1, -1, -128, 256, -32_768][j % 5];
                assert_eq!(with(&alone), turned, "{j}");
                let mut others = vec![-32_768; n];
                others[j] = 0;
                assert_eq!(with(&others), all - turned, "{j}");
            }
        }
    }
}

/// A buffer of levels that is longer than n: its first n are lent, to the end. The whole of it is
/// refused, as is one level less, and then nothing is written.
#[test]
fn the_first_n_of_a_longer_buffer() {
    let mut random = random(2706);
    for code in [codes::small(), codes::medium()].concat() {
        let tried = Tried::new(code, &mut random);
        let (subject, n) = (tried.subject(), tried.n());
        for _ in 0..cases(4) {
            let setting = some_setting(&[1, 2, 5], &mut random);
            let with = *random.pick(&WITH);
            let samples = some_block(&tried, with, &setting, &mut random);
            let whole = subject.block(&setting, &samples, &mut random);
            let mut lent = Lent::by_chance(subject, &mut random);
            let more = levels_by_chance(1 + random.below(9), &mut random);
            lent.levels.truncate(n);
            lent.levels.extend(more);
            let mut answer = subject.open(&mut lent, &setting, &samples, &mut random);
            let buffer = lent.levels.clone();
            let opened = Opened::of(subject, &lent);
            assert_eq!(opened.levels, buffer[..n]);
            while answer.place() == WORKING {
                for levels in [&buffer[..], &buffer[..n - 1], &buffer[..n + 1], &[]] {
                    let wrong = Opened {
                        levels: levels.to_vec(),
                        ..opened.clone()
                    };
                    let before = lent.clone();
                    let refused = subject.step(&mut lent, &wrong, &mut random);
                    assert_eq!(refused, Packed::new(7 * 65536, 0, 0, 0));
                    assert_eq!(lent, before);
                }
                answer = subject.step(&mut lent, &opened, &mut random);
            }
            assert_eq!(answer, whole.answer, "{}", tried.code.name);
            assert_eq!(lent.levels[n..], buffer[n..]);
        }
    }
}

/// All blocks of code A of these four samples: with a level and without, of both signs, and zeros and
/// half-way samples of both signs.
#[test]
fn code_a_all_blocks_with_and_without_levels() {
    let mut random = random(2707);
    let subject = Subject::new(&codes::code_a().matrix, &mut random);
    let setting = settings::level_step(3, 3, 0.5);
    let smallest = f32::from_bits(1);
    for four in [[-1.0, -0.1, 0.1, 0.6], [0.25, -0.0, smallest, -0.25]] {
        for number in 0..1 << 14 {
            let sample = |j: usize| four[number >> (2 * j) & 3];
            let samples: Vec<f32> = (0..7).map(sample).collect();
            subject.stepped(&setting, &samples, &mut random);
        }
    }
}
