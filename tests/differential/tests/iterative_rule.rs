//! The flipping rule for iterative voting: hard bits that differ from a codeword in at most
//! gamma / 2 places come back to it within a known number of rounds, however strong the wrong
//! samples and however weak the right ones. The reference's opinion is asked as well.

use differential::rule::{
    all_settings, enough, some_setting, with_limit, Change, Finer, Seen, Source, FINER, WORST,
};
use differential::{cases, random, Lent, Opened, Subject, WORKING};
use ffi_face::Packed;
use generator::codes::{self, Code};
use generator::{patterns, settings, unlike, Random};
use reference::{hard_bit, largest_level, level, pack, Setting};

const FAILED: u64 = 1;

fn rounds(answer: Packed) -> usize {
    (answer.0 >> 32) as usize % 256
}

/// A code as a source of blocks, and as both sides see it.
struct Tried {
    source: Source,
    subject: Subject,
}

impl Tried {
    fn new(code: Code, random: &mut Random) -> Tried {
        Tried {
            subject: Subject::new(&code.matrix, random),
            source: Source::new(code),
        }
    }

    /// What the rule says of an answer and of the word left with it. Gives the rounds.
    fn obeyed(
        &self,
        change: &Change,
        setting: &Setting,
        samples: &[f32],
        answer: Packed,
        word: &[u8],
    ) -> usize {
        let (sent, wrong, name) = (pack(&change.sent), &change.wrong, &self.source.code.name);
        let call = || {
            format!(
                "{answer:?}, {name}, sent {sent:02x?}, wrong {wrong:?}, {setting:?}, {samples:?}"
            )
        };
        let rounds = rounds(answer);
        let expected = Packed::new(0, rounds, 0, change.decided(setting, samples));
        assert_eq!(answer, expected, "{}", call());
        assert!(rounds <= change.bound(setting.bits), "{}", call());
        assert_eq!(rounds == 0, wrong.is_empty(), "{}", call());
        assert_eq!(word[..sent.len()], sent, "{}", call());
        // Of all places, with a level or without, those that were wrong.
        let hard: Vec<bool> = samples.iter().map(|&sample| hard_bit(sample)).collect();
        let turned = ffi_face::changed(&word[..sent.len()], &pack(&hard));
        assert_eq!(turned, Packed::new(0, 0, 0, wrong.len()), "{}", call());
        rounds
    }

    /// The rule for the whole call with this limit. Gives the rounds.
    fn comes_back(
        &self,
        change: &Change,
        setting: &Setting,
        limit: usize,
        samples: &[f32],
        random: &mut Random,
    ) -> usize {
        assert!(change.bound(setting.bits) <= limit);
        let setting = with_limit(setting, limit);
        let left = self.subject.block(&setting, samples, random);
        self.obeyed(change, &setting, samples, left.answer, &left.word)
    }

    /// The same with no round to spare.
    fn comes_back_in_time(
        &self,
        change: &Change,
        setting: &Setting,
        samples: &[f32],
        random: &mut Random,
    ) -> usize {
        self.comes_back(change, setting, change.bound(setting.bits), samples, random)
    }

    /// The same for an opening and its steps.
    fn steps_back_in_time(
        &self,
        change: &Change,
        setting: &Setting,
        samples: &[f32],
        random: &mut Random,
    ) -> usize {
        let subject = &self.subject;
        let setting = with_limit(setting, change.bound(setting.bits));
        let mut lent = Lent::by_chance(subject, random);
        let mut answer = subject.open(&mut lent, &setting, samples, random);
        let opened = Opened::of(subject, &lent);
        let mut steps = 0;
        while answer.place() == WORKING {
            answer = subject.step(&mut lent, &opened, random);
            steps += 1;
        }
        assert_eq!(rounds(answer), steps);
        self.obeyed(change, &setting, samples, answer, &lent.word)
    }

    /// Whether the block takes all the rounds of the bound: one round less fails exactly then.
    fn takes_all(
        &self,
        change: &Change,
        setting: &Setting,
        samples: &[f32],
        random: &mut Random,
    ) -> bool {
        let bound = change.bound(setting.bits);
        let rounds_taken = self.comes_back(change, setting, bound, samples, random);
        let less = with_limit(setting, bound - 1);
        let answer = self.subject.block(&less, samples, random).answer;
        let failed = answer.place() == FAILED;
        assert_eq!(failed, rounds_taken == bound);
        assert_eq!(rounds(answer), rounds_taken.min(bound - 1));
        failed
    }
}

/// The choice of this number among all magnitudes from the least to the largest.
fn choice(mut number: usize, least: &[i32], largest: i32) -> Vec<i32> {
    let magnitude = |&least: &i32| {
        let choices = (largest - least) as usize + 1;
        let digit = number % choices;
        number /= choices;
        least + digit as i32
    };
    least.iter().map(magnitude).collect()
}

/// Every choice of levels, or `most` of them by chance if there are more. Gives their number.
fn levels_of(tried: &Tried, change: &Change, bits: u16, most: usize, random: &mut Random) -> usize {
    let setting = settings::level_step(bits, 0, 0.5);
    let (largest, least) = (largest_level(bits), change.least());
    let choices = |&least: &i32| (largest - least) as usize + 1;
    let all: usize = least.iter().map(choices).product();
    for at in 0..all.min(most) {
        let number = if all <= most { at } else { random.below(all) };
        let magnitudes = choice(number, &least, largest);
        let samples = change.samples(&setting, &magnitudes, random);
        tried.comes_back_in_time(change, &setting, &samples, random);
    }
    all.min(most)
}

/// The same for the first so many codewords and all wrong places.
fn levels_of_code(code: Code, bits: u16, words: usize, most: usize, random: &mut Random) -> usize {
    let tried = Tried::new(code, random);
    let codewords = tried.source.codewords.some(16, random);
    let mut blocks = 0;
    for sent in codewords.into_iter().take(words) {
        for size in 0..=tried.source.half() {
            for wrong in patterns::of_size(size, tried.source.n()) {
                let change = tried.source.change(sent.clone(), wrong);
                blocks += levels_of(&tried, &change, bits, most, random);
            }
        }
    }
    blocks
}

/// Width 2 whole. Width 3 on the zero word of code A and one of the seven others, which differ only
/// in the order of the bits, and some levels of code B.
#[test]
fn all_levels_of_code_a_and_b() {
    let mut random = random(1500);
    let (a, b, all) = (codes::code_a, codes::code_b, usize::MAX);
    let blocks = levels_of_code(a(), 2, 8, all, &mut random);
    assert_eq!(blocks, 8 * (1 + 7) * 128);
    // One wrong place is half of gamma: each right 1 has one level instead of two. The codewords
    // have no ones, four (nine of them) or six (six of them).
    let blocks = levels_of_code(b(), 2, 16, all, &mut random);
    let with_four = 9 * (4 * 64 + 5 * 32);
    let with_six = 6 * (6 * 16 + 3 * 8);
    assert_eq!(blocks, 16 * 512 + 9 * 512 + with_four + with_six);
    let blocks = levels_of_code(a(), 3, 2, all, &mut random);
    assert_eq!(blocks, 2 * (1 + 7) * 16_384);
    let most = cases(100);
    let blocks = levels_of_code(b(), 3, 16, most, &mut random);
    assert_eq!(blocks, 16 * (1 + 9) * most);
}

/// Width 2 whole on codes of unlike columns, whose smallest weight is 2 or 3: a wrong bit of a
/// heavier column has more checks against it, a right one more for it.
#[test]
fn all_levels_of_unlike_columns() {
    let mut random = random(1507);
    for (code, words) in [
        (unlike::code_u(), 4),
        (unlike::wheel(5), 2),
        (unlike::without_rows(&codes::code_a(), &[0]), 8),
    ] {
        let (n, gamma) = (usize::from(code.matrix.n), code.matrix.gamma);
        let blocks = levels_of_code(code, 2, words, usize::MAX, &mut random);
        let most = (words * (1 + n)) << n;
        // With an odd gamma no level is left out.
        assert!(blocks == most || (gamma == 2 && blocks > most / 4));
    }
}

fn small_and_three_more() -> Vec<Code> {
    let mut codes = codes::small();
    codes.push(codes::tanner155());
    codes.push(codes::projective_prime(7));
    codes.push(codes::euclidean(3));
    codes
}

/// Blocks by chance.
fn some_come_back(
    tried: &Tried,
    setting: &Setting,
    times: usize,
    seen: &mut Seen,
    random: &mut Random,
) {
    for _ in 0..times {
        let (change, samples) = tried.source.some_block(setting, random);
        tried.comes_back_in_time(&change, setting, &samples, random);
        seen.count(&change, setting, &samples);
    }
}

/// Some of the large codes, from the largest column weight to the smallest.
fn some_large() -> Vec<Code> {
    vec![
        codes::eg1023(),
        codes::qc961(),
        codes::projective_prime(31),
        codes::array_code(31, 6, 31),
        codes::array_code(341, 3, 3),
        codes::euclidean(2).copies(68),
        codes::complete_graph(33),
        codes::cycle(1023),
        codes::single_row(31).copies(33),
        unlike::irregular1000(),
        unlike::without_rows_of_column_0(&codes::eg1023(), 16),
    ]
}

/// All blocks of small codes, some of medium ones and fewer of large ones, Tanner155, EG1023 and
/// QC961 among them.
#[test]
fn hostile_levels_on_codes() {
    let mut random = random(1501);
    let mut seen = Seen::default();
    for code in codes::small() {
        let tried = Tried::new(code, &mut random);
        for setting in all_settings(&mut random) {
            for (change, samples) in tried.source.blocks(&setting, &mut random) {
                tried.comes_back_in_time(&change, &setting, &samples, &mut random);
                seen.count(&change, &setting, &samples);
            }
        }
    }
    for code in codes::medium() {
        let tried = Tried::new(code, &mut random);
        for setting in all_settings(&mut random) {
            some_come_back(&tried, &setting, cases(2), &mut seen, &mut random);
        }
    }
    for code in some_large() {
        let tried = Tried::new(code, &mut random);
        for bits in 2..=8 {
            let setting = some_setting(bits, random.below(2) as u16, &mut random);
            some_come_back(&tried, &setting, cases(1), &mut seen, &mut random);
        }
    }
    let Seen { none, some, all } = seen;
    assert!(none > 1000 && some > 50 && all > 1000, "{seen:?}");
}

/// How many of the worst blocks with so many wrong places take all the rounds of the bound. A
/// bound of one round is left out, as no block is decoded without a round.
fn taking_all(tried: &Tried, size: usize, random: &mut Random) -> usize {
    let mut taking = 0;
    for setting in all_settings(random) {
        for change in tried.source.changes(size, random) {
            if change.bound(setting.bits) > 1 {
                let samples = change.of(&setting, WORST, random);
                taking += usize::from(tried.takes_all(&change, &setting, &samples, random));
            }
        }
    }
    taking
}

/// With one wrong place, and with two in one check, some block of every code takes all rounds.
#[test]
fn a_limit_one_smaller_does_not_do() {
    let mut random = random(1502);
    for code in small_and_three_more() {
        let tried = Tried::new(code, &mut random);
        for size in 1..=tried.source.half().min(2) {
            let taking = taking_all(&tried, size, &mut random);
            assert!(taking > 0, "{}, {size} wrong", tried.source.code.name);
        }
    }
}

/// Code A, width 8, the zero word with bit 0 wrong: L 127, delta 3, bound 43.
#[test]
fn code_a_needs_43_rounds() {
    let mut random = random(1503);
    let tried = Tried::new(codes::code_a(), &mut random);
    let change = tried.source.change(vec![false; 7], vec![0]);
    let setting = settings::level_step(8, 0, 0.1);
    assert_eq!(change.bound(8), 43);
    // Level 100 takes 34 rounds, the largest level all of them.
    for (first, rounds) in [(10.0, 34), (13.0, 43), (f32::MAX, 43)] {
        let samples = [first, -1.0, -1.0, -1.0, -1.0, -1.0, -1.0];
        let taken = tried.comes_back(&change, &setting, 43, &samples, &mut random);
        assert_eq!(taken, rounds);
        let taking_all = tried.takes_all(&change, &setting, &samples, &mut random);
        assert_eq!(taking_all, rounds == 43);
    }
}

/// The limit L / 2 + 1 and the largest limit; some blocks take L / 2 + 1 rounds.
#[test]
fn half_of_l_and_one_is_always_enough() {
    let mut random = random(1504);
    let mut seen = Seen::default();
    let mut most = [0; 7];
    for code in small_and_three_more() {
        let tried = Tried::new(code, &mut random);
        for setting in all_settings(&mut random) {
            for (change, samples) in tried.source.blocks(&setting, &mut random) {
                let limit = *random.pick(&[enough(setting.bits), 255]);
                let rounds = tried.comes_back(&change, &setting, limit, &samples, &mut random);
                seen.count(&change, &setting, &samples);
                let most = &mut most[usize::from(setting.bits) - 2];
                *most = rounds.max(*most);
            }
        }
    }
    let Seen { none, some, all } = seen;
    assert!(none > 1000 && some > 50 && all > 1000, "{seen:?}");
    assert_eq!([2, 3, 4, 5, 6, 7, 8].map(enough), [1, 2, 4, 8, 16, 32, 64]);
    assert_eq!([2, 3, 4, 5, 6, 7, 8].map(enough), most);
}

/// A block by chance, stepped and whole.
fn steps_back(tried: &Tried, setting: &Setting, seen: &mut Seen, random: &mut Random) {
    let (change, samples) = tried.source.some_block(setting, random);
    let steps = tried.steps_back_in_time(&change, setting, &samples, random);
    let rounds = tried.comes_back_in_time(&change, setting, &samples, random);
    assert_eq!(steps, rounds);
    seen.count(&change, setting, &samples);
}

#[test]
fn stepping_obeys_the_rule() {
    let mut random = random(1505);
    let mut seen = Seen::default();
    for code in small_and_three_more() {
        let tried = Tried::new(code, &mut random);
        for setting in all_settings(&mut random) {
            for _ in 0..cases(2) {
                steps_back(&tried, &setting, &mut seen, &mut random);
            }
        }
    }
    let tried = Tried::new(codes::eg1023(), &mut random);
    for bits in 2..=4 {
        for kind in [0, 1] {
            let setting = some_setting(bits, kind, &mut random);
            steps_back(&tried, &setting, &mut seen, &mut random);
        }
    }
    assert!(seen.none > 20 && seen.all > 100, "{seen:?}");
}

/// P10's code, E0 sent, bit 0 wrong, which is half of gamma: a right 1 of level 0 is lost to a
/// tie, and the word ends at 00; of the two bits that end different one had a level. With level 1 it
/// comes back.
#[test]
fn level_zero_matters() {
    let mut random = random(1506);
    let tried = Tried::new(codes::triangle(), &mut random);
    let change = tried.source.change(vec![true; 3], vec![0]);
    let setting = settings::level_step(3, 5, 0.5);
    assert_eq!(change.bound(3), 2);

    assert_eq!(level(&setting, 0.1), 0);
    let left = tried
        .subject
        .block(&setting, &[-1.5, 0.1, 0.5], &mut random);
    assert_eq!(left.answer, Packed::new(0, 2, 0, 1));
    assert_eq!(left.word[0], 0x00);

    assert_eq!(level(&setting, 0.25), 1);
    let samples = [-1.5, 0.25, 0.5];
    let rounds = tried.comes_back_in_time(&change, &setting, &samples, &mut random);
    assert_eq!(rounds, 2);
}

/// Nine bits and more, wherever the bound is a limit that a setting may have: it is kept, and some blocks
/// take all of its rounds.
#[test]
fn finer_levels() {
    let mut random = random(1507);
    let mut finer = Finer::default();
    for code in [small_and_three_more(), vec![codes::euclidean(4)]].concat() {
        let tried = Tried::new(code, &mut random);
        for bits in FINER {
            let setting = some_setting(bits, random.below(2) as u16, &mut random);
            for (change, samples) in tried.source.blocks_in_time(&setting, &mut random) {
                let rounds = tried.comes_back_in_time(&change, &setting, &samples, &mut random);
                finer.count(&change, bits, rounds);
            }
        }
    }
    assert!(finer.at_every_width(), "{finer:?}");
}
