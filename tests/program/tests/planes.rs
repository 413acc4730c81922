//! Checks that vote many at a time: the program counts the votes of long rows eight rows at a time where many
//! vote, and else one by one. Codes and words here stand on both sides of that, and lengths before, at and
//! behind a multiple of eight.

use generator::codes::{self, Code};
use generator::{noise, settings, stream, unlike, Codewords, Random};
use program::Program;
use reference::{failing_checks, Setting};

/// So many checks vote eight at a time; fewer vote one by one.
const MANY: usize = 32;

/// Rows of 23 to 31 columns, columns of equal and of unlike weight, lengths before, at and behind a multiple of
/// eight. Rows of 23 always vote one by one.
fn long_rows() -> Vec<Code> {
    vec![
        codes::array_code(31, 4, 23),
        codes::array_code(31, 4, 24),
        codes::array_code(29, 5, 25),
        codes::array_code(37, 5, 27),
        codes::array_code(31, 6, 31),
        unlike::without_some_rows(&codes::array_code(31, 5, 28), 15, 1),
        unlike::without_some_rows(&codes::array_code(29, 8, 29), 40, 2),
    ]
}

/// A sent word with so many bits flipped, as samples about 1 whose signs are the bits.
fn flipped(sent: &[bool], flips: usize, random: &mut Random) -> Vec<f32> {
    let mut bits = sent.to_vec();
    for place in random.different(flips, bits.len()) {
        bits[place] = !bits[place];
    }
    let size = |random: &mut Random| 0.5 + random.below(1_000) as f32 / 1_000.0;
    bits.iter()
        .map(|&bit| if bit { size(random) } else { -size(random) })
        .collect()
}

/// Compares what the program and the reference print for blocks.
fn compare(program: &Program, code: &Code, setting: &Setting, blocks: &[Vec<f32>]) {
    let input = stream::input(&code.matrix, setting, blocks);
    let name = format!("{}, limit {}", code.name, setting.limit);
    program.compare(&name, &input);
}

/// How many checks fail at first.
fn failing_at_first(code: &Code, samples: &[f32]) -> usize {
    let bits: Vec<bool> = samples.iter().map(|&sample| sample > 0.0).collect();
    failing_checks(&code.matrix, &bits)
}

/// Compares blocks with so many flips each, and gives how many checks fail in each at first.
fn compare_flipped(
    program: &Program,
    code: &Code,
    flips: &[usize],
    limit: u16,
    seed: u64,
) -> Vec<usize> {
    let mut random = Random::new(seed);
    let codewords = Codewords::of(&code.matrix);
    let blocks: Vec<Vec<f32>> = flips
        .iter()
        .map(|&count| flipped(&codewords.random(&mut random), count, &mut random))
        .collect();
    let setting = settings::level_step(8, limit, 0.03);
    compare(program, code, &setting, &blocks);
    blocks
        .iter()
        .map(|samples| failing_at_first(code, samples))
        .collect()
}

#[test]
fn few_and_many_votes() {
    let Some(program) = Program::find() else {
        return;
    };
    for (place, code) in long_rows().iter().enumerate() {
        let flips: Vec<usize> = (0..60).collect();
        let failing = compare_flipped(&program, code, &flips, 6, place as u64);
        let just_many = MANY..MANY + 16;
        assert!(
            failing.iter().any(|count| just_many.contains(count)),
            "{}: {failing:?}",
            code.name
        );
        // Checks past the eights, up to seven, vote one by one. Where all columns have even weight, the number of
        // checks that fail is even: only the rests 0, 2, 4 and 6 occur, so four are asked for.
        let rests = (0..8).filter(|rest| {
            failing
                .iter()
                .any(|count| *count >= MANY && count % 8 == *rest)
        });
        assert!(rests.count() >= 4, "{}: {failing:?}", code.name);
    }
}

#[test]
fn largest_codes() {
    let Some(program) = Program::find() else {
        return;
    };
    for code in [codes::eg1023(), codes::qc961()] {
        let failing = compare_flipped(&program, &code, &[1, 2, 15, 40, 200, 480], 3, 7);
        assert!(failing.iter().any(|&count| count > 400), "{}", code.name);
    }
}

/// How the checks that fail after a round differ from those that failed before it.
#[derive(Debug)]
struct Move {
    more: usize,
    fewer: usize,
    failing: usize,
}

impl Move {
    fn between(before: &[bool], after: &[bool]) -> Move {
        let count = |was: bool, is: bool| {
            let pairs = before.iter().zip(after);
            pairs.filter(|&pair| pair == (&was, &is)).count()
        };
        Move {
            more: count(false, true),
            fewer: count(true, false),
            failing: count(false, true) + count(true, true),
        }
    }

    /// Whether votes are added and taken; else all checks that fail vote anew.
    fn keeps_votes(&self) -> bool {
        self.more + self.fewer < self.failing
    }
}

/// The word after so many rounds, or fewer if it is decoded before.
fn word_after(code: &Code, setting: &Setting, samples: &[f32], rounds: u16) -> Vec<bool> {
    let n = code.matrix.n;
    let setting = Setting {
        limit: rounds,
        ..*setting
    };
    let mut word = vec![0; reference::byte_count(n)];
    let mut levels = vec![0; n.into()];
    reference::iterative_accepted(&code.matrix, &setting, samples, &mut word, &mut levels)
        .expect("an accepted setting");
    reference::unpack(n, &word)
}

/// Which checks of a word fail.
fn parities(code: &Code, word: &[bool]) -> Vec<bool> {
    let odd = |row: &Vec<usize>| row.iter().filter(|&&j| word[j]).count() % 2 == 1;
    code.rows().iter().map(odd).collect()
}

/// The moves of a block. The word at the limit is left out: no round uses its votes.
fn moves(code: &Code, setting: &Setting, samples: &[f32]) -> Vec<Move> {
    let failing: Vec<Vec<bool>> = (0..setting.limit)
        .map(|rounds| parities(code, &word_after(code, setting, samples, rounds)))
        .collect();
    failing
        .windows(2)
        .map(|pair| Move::between(&pair[0], &pair[1]))
        .collect()
}

/// Noise of about five rounds. After some of them many checks began to fail or no longer do, but fewer than fail in
/// all.
#[test]
fn many_votes_added_and_taken() {
    let Some(program) = Program::find() else {
        return;
    };
    for (code, step, deviation) in [
        (codes::eg1023(), 0.015, 0.51),
        (codes::qc961(), 0.025, 0.535),
    ] {
        let mut random = Random::new(1);
        let codewords = Codewords::of(&code.matrix);
        let blocks: Vec<Vec<f32>> = (0..8)
            .map(|_| noise::received(&codewords.random(&mut random), deviation, &mut random))
            .collect();
        let setting = settings::level_step(8, 6, step);
        compare(&program, &code, &setting, &blocks);
        let kept: Vec<Move> = blocks
            .iter()
            .flat_map(|samples| moves(&code, &setting, samples))
            .filter(Move::keeps_votes)
            .collect();
        let name = &code.name;
        assert!(kept.iter().any(|to| to.more >= MANY), "{name}: {kept:?}");
        assert!(kept.iter().any(|to| to.fewer >= MANY), "{name}: {kept:?}");
    }
}
