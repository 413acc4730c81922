//! The flipping rule for iterative voting in the program's lines: with a round limit of L / 2 + 1,
//! a codeword with at most gamma / 2 wrong samples, of any strength, is printed as it was sent, and
//! those of them with a level are counted. With more than 9 bits that limit is more than 255, and the
//! rule holds for as many wrong samples as 255 rounds are enough for.

use generator::codes::{self, Code};
use generator::{patterns, settings, stream, Codewords, Random};
use program::{assert_same, Program};
use reference::{pack, Setting};

/// L / 2 + 1, or as many as there can be.
fn most_rounds(bits: u16) -> u16 {
    ((1 << (bits - 2)) as u16).min(255)
}

/// Levels alike by their share of L, whatever the width. A sample below half of the step has no level.
fn setting(bits: u16) -> Setting {
    let finer = f32::from(1_u16 << (bits - 8));
    settings::level_step(bits, most_rounds(bits), 0.1 / finer)
}

/// The rounds after which so many wrong bits are right at the latest.
fn rounds_for(bits: u16, gamma: u16, wrong: usize) -> usize {
    let (largest, gamma) = ((1 << (bits - 1)) - 1, usize::from(gamma));
    match wrong {
        0 => 0,
        _ => largest / (gamma + 2 - 2 * wrong) + 1,
    }
}

/// Of the blocks with so many wrong samples: how many quarters of these have no level.
const QUARTERS: [usize; 12] = [0, 0, 0, 0, 0, 0, 0, 0, 1, 2, 3, 4];

/// What was sent, how many of its bits arrive wrong, and how many of these without a level.
struct Sent {
    word: Vec<bool>,
    wrong: usize,
    undecided: usize,
}

/// The size of a sample without a level. A zero is no 1.
fn tiny(step: f32, bit: bool, random: &mut Random) -> f32 {
    let least = f32::from_bits(1);
    let sizes = [least, step / 4.0, (step / 2.0).next_down(), 0.0, -0.0];
    *random.pick(if bit { &sizes[..3] } else { &sizes })
}

/// Right samples are weak, but not of level 0; wrong ones are without a level, as weak, or ten times as
/// strong.
fn samples(step: f32, sent: &Sent, random: &mut Random) -> Vec<f32> {
    let places = random.different(sent.wrong, sent.word.len());
    let arrived = patterns::flipped(&sent.word, &places);
    let (undecided, decided) = places.split_at(sent.undecided);
    let sized = arrived.iter().enumerate().map(|(place, &bit)| {
        let size = if undecided.contains(&place) {
            tiny(step, bit, random)
        } else if decided.contains(&place) && !random.once_in(4) {
            10.0
        } else {
            1.0
        };
        if bit {
            size
        } else {
            -size
        }
    });
    sized.collect()
}

/// Every number of wrong bits that the rule allows, some times each.
fn blocks(code: &Code, bits: u16, random: &mut Random) -> Vec<Sent> {
    let codewords = Codewords::of(&code.matrix);
    let gamma = code.matrix.gamma;
    let allowed = (0..=usize::from(gamma) / 2)
        .filter(|&wrong| rounds_for(bits, gamma, wrong) <= most_rounds(bits).into());
    let counts = allowed.flat_map(|wrong| QUARTERS.map(|quarters| (wrong, quarters)));
    let sent = counts.map(|(wrong, quarters)| Sent {
        word: codewords.random(random),
        wrong,
        undecided: (wrong * quarters).div_ceil(4),
    });
    sent.collect()
}

/// The fields of a line but the rounds, which the rule only bounds.
fn told(line: &str) -> (Vec<&str>, u16) {
    let mut fields: Vec<&str> = line.split(' ').collect();
    let rounds = fields.remove(2);
    (fields, rounds.parse().expect("rounds are a number"))
}

/// The lines with changed below the number of wrong bits: 0, or more; and those with more rounds than
/// any width up to 9 asks for.
#[derive(Debug, Default)]
struct Seen {
    none: usize,
    some: usize,
    many: usize,
}

fn check(program: &Program, code: &Code, bits: u16, seen: &mut Seen, random: &mut Random) {
    let (sent, setting) = (blocks(code, bits, random), setting(bits));
    let lent: Vec<Vec<f32>> = sent
        .iter()
        .map(|block| samples(setting.step, block, random))
        .collect();
    let input = stream::input(&code.matrix, &setting, &lent);
    let printed = program.printed(&input);
    // The reference takes its time on large codes.
    if code.matrix.n < 200 {
        assert_same(&code.name, &printed, &reference::program(&input));
    }
    let lines = String::from_utf8(printed).expect("lines are text");
    assert_eq!(lines.lines().count(), sent.len() + 1, "{}", code.name);
    for (number, (line, block)) in lines.lines().skip(1).zip(&sent).enumerate() {
        let word: String = pack(&block.word)
            .iter()
            .map(|byte| format!("{byte:02x}"))
            .collect();
        let (fields, rounds) = told(line);
        let expected = [
            &number.to_string(),
            "decoded",
            "0",
            &(block.wrong - block.undecided).to_string(),
            &word,
        ];
        assert_eq!(fields, expected, "{}: {line}", code.name);
        assert_eq!(rounds == 0, block.wrong == 0, "{}: {line}", code.name);
        let enough = rounds_for(bits, code.matrix.gamma, block.wrong);
        assert!(usize::from(rounds) <= enough, "{}: {line}", code.name);
        seen.many += usize::from(rounds > 128);
        let changed: usize = fields[3].parse().expect("changed is a number");
        seen.none += usize::from(changed == 0 && 0 < block.wrong);
        seen.some += usize::from(0 < changed && changed < block.wrong);
    }
}

#[test]
fn lines_tell_what_was_sent() {
    let Some(program) = Program::find() else {
        return;
    };
    let mut random = Random::new(47);
    let mut seen = Seen::default();
    for code in codes::small()
        .iter()
        .chain(&codes::medium())
        .chain(&codes::large())
    {
        check(&program, code, 8, &mut seen, &mut random);
    }
    assert!(seen.none > 500 && seen.some > 500, "{seen:?}");
}

/// The same with finer levels: all of gamma / 2 with 9 bits, fewer with more.
#[test]
fn finer_levels() {
    let Some(program) = Program::find() else {
        return;
    };
    let mut random = Random::new(48);
    let mut seen = Seen::default();
    for bits in 9..=12 {
        for code in codes::small().iter().chain(&codes::medium()) {
            check(&program, code, bits, &mut seen, &mut random);
        }
        check(&program, &codes::qc961(), bits, &mut seen, &mut random);
    }
    assert!(seen.many > 100, "{seen:?}");
}
