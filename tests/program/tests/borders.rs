//! Samples beside the borders of levels: the program guesses a level, asks a table for it, and takes the
//! exact rule for a block of which a guess is wrong.

use generator::{codes, settings, stream, unlike};
use program::{assert_same, Program};
use reference::{largest_level, level, Setting};
use std::collections::BTreeMap;

const STEPS: [f32; 9] = [
    0.1,
    0.015,
    1.0 / 3.0,
    1.0 / 1_048_576.0,
    1_048_576.0,
    0.25,
    4.0,
    1.7,
    // A full scale with borders that are floats, at 8 bits.
    127.0,
];

/// Widths, and every step as a level step and as a full scale.
fn all_settings() -> Vec<Setting> {
    let mut all = Vec::new();
    for bits in [2, 5, 8, 12] {
        for step in STEPS {
            all.push(settings::level_step(bits, 255, step));
            all.push(settings::full_scale(bits, 255, step));
        }
    }
    all
}

/// The levels whose borders are asked: all, or of 12 bits some.
fn levels(bits: u16) -> Vec<i32> {
    let largest = largest_level(bits);
    let asked = |q: &i32| bits < 12 || q % 37 == 0 || *q <= 5 || largest - q < 5;
    (1..=largest).filter(asked).collect()
}

/// How many levels a step has.
fn gain(setting: &Setting) -> i32 {
    match setting.kind {
        0 => 1,
        _ => largest_level(setting.bits),
    }
}

/// The float nearest to so many halves of a level.
fn halves(setting: &Setting, count: i32) -> f32 {
    (f64::from(count) * f64::from(setting.step) / f64::from(2 * gain(setting))) as f32
}

/// The same where it is exact. The products have at most 37 places.
fn exact_halves(setting: &Setting, count: i32) -> Option<f32> {
    let sample = halves(setting, count);
    let exact = f64::from(sample) * f64::from(2 * gain(setting))
        == f64::from(count) * f64::from(setting.step);
    exact.then_some(sample)
}

/// The float nearest to the border below level q, and two on each side: the first is below the border,
/// the last is not.
fn beside(setting: &Setting, q: i32) -> [f32; 5] {
    let nearest = halves(setting, 2 * q - 1).to_bits();
    let floats = [0, 1, 2, 3, 4].map(|place| f32::from_bits(nearest - 2 + place));
    assert_eq!(level(setting, floats[0]), q - 1, "{setting:?}");
    assert_eq!(level(setting, floats[4]), q, "{setting:?}");
    floats
}

/// Floats beside all borders that are asked, exact half-ways and exact levels, and the ends of the range,
/// each with both signs.
fn samples(setting: &Setting) -> Vec<f32> {
    let mut sizes = vec![0.0, f32::from_bits(1), f32::MAX];
    for q in levels(setting.bits) {
        sizes.extend(beside(setting, q));
        let exact = [2 * q - 1, 2 * q].map(|count| exact_halves(setting, count));
        sizes.extend(exact.into_iter().flatten());
    }
    sizes.iter().flat_map(|&size| [size, -size]).collect()
}

/// Blocks of nothing but such samples, and two refused ones among them. With limit 0 the lines rest on the
/// hard bits alone, with 3 on the lowest levels too.
#[test]
fn blocks_of_borders() {
    let Some(program) = Program::find() else {
        return;
    };
    let code = codes::code_a();
    let n = usize::from(code.matrix.n);
    for setting in all_settings() {
        let samples = samples(&setting);
        let filled = samples.len().next_multiple_of(n);
        let around: Vec<f32> = samples.iter().copied().cycle().take(filled).collect();
        let mut blocks: Vec<Vec<f32>> = around.chunks(n).map(<[f32]>::to_vec).collect();
        for (place, fault) in [(1, f32::INFINITY), (3, f32::NAN)] {
            let mut refused = blocks[0].clone();
            refused[n - 1] = fault;
            blocks.insert(place, refused);
        }
        for limit in [0, 3] {
            let setting = Setting { limit, ..setting };
            let input = stream::input(&code.matrix, &setting, &blocks);
            let expected = reference::program(&input);
            let refused = String::from_utf8_lossy(&expected)
                .matches(" refused 8 6\n")
                .count();
            assert_eq!(refused, 2, "{setting:?}");
            let name = format!("{}, {setting:?}", code.name);
            assert_same(&name, &program.printed(&input), &expected);
        }
    }
}

/// A star whose hub, with a bit unlike all the others, moves towards 0 by `total` in `rounds` rounds: by its
/// number of rows in each, and by 2 less in each of the last `fewer`, as one of its leaves has turned.
struct Clock {
    rows: usize,
    rounds: i32,
    fewer: i32,
}

impl Clock {
    /// The smallest such star, the leaf having time to turn back before round 255.
    fn of(total: i32) -> Clock {
        let clocks = (1..=32).map(|rows| {
            let rounds = (total + rows - 1) / rows;
            let spare = rows * rounds - total;
            (rows, rounds, spare)
        });
        let (rows, rounds, spare) = clocks
            .filter(|(_, rounds, spare)| spare % 2 == 0 && (*spare == 0 || spare / 2 < *rounds))
            .find(|(_, rounds, spare)| rounds + spare / 2 < 250)
            .expect("a star of up to 32 rows");
        Clock {
            rows: rows as usize,
            rounds,
            fewer: spare / 2,
        }
    }

    /// A block with this sample in the hub, and leaves well within their levels on the other side.
    fn block(&self, setting: &Setting, hub: f32) -> Vec<f32> {
        let positive = hub.is_sign_positive();
        let leaf = |level: i32| {
            let size = halves(setting, 2 * level);
            if positive {
                -size
            } else {
                size
            }
        };
        let mut block = vec![leaf(largest_level(setting.bits)); 1 + self.rows];
        block[0] = hub;
        if self.fewer > 0 {
            // A 0 turns when its level is above 0, a 1 when it is not.
            let turned = self.rounds - self.fewer;
            block[1] = leaf(if positive { turned - 1 } else { turned });
        }
        block
    }
}

/// The lines of an output without their block's number.
fn told(output: &[u8]) -> Vec<String> {
    let output = String::from_utf8_lossy(output);
    let lines = output.lines().skip(1);
    lines
        .map(|line| line.split_once(' ').expect("a number").1.to_owned())
        .collect()
}

/// One sample beside a border in a block, whose line says on which side it is: a 1 in the hub turns when its
/// level has become 0, a 0 when its level is above. The other guesses are right, so that the line rests on
/// the table where this one is right too.
#[test]
fn every_border_shows() {
    let Some(program) = Program::find() else {
        return;
    };
    let mut borders = 0;
    for setting in all_settings() {
        let mut blocks: BTreeMap<usize, Vec<Vec<f32>>> = BTreeMap::new();
        for q in levels(setting.bits) {
            let above = Clock::of(q - 1);
            let below = Clock::of(q);
            for (clock, sign) in [(above, 1.0), (below, -1.0)] {
                let lent = beside(&setting, q).map(|size| clock.block(&setting, sign * size));
                blocks.entry(clock.rows).or_default().extend(lent);
            }
        }
        for (rows, blocks) in blocks {
            let code = unlike::star(rows, 2);
            let input = stream::input(&code.matrix, &setting, &blocks);
            let expected = reference::program(&input);
            let lines = told(&expected);
            assert_eq!(lines.len(), blocks.len(), "{}, {setting:?}", code.name);
            for (five, blocks) in lines.chunks(5).zip(blocks.chunks(5)) {
                assert_ne!(five[0], five[4], "{setting:?}, {:?}", blocks[0]);
                borders += 1;
            }
            let name = format!("{}, {setting:?}", code.name);
            assert_same(&name, &program.printed(&input), &expected);
        }
    }
    assert!(borders > 5000, "{borders} borders");
}
