//! Inputs of the program, of many kinds: whole runs, refused ones, and ones that end too early.

use crate::codes::{self, Code};
use crate::random::Random;
use crate::{damage, noise, settings, stream, Codewords};
use reference::Setting;

/// An input with a name for messages.
pub type Named = (String, Vec<u8>);

/// Blocks of a code: codewords with noise, some of them refused by 8, some without noise or with
/// zeros and the largest floats.
pub fn blocks(code: &Code, count: usize, scale: f32, random: &mut Random) -> Vec<Vec<f32>> {
    let n = usize::from(code.matrix.n);
    let codewords = Codewords::of(&code.matrix);
    (0..count)
        .map(|_| {
            let deviation = *random.pick(&[0.0, 0.3, 0.5, 0.7, 1.0, 3.0]);
            let mut samples = noise::received(&codewords.random(random), deviation, random);
            samples.iter_mut().for_each(|sample| *sample *= scale);
            match random.below(8) {
                0 => samples[random.below(n)] = f32::INFINITY,
                1 => samples[random.below(n)] = -f32::from_bits(0x7F80_0001),
                2 => samples.fill(*random.pick(&[0.0, -0.0, 1e-30, f32::MAX])),
                3 => samples[random.below(n)] = f32::MIN,
                _ => {}
            }
            samples
        })
        .collect()
}

/// What may stand after the last block: nothing as a rule, or a piece of a block.
fn tail(n: usize, random: &mut Random) -> Vec<u8> {
    match random.below(6) {
        0 => random.bytes(1),
        1 => random.bytes(4 * n - 1),
        2 => {
            let count = 1 + random.below(4 * n - 1);
            random.bytes(count)
        }
        _ => Vec::new(),
    }
}

/// Blocks of a code with a setting, and perhaps a tail.
pub fn of_code(code: &Code, setting: &Setting, count: usize, random: &mut Random) -> Named {
    let blocks = blocks(code, count, 1.0, random);
    let mut input = stream::input(&code.matrix, setting, &blocks);
    input.extend(tail(usize::from(code.matrix.n), random));
    let name = format!("{count} blocks of {}, {setting:?}", code.name);
    (name, input)
}

/// Every small and medium code and two large ones, settings of every width and kind.
pub fn whole_runs(random: &mut Random) -> Vec<Named> {
    let mut inputs = Vec::new();
    let mut all = [codes::small(), codes::medium()].concat();
    all.extend([codes::single_row(3).copies(341), codes::cycle(1023)]);
    for (at, code) in all.iter().enumerate() {
        let (bits, kind) = (2 + (at % 11) as u16, (at / 11 % 2) as u16);
        let limit = *random.pick(&[0, 1, 2, 5, 30, 255]);
        let setting = settings::around_one(bits, limit, kind, random);
        inputs.push(of_code(code, &setting, random.below(8), random));
    }
    for code in [codes::eg1023(), codes::qc961(), codes::tanner155()] {
        let setting = settings::around_one(8, 12, 1, random);
        inputs.push(of_code(&code, &setting, 4, random));
    }
    inputs
}

/// Heads that are refused: sizes, lists and settings.
pub fn refused_heads(random: &mut Random) -> Vec<Named> {
    let mut inputs = Vec::new();
    let codes = codes::small();
    for at in 0..60 {
        let code = random.pick(&codes).clone();
        let mut h = code.matrix.clone();
        damage::change(&mut h, random);
        if at % 4 == 0 {
            damage::change(&mut h, random);
        }
        let setting = settings::some(random);
        // The list is read as m × rho numbers, however many there are.
        let input = stream::input(&h, &setting, &blocks(&code, 2, 1.0, random));
        inputs.push((format!("{} damaged", code.name), input));
    }
    let a = codes::code_a();
    let good = settings::level_step(3, 5, 0.5);
    let blocks = blocks(&a, 3, 1.0, random);
    for refused in settings::refused(&good) {
        // Numbers beyond a byte are cut, and some of them are then accepted.
        let input = stream::input(&a.matrix, &refused, &blocks);
        inputs.push((format!("code A, {refused:?}"), input));
    }
    for limit in [0, 1, 254, 255] {
        let setting = settings::level_step(2, limit, 1.0);
        let input = stream::input(&a.matrix, &setting, &blocks);
        inputs.push((format!("code A, limit {limit}"), input));
    }
    inputs
}

/// Bytes by chance, bytes changed in a good input, inputs cut anywhere.
pub fn by_chance(count: usize, random: &mut Random) -> Vec<Named> {
    let codes = codes::small();
    (0..count)
        .map(|at| {
            let code = random.pick(&codes).clone();
            let setting = settings::some(random);
            let blocks = blocks(&code, 3, setting.step, random);
            let mut input = stream::input(&code.matrix, &setting, &blocks);
            match random.below(4) {
                0 => {
                    let length = random.below(80);
                    input = random.bytes(length);
                }
                1 => input.truncate(random.below(input.len())),
                _ => {
                    let at = random.below(input.len());
                    input[at] = random.byte();
                }
            }
            (format!("by chance {at}"), input)
        })
        .collect()
}
