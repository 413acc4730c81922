//! The codes that are measured, each with the step and the noise at which about five rounds are
//! needed: b = 8, limit 30, found by trying deviations on the same seed.

use generator::codes::{self, Code};
use generator::{noise, settings, stream, unlike, Codewords, Random};

/// A code, its step and its deviation.
pub type Case = (Code, f32, f64);

/// The four codes of most tables.
pub fn cases() -> [Case; 4] {
    [
        (codes::eg1023(), 0.015, 0.51),
        (codes::qc961(), 0.025, 0.535),
        (codes::tanner155(), 0.1, 0.585),
        (unlike::irregular1000(), 0.1, 0.54),
    ]
}

/// Codes of 7 to 1,023 bits, the shortest first, those four among them. The planes' weights grow
/// with the root of n, those of the others are small or unlike.
pub fn by_length() -> Vec<Case> {
    let mut all = vec![
        (codes::projective(1), 0.055, 1.08),
        (codes::euclidean(2), 0.1, 0.99),
        (codes::projective(2), 0.08, 0.97),
        (codes::array_code(7, 3, 5), 0.13, 0.675),
        (codes::euclidean(3), 0.05, 0.67),
        (codes::projective(3), 0.045, 0.66),
        (codes::array_code(17, 4, 7), 0.1, 0.575),
        (codes::euclidean(4), 0.025, 0.57),
        (codes::projective(4), 0.0235, 0.565),
        (codes::array_code(31, 5, 17), 0.05, 0.48),
    ];
    all.extend(cases());
    all.sort_by_key(|(code, _, _)| code.matrix.n);
    all
}

/// The input of so many blocks, limit 30.
pub fn input(code: &Code, bits: u16, step: f32, deviation: f64, count: usize) -> Vec<u8> {
    let mut random = Random::new(1);
    let codewords = Codewords::of(&code.matrix);
    let blocks: Vec<Vec<f32>> = (0..count)
        .map(|_| {
            let sent = codewords.random(&mut random);
            noise::received(&sent, deviation, &mut random)
        })
        .collect();
    stream::input(&code.matrix, &settings::level_step(bits, 30, step), &blocks)
}
