//! Blocks with b up to 8 whose answers are stored, and the lines in which they are stored.
//!
//! Card 7: "All answers with b up to 8 are unchanged." The stored lines, in tests/differential/stored,
//! were written before the card by the reference decoder as it was then; examples/before.rs says how.
//! So that the blocks are the same on every machine, their noise is made of whole numbers.

use crate::codes::{self, Code};
use crate::{settings, unlike, Codewords, Random};
use reference::{byte_count, Answer, Outcome, Refusal, Session, Setting};

/// A block of a code, and what it is decoded with.
pub struct Case {
    pub code: Code,
    pub setting: Setting,
    pub samples: Vec<f32>,
}

/// Codes of few columns, of some and of many, with how many blocks of each width and kind.
fn stored_codes() -> Vec<(Code, usize)> {
    vec![
        (codes::single_row(2), 1),
        (codes::triangle(), 1),
        (codes::code_a(), 5),
        (codes::code_b(), 3),
        (codes::grid(4), 3),
        (unlike::code_u(), 3),
        (unlike::wheel(5), 2),
        (codes::projective(2), 4),
        (codes::tanner155(), 5),
        (codes::projective_prime(7), 4),
        (codes::euclidean(4), 2),
        (unlike::irregular504(), 2),
        (codes::eg1023(), 1),
    ]
}

/// A codeword with noise of whole multiples of 2^−10, from none to one that hides the word.
fn received(codewords: &Codewords, random: &mut Random) -> Vec<f32> {
    let width = *random.pick(&[1, 600, 750, 850, 950, 1100, 1500, 4000]);
    let mut samples = Vec::new();
    for bit in codewords.random(random) {
        let noise: usize = (0..4).map(|_| random.below(width)).sum();
        let symbol = if bit { 1024 } else { -1024 };
        samples.push((symbol + noise as i32 - 2 * width as i32) as f32 / 1024.0);
    }
    samples
}

/// A setting of this width and kind for samples around ±1, its limit and step by chance.
fn some_setting(bits: u16, kind: u16, random: &mut Random) -> Setting {
    let limit = *random.pick(&[0, 1, 3, 12, 30, 60]);
    let steps = match kind {
        0 => [0.5, 0.25, 0.1, 0.05, 0.02, 0.01],
        _ => [0.5, 1.0, 1.5, 2.0, 3.0, 4.0],
    };
    let step = *random.pick(&steps);
    Setting {
        kind,
        ..settings::level_step(bits, limit, step)
    }
}

/// As it is; or some samples become zeros of both signs, half-ways, the smallest and the largest; or one
/// of them is not finite; or the setting is out of range.
fn disturbed(mut case: Case, random: &mut Random) -> Case {
    let (n, half) = (case.samples.len(), case.setting.step / 2.0);
    let tiny = f32::from_bits(1);
    let others = [0.0, -0.0, half, -half, 3.0 * half, tiny, -tiny, f32::MAX];
    match random.below(40) {
        0 => case.samples[random.below(n)] = *random.pick(&[f32::NAN, f32::INFINITY]),
        1 => case.setting.limit += 256,
        2 => case.setting.bits = random.below(2) as u16,
        3 => case.setting.step = -case.setting.step,
        4..=11 => {
            for sample in &mut case.samples {
                if random.once_in(4) {
                    *sample = *random.pick(&others);
                }
            }
        }
        _ => {}
    }
    case
}

/// The blocks, the same ones each time.
pub fn blocks() -> Vec<Case> {
    let mut random = Random::new(7);
    let mut blocks = Vec::new();
    for (code, times) in stored_codes() {
        let codewords = Codewords::of(&code.matrix);
        for bits in 2..=8 {
            for at in 0..2 * times {
                let setting = some_setting(bits, (at % 2) as u16, &mut random);
                let case = Case {
                    code: code.clone(),
                    setting,
                    samples: received(&codewords, &mut random),
                };
                blocks.push(disturbed(case, &mut random));
            }
        }
    }
    blocks
}

/// A digest of numbers, byte by byte (FNV-1a of 64 bits).
#[derive(Clone, Copy, Debug, PartialEq)]
pub struct Digest(u64);

impl Digest {
    pub const NONE: Digest = Digest(0xCBF2_9CE4_8422_2325);

    pub fn of(numbers: impl IntoIterator<Item = i32>) -> Digest {
        Digest::NONE.and(numbers)
    }

    /// With further numbers.
    pub fn and(mut self, numbers: impl IntoIterator<Item = i32>) -> Digest {
        for byte in numbers.into_iter().flat_map(i32::to_le_bytes) {
            self.0 = (self.0 ^ u64::from(byte)).wrapping_mul(0x0100_0000_01B3);
        }
        self
    }
}

/// What a call from samples or a step says and leaves: the answer as text, the word, and the levels as
/// numbers.
#[derive(Clone, Debug, PartialEq)]
pub struct Left {
    pub answer: String,
    pub word: Vec<u8>,
    pub levels: Vec<i32>,
}

impl Left {
    /// The answer's numbers are the code, 0 decoded, 1 failed or 2 working, rounds, failing and changed.
    pub fn new<L: Into<i32> + Copy>(answer: [usize; 4], word: &[u8], levels: &[L]) -> Left {
        let [code, rounds, failing, changed] = answer;
        let end = ["decoded", "failed", "working"][code];
        Left {
            answer: format!("{end} {rounds} {failing} {changed}"),
            word: word.to_vec(),
            levels: levels.iter().map(|&level| level.into()).collect(),
        }
    }

    /// A refused call leaves everything.
    pub fn refused(number: usize, place: usize) -> Left {
        Left {
            answer: format!("refused {number} {place}"),
            word: Vec::new(),
            levels: Vec::new(),
        }
    }

    fn numbers(&self) -> impl Iterator<Item = i32> + '_ {
        let bytes = self.answer.bytes().chain(self.word.iter().copied());
        bytes.map(i32::from).chain(self.levels.iter().copied())
    }
}

/// What the calls on a block leave: the whole call, the opening, and each step of the session.
pub struct Outputs {
    pub whole: Left,
    pub opened: Left,
    pub steps: Vec<Left>,
}

/// Up to 16 levels as they are; of more the first eight, and a digest of all.
fn levels_text(levels: &[i32]) -> String {
    let text = |levels: &[i32]| -> Vec<String> { levels.iter().map(i32::to_string).collect() };
    match levels.len() {
        0 => "-".into(),
        1..=16 => text(levels).join(","),
        _ => {
            let Digest(digest) = Digest::of(levels.iter().copied());
            format!("{},{digest:016x}", text(&levels[..8]).join(","))
        }
    }
}

fn word_text(word: &[u8]) -> String {
    match word.len() {
        0 => "-".into(),
        _ => word.iter().map(|byte| format!("{byte:02x}")).collect(),
    }
}

/// The line of a block: code, b, limit, kind and step, a digest of the samples; the answer of the whole
/// call, its word and levels; the answer and the levels of the opening; the number of the steps, and a
/// digest of all that they say and leave.
pub fn line(case: &Case, outputs: &Outputs) -> String {
    let Case {
        code,
        setting,
        samples,
    } = case;
    let Digest(of_samples) = Digest::of(samples.iter().map(|y| y.to_bits() as i32));
    let steps = &outputs.steps;
    let Digest(of_steps) = Digest::of(steps.iter().flat_map(Left::numbers));
    let Outputs { whole, opened, .. } = outputs;
    let fields = [
        code.name.replace(' ', "_"),
        format!("{} {} {}", setting.bits, setting.limit, setting.kind),
        format!("{:08x} {of_samples:016x}", setting.step.to_bits()),
        whole.answer.clone(),
        word_text(&whole.word),
        levels_text(&whole.levels),
        opened.answer.clone(),
        levels_text(&opened.levels),
        format!("{} {of_steps:016x}", steps.len()),
    ];
    fields.join(" ")
}

/// What an answer of the reference is here. Levels are of whatever type the reference has.
fn told<L: Into<i32> + Copy>(answer: Result<Answer, Refusal>, word: &[u8], levels: &[L]) -> Left {
    match answer {
        Err(Refusal { number, place }) => Left::refused(number.into(), place.into()),
        Ok(answer) => {
            let code = match answer.outcome {
                Outcome::Decoded => 0,
                Outcome::Failed => 1,
                Outcome::Working => 2,
            };
            let Answer {
                rounds,
                failing,
                changed,
                ..
            } = answer;
            Left::new([code, rounds, failing, changed], word, levels)
        }
    }
}

/// What the reference's calls leave of a block.
pub fn by_reference(case: &Case) -> Outputs {
    let (h, setting, samples) = (&case.code.matrix, &case.setting, &case.samples[..]);
    let (mut word, mut levels) = (vec![0; byte_count(h.n)], vec![0; h.n.into()]);
    let answer = reference::iterative_accepted(h, setting, samples, &mut word, &mut levels);
    let whole = told(answer, &word, &levels);
    let mut record = Session::EMPTY;
    let ok = Ok(());
    let answer =
        reference::open_checked(&mut record, h, ok, setting, samples, &mut word, &mut levels);
    let opened = told(answer, &word, &levels);
    let (received, first) = (word.clone(), levels.clone());
    let mut steps = Vec::new();
    let mut working = opened.answer.starts_with("working");
    while working {
        let answer = reference::step_checked(
            &mut record,
            h,
            ok,
            &received,
            &first,
            &mut word,
            &mut levels,
        );
        let left = told(answer, &word, &levels);
        working = left.answer.starts_with("working");
        steps.push(left);
    }
    Outputs {
        whole,
        opened,
        steps,
    }
}

/// All lines, by the reference.
pub fn lines() -> String {
    let line = |case: &Case| line(case, &by_reference(case)) + "\n";
    blocks().iter().map(line).collect()
}
