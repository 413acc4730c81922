//! The function called from C, compared with the reference: returned number, every byte of the
//! written buffers, and the bytes around them.

use firmware_c::{cases, hexadecimal, random, Case, Workshop};
use generator::codes::{self, Code};
use generator::{damage, inputs, patterns, settings, unlike, Codewords, Random};
use std::path::PathBuf;
use std::sync::OnceLock;

/// P6's samples of document 01.
const P6: [f32; 7] = [0.5, -1.0, -1.0, -1.0, -1.0, -1.0, -1.0];

fn workshop() -> &'static (Workshop, PathBuf) {
    static BUILT: OnceLock<(Workshop, PathBuf)> = OnceLock::new();
    BUILT.get_or_init(|| {
        let workshop = Workshop::new(env!("CARGO_TARGET_TMPDIR"), "calls");
        let program = workshop.build("calls", &[]);
        (workshop, program)
    })
}

fn compare(name: &str, cases: &[Case]) {
    let (workshop, program) = workshop();
    Case::compare(program, &workshop.path(&format!("{name}.calls")), cases);
}

fn p6() -> Case {
    Case::new(&codes::code_a(), &settings::level_step(3, 5, 0.5), &P6)
}

/// P6 to P8 of document 01. Its numbers are written out, so that the reference is held to them too.
#[test]
fn worked() {
    let a = codes::code_a();
    let p7 = Case::new(&a, &settings::level_step(3, 0, 0.5), &P6);
    let p8 = Case::new(&a, &settings::level_step(3, 5, 0.5), &[0.1; 7]);
    let six = |level: &str| level.repeat(6);
    let p6_line = format!("0 x00 xfeff{} x0100000001000000 kept", six("fdff"));
    let p7_line = format!("1 x80 x0100{} x0000030000000000 kept", six("feff"));
    let p8_line = format!("0 x00 xfdff{} x0100000000000000 kept", six("fdff"));
    assert_eq!(
        [p6(), p7.clone(), p8.clone()].map(|case| case.line()),
        [p6_line, p7_line, p8_line]
    );
    compare("worked", &[p6(), p7, p8]);
}

/// Every length from none to a few more than P6 needs.
#[test]
fn lengths() {
    let mut cases = Vec::new();
    let mut vary = |name: &str, most: usize, buffer: fn(&mut Case) -> &mut Vec<u8>| {
        for length in 0..=most {
            let mut case = p6().named(&format!("{name} {length}"));
            buffer(&mut case).resize(length, 0x77);
            cases.push(case);
        }
    };
    vary("list", 2 * 21 + 5, |case| &mut case.list);
    vary("samples", 4 * 7 + 9, |case| &mut case.samples);
    vary("word", 4, |case| &mut case.word);
    vary("levels", 2 * 7 + 5, |case| &mut case.levels);
    vary("report", 11, |case| &mut case.report);
    let refused = |number: u32| {
        let begin = format!("{} ", number * 65536);
        cases
            .iter()
            .filter(|case| case.line().starts_with(&begin))
            .count()
    };
    assert_eq!((refused(2), refused(7)), (47, 37 + 1 + 14 + 8));
    compare("lengths", &cases);
}

/// Each written buffer longer by some bytes by chance.
fn lengthen(case: &mut Case, random: &mut Random) {
    for buffer in [&mut case.word, &mut case.levels, &mut case.report] {
        let more = random.below(20);
        buffer.extend(random.bytes(more));
    }
}

/// Every step whose exponent is 255 and whose mantissa has one bit or none, and some others; the
/// range's ends and their neighbours; each with every kind.
#[test]
fn steps() {
    let mut random = random(3200);
    let mut steps = vec![0x7F80_0000, 0x7FFF_FFFF];
    steps.extend((0..23).map(|place| 0x7F80_0000 | 1 << place));
    steps.extend((0..20).map(|_| 0x7F80_0000 | random.number() as u32 >> 9));
    for end in [0x3580_0000, 0x4980_0000] {
        steps.extend([end - 1, end, end + 1]);
    }
    steps.extend([0, 1, 0x007F_FFFF, 0x0080_0000, 0x7F7F_FFFF]);
    let mut cases = Vec::new();
    for step in steps {
        for sign in [0, 0x8000_0000] {
            for kind in [0, 1, 2, 255, 256, 65_535] {
                let step = step | sign;
                let more = format!("kind {kind}, step {step:08x}");
                cases.push(Case {
                    kind,
                    step,
                    ..p6().named(&more)
                });
            }
        }
    }
    compare("steps", &cases);
}

/// Each level from −L to L through the bytes, for every width: in blocks of EG255, with a sample of step
/// 0.5 for each. No round is done, so that the levels are the samples'.
#[test]
fn levels() {
    let code = codes::euclidean(4);
    let mut cases = Vec::new();
    for bits in 2..=12 {
        let largest = (1 << (bits - 1)) - 1;
        let all: Vec<i32> = (-largest..=largest).collect();
        for some in all.chunks(255) {
            let levels: Vec<i32> = some.iter().copied().cycle().take(255).collect();
            let samples: Vec<f32> = levels.iter().map(|&level| level as f32 * 0.5).collect();
            let case = Case::new(&code, &settings::level_step(bits, 0, 0.5), &samples);
            // A level below 0 is the number 65,536 above it.
            let number = |&level: &i32| (if level < 0 { 65_536 + level } else { level }) as u32;
            let two = |number: u32| [(number % 256) as u8, (number / 256) as u8];
            let expected: Vec<u8> = levels.iter().map(number).flat_map(two).collect();
            let line = case.line();
            assert_eq!(
                line.split(' ').nth(2),
                Some(format!("x{}", hexadecimal(&expected)).as_str())
            );
            let full = largest as f32 * 0.5;
            let scaled = Case::new(&code, &settings::full_scale(bits, 0, full), &samples);
            assert_eq!(scaled.line(), line);
            cases.extend([case, scaled]);
        }
    }
    // One block for each width up to 8 bits; then 511, 1,023, 2,047 and 4,095 levels.
    assert_eq!(cases.len(), 2 * (7 + 3 + 5 + 9 + 17));
    compare("levels", &cases);
}

/// Widths on both sides of each end, with every limit at an end; each with a level buffer that is just
/// long enough, a byte short, and one and two bytes longer, whose last bytes stay.
#[test]
fn widths() {
    let mut cases = Vec::new();
    for bits in [
        0, 1, 2, 3, 7, 8, 9, 10, 11, 12, 13, 14, 16, 255, 256, 264, 265, 268, 65_535,
    ] {
        for limit in [0, 255, 256] {
            for bytes in [13, 14, 15, 16] {
                let more = format!("bits {bits}, limit {limit}, {bytes} bytes for levels");
                let mut case = p6().named(&more);
                (case.bits, case.limit) = (bits, limit);
                case.levels.resize(bytes, 0x77);
                let expected = match bytes {
                    _ if !(2..=12).contains(&bits) || limit == 256 => 6,
                    13 => 7,
                    _ => 0,
                };
                assert_eq!(number(&case), expected, "{}", case.name);
                let line = case.line();
                let levels = line.split(' ').nth(2).expect("the levels");
                assert!(
                    levels.ends_with(&"77".repeat(bytes.saturating_sub(14))),
                    "{line}"
                );
                cases.push(case);
            }
        }
    }
    compare("widths", &cases);
}

/// The levels that a case leaves by the reference.
fn levels_of(case: &Case) -> Vec<i32> {
    let line = case.line();
    let digits = &line.split(' ').nth(2).expect("the levels")[1..];
    let byte = |at: usize| u8::from_str_radix(&digits[at..at + 2], 16).expect("a byte");
    (0..digits.len())
        .step_by(4)
        .map(|at| i16::from_le_bytes([byte(at), byte(at + 2)]).into())
        .collect()
}

/// Rounds at every width, after which levels are cut at both ends: EG255 with five wrong samples. The
/// samples' levels are even, and as each bit has 16 checks, so are the sums: L, which is odd, is first met
/// where a sum lay beyond it.
#[test]
fn cut_levels() {
    let mut random = random(3203);
    let code = codes::euclidean(4);
    let codewords = Codewords::of(&code.matrix);
    let mut cases = Vec::new();
    for bits in 2..=12 {
        let largest: i32 = (1 << (bits - 1)) - 1;
        let received = patterns::flipped(&codewords.random(&mut random), &random.different(5, 255));
        let samples: Vec<f32> = received
            .iter()
            .map(|&bit| {
                let level = largest - 1 - 2 * random.below(3) as i32;
                // A quarter of a step more leaves the level, and gives a level of 0 its bit.
                let size = level.max(0) as f32 + 0.25;
                if bit {
                    size
                } else {
                    -size
                }
            })
            .collect();
        let opened = Case::new(&code, &settings::level_step(bits, 0, 1.0), &samples);
        let even_and_short = |level: &i32| level % 2 == 0 && level.abs() < largest;
        assert!(levels_of(&opened).iter().all(even_and_short));
        let case = Case::new(&code, &settings::level_step(bits, 3, 1.0), &samples);
        let levels = levels_of(&case);
        let ends = (levels.iter().min(), levels.iter().max());
        assert_eq!(ends, (Some(&-largest), Some(&largest)), "{bits}");
        cases.push(case);
    }
    compare("cut_levels", &cases);
}

/// The refusal's number by the reference.
fn number(case: &Case) -> u32 {
    let line = case.line();
    let returned = line.split(' ').next().expect("the returned number");
    returned.parse::<u32>().expect("a number") >> 16
}

/// A cause of each refusal, 1 to 8. No two change the same: both stay where two are put in.
const CAUSES: [fn(&mut Case); 8] = [
    |case| case.sizes[2] = 33,
    |case| case.list.push(0),
    // The last row becomes 0 2 7.
    |case| case.list[40] = 7,
    // All columns weigh 3, and none weighs 2.
    |case| case.sizes[3] = 2,
    // Rows 1 and 2 exchange 4 and 3: row 1 is then 1 2 3 and shares two columns with row 0, 0 1 3.
    |case| (case.list[10], case.list[14]) = (3, 4),
    |case| case.limit = 256,
    |case| case.report.truncate(7),
    |case| case.samples[8..12].copy_from_slice(&[1, 0, 0x80, 0xFF]),
];

/// Every refusal, alone and with each later one: the lower number is given.
#[test]
fn refusals() {
    let mut cases = Vec::new();
    for (low, cause) in (1..).zip(CAUSES) {
        let mut alone = p6().named(&format!("refusal {low}"));
        cause(&mut alone);
        assert_eq!(number(&alone), low, "{}", alone.name);
        for (later, other) in (1..).zip(CAUSES).skip(low as usize) {
            let mut both = alone.clone().named(&format!("and {later}"));
            other(&mut both);
            assert_eq!(number(&both), low, "{}", both.name);
            cases.push(both);
        }
        cases.push(alone);
    }
    assert_eq!(cases.len(), 8 + 28);
    compare("refusals", &cases);
}

/// One part of the call changed by chance; some changes leave it accepted.
fn disturb(case: &mut Case, random: &mut Random) {
    let changed = |length: usize, random: &mut Random| (length + random.below(9)).saturating_sub(4);
    match random.below(9) {
        0 => case.list.resize(changed(case.list.len(), random), 0),
        1 => case.samples.resize(changed(case.samples.len(), random), 0),
        2 => case.word.resize(changed(case.word.len(), random), 0x77),
        3 => case.levels.resize(changed(case.levels.len(), random), 0x77),
        4 => case.report.resize(changed(case.report.len(), random), 0x77),
        5 => case.step = random.number() as u32,
        6 => case.kind = random.below(4) as u16,
        7 => case.bits = random.below(15) as u16,
        _ => case.limit = *random.pick(&[0, 254, 255, 256, 65_535]),
    }
}

/// A call with a code and a setting by chance, and perhaps a damaged matrix or another fault.
fn some(code: &Code, random: &mut Random) -> Case {
    let (bits, kind) = (2 + random.below(11) as u16, random.below(2) as u16);
    let limit = *random.pick(&[0, 1, 2, 5, 30, 255]);
    let setting = settings::around_one(bits, limit, kind, random);
    let block = inputs::blocks(code, 1, 1.0, random).remove(0);
    let mut lent = code.clone();
    if random.once_in(6) {
        damage::change(&mut lent.matrix, random);
    }
    let mut case = Case::new(&lent, &setting, &block);
    if random.once_in(2) {
        lengthen(&mut case, random);
    }
    while random.once_in(4) {
        disturb(&mut case, random);
    }
    case
}

#[test]
fn by_chance() {
    let mut random = random(3201);
    let codes = [codes::small(), codes::medium()].concat();
    let calls: Vec<Case> = (0..cases(600))
        .map(|_| {
            let code = random.pick(&codes);
            some(code, &mut random)
        })
        .collect();
    compare("by_chance", &calls);
}

/// The largest matrices, and counts above 255, whose high bytes are not 0.
#[test]
fn large() {
    let mut random = random(3202);
    let mut cases = Vec::new();
    for code in [codes::eg1023(), codes::qc961(), unlike::irregular1000()] {
        let n = usize::from(code.matrix.n);
        let samples: Vec<f32> = (0..n).map(|_| random.gaussian() as f32).collect();
        for (bits, step) in [(8, 0.25), (12, 0.25 / 16.0)] {
            for limit in [0, 3] {
                let setting = settings::level_step(bits, limit, step);
                cases.push(Case::new(&code, &setting, &samples));
            }
        }
    }
    let high_bytes = |case: &Case| {
        let line = case.line();
        let report = line.split(' ').nth(3).unwrap()[1..].to_string();
        (report[6..8] != *"00", report[10..12] != *"00")
    };
    assert!(cases.iter().any(|case| high_bytes(case) == (true, true)));
    compare("large", &cases);
}
