//! The firmware's face, iterative voting over bytes, against the same call over numbers.

use crate::indexed::{best_times, received_blocks, through_all};
use crate::WORDS;
use bench::cases::cases;
use ffi_face::Packed;
use generator::codes::Code;
use generator::settings;
use reference::byte_count;
use reference::firmware::{decode_checked, Call};
use std::hint::black_box;

/// The bytes of a list, low byte first.
fn list_bytes(code: &Code) -> Vec<u8> {
    let list = &code.matrix.list;
    list.iter().flat_map(|entry| entry.to_le_bytes()).collect()
}

/// The bytes of a block's samples, low byte first.
fn sample_bytes(samples: &[f32]) -> Vec<u8> {
    samples.iter().flat_map(|x| x.to_le_bytes()).collect()
}

/// What the face writes to.
#[derive(Clone, Debug, PartialEq)]
struct Written {
    word: Vec<u8>,
    levels: Vec<u8>,
    report: Vec<u8>,
}

/// The call on a block.
fn call<'a>(code: &Code, list: &'a [u8], step: f32, samples: &'a [u8]) -> Call<'a> {
    let h = &code.matrix;
    Call {
        n: h.n,
        m: h.m,
        rho: h.rho,
        gamma: h.gamma,
        list,
        bits: 8,
        limit: 30,
        kind: 0,
        step: step.to_bits(),
        samples,
    }
}

/// The face gives the reference's returned number and bytes on each block.
fn compare(code: &Code, list: &[u8], step: f32, blocks: &[Vec<u8>], empty: &Written) {
    let checked = Ok(code.matrix.clone());
    for samples in blocks {
        let call = call(code, list, step, samples);
        let mut to = [empty.clone(), empty.clone()];
        let [by_face, expected] = &mut to;
        let Written {
            word,
            levels,
            report,
        } = by_face;
        let result = firmware_face::decode(&call, word, levels, report);
        let Written {
            word,
            levels,
            report,
        } = expected;
        let answer = decode_checked(&checked, &call, word, levels, report);
        assert_eq!((result, &to[0]), (answer, &to[1]));
    }
}

fn measure_code(code: &Code, step: f32, deviation: f64, turns: usize) {
    let h = &code.matrix;
    let n = usize::from(h.n);
    let setting = settings::level_step(8, 30, step);
    let list = list_bytes(code);
    let blocks = received_blocks(code, deviation);
    let bytes: Vec<_> = blocks.iter().map(|block| sample_bytes(block)).collect();
    let mut to = Written {
        word: vec![0; byte_count(h.n)],
        levels: vec![0; 2 * n],
        report: vec![0; 8],
    };
    compare(code, &list, step, &bytes, &to);
    let (mut word, mut levels) = (to.word.clone(), vec![0i16; n]);
    let face = through_all(|at| {
        let (list, samples) = black_box((&list, &bytes[at]));
        let Written {
            word,
            levels,
            report,
        } = &mut to;
        let call = call(code, list, step, samples);
        black_box(firmware_face::decode(&call, word, levels, report));
    });
    let numbers = through_all(|at| {
        let (h, samples) = black_box((h, &blocks[at]));
        let (word, levels) = (&mut word, &mut levels);
        black_box::<Packed>(ffi_face::iterative(
            h.into(),
            &setting,
            samples,
            word,
            levels,
        ));
    });
    let [face, numbers] = best_times(turns, [face, numbers]);
    let (name, ratio) = (&code.name, face / numbers);
    println!("| {name} | {ratio:.2} | {face:.2} | {numbers:.2} |");
}

pub fn measure(turns: usize) {
    println!();
    println!(
        "The firmware's face (`mlgd_decode`, over bytes) and the same call over numbers \
         (`mlgd_iterative`), CPU time of a whole call with its matrix check, on {WORDS} blocks \
         (width 8, limit 30, about five rounds). The two take turns, and the best of {turns} turns \
         of each counts."
    );
    println!();
    println!("| code | face / numbers | face µs | numbers µs |");
    println!("|---|---|---|---|");
    for (code, step, deviation) in cases() {
        measure_code(&code, step, deviation, turns);
    }
}
