//! "Calls from several threads at a time are fine": four threads read the same lists and samples,
//! and each call leaves what the reference leaves.

use differential::firmware::{list_bytes, Written, REPORT};
use differential::{bytes_for, cases, random};
use generator::codes::{self, Code};
use generator::{noise, settings, stream, unlike, Codewords, Random};
use reference::firmware::{check_bytes, decode_checked, Call};
use reference::Setting;
use std::sync::atomic::{AtomicUsize, Ordering};
use std::sync::Barrier;
use std::thread;

const THREADS: usize = 4;

/// What the written buffers hold before a call.
const FILLING: u8 = 0xEE;

/// What all threads read of one code: its list, and blocks of samples.
struct Shared {
    code: Code,
    list: Vec<u8>,
    blocks: Vec<Vec<u8>>,
}

impl Shared {
    /// Codewords with little noise and with much, and a block with a sample that is infinite.
    fn new(code: Code, random: &mut Random) -> Shared {
        let codewords = Codewords::of(&code.matrix);
        let mut blocks = Vec::new();
        for deviation in [0.3, 0.5, 0.7, 1.0] {
            let sent = codewords.random(random);
            blocks.push(noise::received(&sent, deviation, random));
        }
        let mut infinite = blocks[0].clone();
        infinite[usize::from(code.matrix.n) - 1] = f32::INFINITY;
        blocks.push(infinite);
        Shared {
            list: list_bytes(&code.matrix.list),
            blocks: blocks.iter().map(|block| stream::block(block)).collect(),
            code,
        }
    }

    fn call<'a>(&'a self, setting: &Setting, samples: &'a [u8]) -> Call<'a> {
        let h = &self.code.matrix;
        Call {
            n: h.n,
            m: h.m,
            rho: h.rho,
            gamma: h.gamma,
            list: &self.list,
            bits: setting.bits,
            limit: setting.limit,
            kind: setting.kind,
            step: setting.step.to_bits(),
            samples,
        }
    }

    /// Each block with several settings, one of them refused, and what the reference leaves.
    fn calls(&self) -> Vec<(Call<'_>, Written)> {
        let settings = [
            settings::level_step(8, 20, 0.02),
            settings::full_scale(4, 5, 1.5),
            settings::level_step(2, 1, 0.5),
            settings::full_scale(12, 20, 3.0),
            settings::level_step(13, 5, 0.5),
        ];
        let verdict = check_bytes(&self.call(&settings[0], &[]));
        let mut calls = Vec::new();
        for samples in &self.blocks {
            for setting in settings {
                let call = self.call(&setting, samples);
                let expected = left(&call, |call, word, levels, report| {
                    decode_checked(&verdict, call, word, levels, report)
                });
                calls.push((call, expected));
            }
        }
        calls
    }
}

/// What a call leaves of buffers that are a byte longer than needed.
fn left(call: &Call, decode: impl Fn(&Call, &mut [u8], &mut [u8], &mut [u8]) -> u32) -> Written {
    let n = usize::from(call.n);
    let mut word = vec![FILLING; bytes_for(n) + 1];
    let mut levels = vec![FILLING; 2 * n + 1];
    let mut report = vec![FILLING; REPORT + 1];
    Written {
        returned: decode(call, &mut word, &mut levels, &mut report),
        word,
        levels,
        report,
    }
}

/// Calls that are under way, and the most that there were at a time.
#[derive(Default)]
struct UnderWay {
    now: AtomicUsize,
    most: AtomicUsize,
}

impl UnderWay {
    /// Makes a call and counts it.
    fn left(&self, call: &Call) -> Written {
        let now = 1 + self.now.fetch_add(1, Ordering::SeqCst);
        self.most.fetch_max(now, Ordering::SeqCst);
        let left = left(call, firmware_face::decode);
        self.now.fetch_sub(1, Ordering::SeqCst);
        left
    }
}

/// Four threads, which begin together, make every call so many times, each in an order of its own.
fn together(calls: &[(Call, Written)], times: usize, random: &mut Random) {
    let (start, under_way) = (Barrier::new(THREADS), UnderWay::default());
    let thread = |mut own: Random| {
        start.wait();
        for _ in 0..times {
            for at in own.different(calls.len(), calls.len()) {
                let (call, expected) = &calls[at];
                assert_eq!(under_way.left(call), *expected, "{call:?}");
            }
        }
    };
    thread::scope(|scope| {
        for _ in 0..THREADS {
            let own = Random::new(random.number());
            scope.spawn(|| thread(own));
        }
    });
    assert!(under_way.most.into_inner() > 1, "one call after the other");
}

fn together_on(codes: Vec<Code>, times: usize, random: &mut Random) {
    let shared: Vec<Shared> = codes
        .into_iter()
        .map(|code| Shared::new(code, random))
        .collect();
    let calls: Vec<(Call, Written)> = shared.iter().flat_map(Shared::calls).collect();
    for refusal in [0, 6, 8] {
        assert!(calls.iter().any(|(_, left)| left.refusal() == refusal));
    }
    for outcome in [0, 1] {
        assert!(calls.iter().any(|(_, left)| left.returned == outcome));
    }
    together(&calls, times, random);
}

/// All threads on one matrix.
#[test]
fn one_matrix() {
    let mut random = random(2300);
    together_on(vec![codes::tanner155()], cases(200), &mut random);
    together_on(vec![codes::eg1023()], cases(5), &mut random);
}

/// Matrices of several sizes, from one call to the next.
#[test]
fn several_matrices() {
    let mut random = random(2301);
    let codes = vec![
        codes::code_a(),
        codes::tanner155(),
        codes::euclidean(4),
        unlike::code_u(),
        unlike::irregular504(),
    ];
    together_on(codes, cases(50), &mut random);
}
