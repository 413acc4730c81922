//! A call of the C function, and the line that `c/calls.c` is to print for it.

use crate::printed;
use generator::{stream, Code};
use reference::firmware::{decode, Call};
use reference::{byte_count, Setting};
use std::fs::File;
use std::path::Path;
use std::process::Command;

/// The places of the buffers in memory, by their numbers in `c/stream.h`: before a fence, behind
/// one, and the null pointer for those of length 0.
const PLACES: [u8; 3] = [0, 1, 2];

/// What the written buffers hold before the call.
const FILLING: u8 = 0xEE;

/// What is lent to a call. The contents of the written buffers are those before it.
#[derive(Clone, Debug)]
pub struct Case {
    pub name: String,
    pub sizes: [u16; 4],
    pub list: Vec<u8>,
    pub bits: u16,
    pub limit: u16,
    pub kind: u16,
    pub step: u32,
    pub samples: Vec<u8>,
    pub word: Vec<u8>,
    pub levels: Vec<u8>,
    pub report: Vec<u8>,
}

impl Case {
    /// A call with a code, a setting and a block, each buffer just as long as it has to be.
    pub fn new(code: &Code, setting: &Setting, samples: &[f32]) -> Case {
        let h = &code.matrix;
        Case {
            name: format!("{}, {setting:?}", code.name),
            sizes: [h.n, h.m, h.rho, h.gamma],
            list: h
                .list
                .iter()
                .flat_map(|entry| entry.to_le_bytes())
                .collect(),
            bits: setting.bits,
            limit: setting.limit,
            kind: setting.kind,
            step: setting.step.to_bits(),
            samples: stream::block(samples),
            word: vec![FILLING; byte_count(h.n)],
            levels: vec![FILLING; 2 * usize::from(h.n)],
            report: vec![FILLING; 8],
        }
    }

    /// The same with more in its name.
    pub fn named(mut self, more: &str) -> Case {
        self.name = format!("{}, {more}", self.name);
        self
    }

    fn call(&self) -> Call<'_> {
        let [n, m, rho, gamma] = self.sizes;
        Call {
            n,
            m,
            rho,
            gamma,
            list: &self.list,
            bits: self.bits,
            limit: self.limit,
            kind: self.kind,
            step: self.step,
            samples: &self.samples,
        }
    }

    /// The line by the reference.
    pub fn line(&self) -> String {
        let mut word = self.word.clone();
        let mut levels = self.levels.clone();
        let mut report = self.report.clone();
        let returned = decode(&self.call(), &mut word, &mut levels, &mut report);
        let [word, levels, report] = [word, levels, report].map(|bytes| hexadecimal(&bytes));
        format!("{returned} x{word} x{levels} x{report} kept")
    }

    /// The call as the C programs read it: the buffers' place, the numbers, the lengths, the bytes.
    pub fn stream(&self, place: u8) -> Vec<u8> {
        let mut stream = vec![place];
        let [n, m, rho, gamma] = self.sizes;
        for number in [n, m, rho, gamma, self.bits, self.limit, self.kind] {
            stream.extend(number.to_le_bytes());
        }
        stream.extend(self.step.to_le_bytes());
        let buffers = [
            &self.list,
            &self.samples,
            &self.word,
            &self.levels,
            &self.report,
        ];
        for buffer in buffers {
            stream.extend((buffer.len() as u32).to_le_bytes());
        }
        for buffer in buffers {
            stream.extend(buffer);
        }
        stream
    }

    /// Runs a C program on the calls, each with its buffers in every place, and compares its lines
    /// with the reference's. `file` takes the calls.
    pub fn compare(program: &Path, file: &Path, cases: &[Case]) {
        let calls: Vec<u8> = cases
            .iter()
            .flat_map(|case| PLACES.map(|place| case.stream(place)))
            .flatten()
            .collect();
        std::fs::write(file, calls).expect("the file of calls");
        let input = File::open(file).expect("the file of calls");
        let text = printed(Command::new(program).stdin(input));
        let mut lines = text.lines();
        for case in cases {
            let expected = case.line();
            for place in PLACES {
                let line = lines.next().expect("a line for each call");
                assert_eq!(line, expected, "{}, buffers in place {place}", case.name);
            }
        }
        assert_eq!(lines.next(), None);
    }
}

/// Bytes in hexadecimal digits.
pub fn hexadecimal(bytes: &[u8]) -> String {
    bytes.iter().map(|byte| format!("{byte:02x}")).collect()
}
