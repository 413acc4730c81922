//! The firmware's face over bytes on both sides, and beside it the call that it stands before:
//! iterative voting on numbers, of the other archive.

use crate::{bytes_for, Guarded};
use ffi_face::{LentMatrix, Packed};
use generator::{stream, Random};
use reference::firmware::{self, Call};
use reference::{Matrix, Refusal, Setting};

/// "An eight-byte report".
pub const REPORT: usize = 8;

/// The number that a refusal returns.
pub const fn refused(number: u32, place: usize) -> u32 {
    number * 65_536 + place as u32
}

/// A setting that is accepted.
pub const GOOD: Setting = Setting {
    bits: 5,
    limit: 3,
    kind: 0,
    step: 0.25,
};

pub fn sizes_of(h: &Matrix) -> [u16; 4] {
    [h.n, h.m, h.rho, h.gamma]
}

/// A list's bytes.
pub fn list_bytes(list: &[u16]) -> Vec<u8> {
    list.iter().flat_map(|entry| entry.to_le_bytes()).collect()
}

/// What a call is lent beside the matrix: the setting, the samples' bytes, and so many bytes for
/// each of the written buffers.
#[derive(Clone, Debug)]
pub struct Block {
    pub bits: u16,
    pub limit: u16,
    pub kind: u16,
    pub step: u32,
    pub samples: Vec<u8>,
    pub for_word: usize,
    pub for_levels: usize,
    pub for_report: usize,
}

impl Block {
    /// With buffers of exactly the needed bytes: two for each level.
    pub fn new(setting: &Setting, samples: &[f32]) -> Block {
        Block {
            bits: setting.bits,
            limit: setting.limit,
            kind: setting.kind,
            step: setting.step.to_bits(),
            samples: stream::block(samples),
            for_word: bytes_for(samples.len()),
            for_levels: 2 * samples.len(),
            for_report: REPORT,
        }
    }

    /// n samples by chance, which are most likely of no codeword.
    pub fn by_chance(n: usize, random: &mut Random) -> Block {
        let samples: Vec<f32> = (0..n).map(|_| random.gaussian() as f32).collect();
        Block::new(&GOOD, &samples)
    }

    /// With a few bytes more in each buffer.
    pub fn longer(&self, random: &mut Random) -> Block {
        Block {
            for_word: self.for_word + random.below(4),
            for_levels: self.for_levels + random.below(4),
            for_report: self.for_report + random.below(4),
            ..self.clone()
        }
    }

    /// With another pattern in place of a sample.
    pub fn with_sample(&self, place: usize, bits: u32) -> Block {
        let mut block = self.clone();
        block.samples[4 * place..4 * place + 4].copy_from_slice(&bits.to_le_bytes());
        block
    }

    fn setting(&self) -> Setting {
        Setting {
            bits: self.bits,
            limit: self.limit,
            kind: self.kind,
            step: f32::from_bits(self.step),
        }
    }

    fn floats(&self) -> Vec<f32> {
        let bits = |four: &[u8]| u32::from_le_bytes([four[0], four[1], four[2], four[3]]);
        let fours = self.samples.chunks_exact(4);
        fours.map(|four| f32::from_bits(bits(four))).collect()
    }

    fn described(&self) -> String {
        let shown = &self.samples[..self.samples.len().min(120)];
        let mut text = format!("b {} limit {}", self.bits, self.limit);
        text += &format!(" kind {} step {:08x}", self.kind, self.step);
        let rooms = [self.for_word, self.for_levels, self.for_report];
        text += &format!(", rooms {rooms:?}, {} bytes", self.samples.len());
        text + &format!(" of samples {shown:02x?}")
    }
}

/// What a call left: the returned number and the three buffers.
#[derive(Clone, Debug, PartialEq)]
pub struct Written {
    pub returned: u32,
    pub word: Vec<u8>,
    pub levels: Vec<u8>,
    pub report: Vec<u8>,
}

impl Written {
    /// The refusal's number, or 0.
    pub fn refusal(&self) -> u32 {
        self.returned / 65_536
    }

    /// Rounds, failing and changed of a call that was not refused.
    pub fn counts(&self) -> [usize; 3] {
        let number =
            |at: usize| usize::from(self.report[at]) + 256 * usize::from(self.report[at + 1]);
        [number(0), number(2), number(4)]
    }

    fn same_buffers(&self, other: &Written) -> bool {
        let buffers = (&self.word, &self.levels, &self.report);
        buffers == (&other.word, &other.levels, &other.report)
    }

    /// The levels as signed numbers, two bytes each. A last byte without a second one is no level.
    pub fn signed(&self) -> Vec<i16> {
        let level = |pair: &[u8]| i16::from_le_bytes([pair[0], pair[1]]);
        self.levels.chunks_exact(2).map(level).collect()
    }
}

/// The three written buffers between guards.
struct Guards {
    word: Guarded<u8>,
    levels: Guarded<u8>,
    report: Guarded<u8>,
}

impl Guards {
    fn by_chance(block: &Block, random: &mut Random) -> Guards {
        Guards {
            word: Guarded::by_chance(block.for_word, random),
            levels: Guarded::by_chance(block.for_levels, random),
            report: Guarded::by_chance(block.for_report, random),
        }
    }

    fn stand(&self) -> [bool; 3] {
        let Guards {
            word,
            levels,
            report,
        } = self;
        [
            word.guards_stand(),
            levels.guards_stand(),
            report.guards_stand(),
        ]
    }

    fn written(&self, returned: u32) -> Written {
        Written {
            returned,
            word: self.word.lent().to_vec(),
            levels: self.levels.lent().to_vec(),
            report: self.report.lent().to_vec(),
        }
    }
}

/// A matrix as the firmware lends it. The reference checks it once.
pub struct Firmware {
    sizes: [u16; 4],
    bytes: Vec<u8>,
    list: Guarded<u8>,
    verdict: Result<Matrix, Refusal>,
}

impl Firmware {
    pub fn new(h: &Matrix, random: &mut Random) -> Firmware {
        Firmware::of_bytes(sizes_of(h), &list_bytes(&h.list), random)
    }

    /// With any bytes for a list.
    pub fn of_bytes(sizes: [u16; 4], bytes: &[u8], random: &mut Random) -> Firmware {
        let [n, m, rho, gamma] = sizes;
        let matrix_alone = Call {
            n,
            m,
            rho,
            gamma,
            list: bytes,
            bits: 0,
            limit: 0,
            kind: 0,
            step: 0,
            samples: &[],
        };
        Firmware {
            sizes,
            bytes: bytes.to_vec(),
            list: Guarded::new(bytes, random),
            verdict: firmware::check_bytes(&matrix_alone),
        }
    }

    pub fn n(&self) -> usize {
        self.sizes[0].into()
    }

    fn call<'a>(&self, list: &'a [u8], block: &Block, samples: &'a [u8]) -> Call<'a> {
        let [n, m, rho, gamma] = self.sizes;
        Call {
            n,
            m,
            rho,
            gamma,
            list,
            bits: block.bits,
            limit: block.limit,
            kind: block.kind,
            step: block.step,
            samples,
        }
    }

    /// What the reference leaves of buffers that hold this.
    fn expected(&self, block: &Block, before: &Written) -> Written {
        let mut left = before.clone();
        let Written {
            word,
            levels,
            report,
            ..
        } = &mut left;
        let call = self.call(&self.bytes, block, &block.samples);
        left.returned = firmware::decode_checked(&self.verdict, &call, word, levels, report);
        left
    }

    /// Compares a call; gives what it left.
    pub fn decode(&self, block: &Block, random: &mut Random) -> Written {
        let samples = Guarded::new(&block.samples, random);
        let mut guards = Guards::by_chance(block, random);
        let before = guards.written(0);
        let returned = firmware_face::decode(
            &self.call(self.list.lent(), block, samples.lent()),
            guards.word.lent_mut(),
            guards.levels.lent_mut(),
            guards.report.lent_mut(),
        );
        let left = guards.written(returned);
        let said = || self.described(block);
        assert_eq!(left, self.expected(block, &before), "{}", said());
        assert_eq!(guards.stand(), [true; 3], "guards, {}", said());
        assert!(samples.holds(&block.samples), "samples, {}", said());
        assert!(self.list.holds(&self.bytes), "list, {}", said());
        match left.refusal() {
            0 => assert!(returned <= 1, "{returned}, {}", said()),
            1..=8 => assert!(left.same_buffers(&before), "written, {}", said()),
            _ => panic!("returned {returned:x}, {}", said()),
        }
        self.compare_with_numbers(block, &left, &before);
        left
    }

    /// Where the bytes are numbers without a rest and the report fits, iterative voting on those
    /// numbers, in the other archive, says the same.
    fn compare_with_numbers(&self, block: &Block, left: &Written, before: &Written) {
        let whole = self.bytes.len().is_multiple_of(2) && block.samples.len().is_multiple_of(4);
        if !whole || block.for_report < REPORT {
            return;
        }
        let entry = |pair: &[u8]| u16::from_le_bytes([pair[0], pair[1]]);
        let list: Vec<u16> = self.bytes.chunks_exact(2).map(entry).collect();
        let [n, m, rho, gamma] = self.sizes;
        let h = LentMatrix {
            n,
            m,
            rho,
            gamma,
            list: &list,
        };
        let (mut word, mut levels) = (before.word.clone(), before.signed());
        let (setting, samples) = (block.setting(), block.floats());
        let answer = ffi_face::iterative(h, &setting, &samples, &mut word, &mut levels);
        let [rounds, failing, changed] = match left.refusal() {
            0 => left.counts(),
            _ => [0; 3],
        };
        let packed = Packed::new(left.returned.into(), rounds, failing, changed);
        assert_eq!(packed, answer, "{}", self.described(block));
        assert_eq!(left.word, word, "word, {}", self.described(block));
        assert_eq!(left.signed(), levels, "levels, {}", self.described(block));
    }

    /// The sizes, of a short list the bytes, and the block, for a message.
    fn described(&self, block: &Block) -> String {
        let sizes = self.sizes;
        let shown = &self.bytes[..self.bytes.len().min(120)];
        let list = format!("{} bytes of a list {shown:02x?}", self.bytes.len());
        format!("n m rho gamma {sizes:?}, {list}, {}", block.described())
    }
}
