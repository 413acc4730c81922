//! Card 7: "All answers with b up to 8 are unchanged." The answers of blocks with b up to 8, stored before
//! the card, against the library's calls and against the reference as it is now.

use differential::firmware::{list_bytes, REPORT};
use differential::{narrow, random, widen};
use ffi_face::{LentMatrix, Packed};
use generator::before::{self, Case, Left, Outputs};
use generator::{stream, Random};
use reference::firmware::Call;
use reference::{byte_count, index_of};

const STORED: &str = include_str!("../stored/before_card_7.txt");

/// Each stored line with its block.
fn stored() -> Vec<(Case, &'static str)> {
    let lines = STORED.lines().filter(|line| !line.starts_with('#'));
    let lines: Vec<&str> = lines.collect();
    let blocks = before::blocks();
    assert_eq!((lines.len(), lines.len() > 300), (blocks.len(), true));
    blocks.into_iter().zip(lines).collect()
}

/// The blocks are those of the stored lines, and the reference answers as it did.
#[test]
fn the_reference_answers_as_before() {
    for (case, line) in stored() {
        let inputs = |line: &str| line.split(' ').take(6).collect::<Vec<_>>().join(" ");
        let now = before::line(&case, &before::by_reference(&case));
        assert_eq!(inputs(&now), inputs(line), "another block than the stored");
        assert_eq!(now, line);
    }
}

/// What an answer of the library is in the stored lines.
fn told(answer: Packed, word: &[u8], levels: &[i16]) -> Left {
    let (code, counts) = (answer.place() as usize, (answer.0 >> 32) as usize);
    match answer.refusal() {
        0 => {
            let counts = [counts % 256, counts / 256 % 4096, answer.changed()];
            let [rounds, failing, changed] = counts;
            Left::new([code, rounds, failing, changed], word, levels)
        }
        number => Left::refused(number as usize, code),
    }
}

/// Word and levels to write to, and the block as the library is lent it.
struct Lent<'a> {
    case: &'a Case,
    h: LentMatrix<'a>,
    word: Vec<u8>,
    levels: Vec<i16>,
}

impl Lent<'_> {
    fn new(case: &Case) -> Lent<'_> {
        let h = &case.code.matrix;
        Lent {
            case,
            h: h.into(),
            word: vec![0xA5; byte_count(h.n)],
            levels: vec![-999; h.n.into()],
        }
    }

    fn whole(mut self) -> Left {
        let Case {
            setting, samples, ..
        } = self.case;
        let answer =
            ffi_face::iterative(self.h, setting, samples, &mut self.word, &mut self.levels);
        told(answer, &self.word, &self.levels)
    }

    fn indexed(mut self) -> Left {
        let Case {
            setting, samples, ..
        } = self.case;
        let index = index_of(&self.case.code.matrix);
        let answer = ffi_face::iterative_indexed(
            self.h,
            &index,
            setting,
            samples,
            &mut self.word,
            &mut self.levels,
        );
        told(answer, &self.word, &self.levels)
    }

    /// The levels are those of the opening, and the word is the hard bits. Gives the refusal's number.
    fn quantised(mut self, opened: &Left) -> u64 {
        let Case {
            setting, samples, ..
        } = self.case;
        let answer = ffi_face::quantise(setting, samples, &mut self.levels, &mut self.word);
        if answer.refusal() == 0 {
            let quantised = Left::new([0; 4], &self.word, &self.levels);
            assert_eq!(quantised.levels, opened.levels);
            assert_eq!(quantised.word, opened.word);
        }
        answer.refusal()
    }

    /// The opening and every step.
    fn session(mut self) -> (Left, Vec<Left>) {
        let Case {
            setting, samples, ..
        } = self.case;
        let (word, levels) = (&mut self.word, &mut self.levels);
        let mut record = [0; 8];
        let answer = ffi_face::open(&mut record, self.h, setting, samples, word, levels);
        let opened = told(answer, word, levels);
        let (received, first) = (word.clone(), levels.clone());
        let mut steps = Vec::new();
        while record[0] == 1 {
            let answer = ffi_face::step(&mut record, self.h, &received, &first, word, levels);
            steps.push(told(answer, word, levels));
        }
        (opened, steps)
    }
}

/// The C face: the same answer and word, each level in two bytes.
fn by_firmware(case: &Case) -> Left {
    let (h, setting) = (&case.code.matrix, &case.setting);
    let (list, samples) = (list_bytes(&h.list), stream::block(&case.samples));
    let call = Call {
        n: h.n,
        m: h.m,
        rho: h.rho,
        gamma: h.gamma,
        list: &list,
        bits: setting.bits,
        limit: setting.limit,
        kind: setting.kind,
        step: setting.step.to_bits(),
        samples: &samples,
    };
    let (mut word, mut report) = (vec![0; byte_count(h.n)], [0; REPORT]);
    let mut levels = vec![0; 2 * usize::from(h.n)];
    let returned = firmware_face::decode(&call, &mut word, &mut levels, &mut report) as usize;
    if returned > 1 {
        return Left::refused(returned / 65_536, returned % 65_536);
    }
    let number = |at: usize| usize::from(report[at]) + 256 * usize::from(report[at + 1]);
    let level = |pair: &[u8]| i16::from_le_bytes([pair[0], pair[1]]);
    let levels: Vec<i16> = levels.chunks(2).map(level).collect();
    Left::new([returned, number(0), number(2), number(4)], &word, &levels)
}

/// Every call that is lent samples, and the steps.
#[test]
fn the_library_answers_as_before() {
    for (case, line) in stored() {
        let (opened, steps) = Lent::new(&case).session();
        let whole = Lent::new(&case).whole();
        assert_eq!(Lent::new(&case).indexed(), whole, "{line}");
        assert_eq!(by_firmware(&case), whole, "{line}");
        let refusal = Lent::new(&case).quantised(&opened);
        assert_eq!(refusal != 0, whole.answer.starts_with("refused"), "{line}");
        let outputs = Outputs {
            whole,
            opened,
            steps,
        };
        assert_eq!(before::line(&case, &outputs), line);
    }
}

/// Levels as they were stored before, of eight bits: brought over they are what the library leaves now, and
/// what it leaves is taken back.
fn are_taken_back(levels: &[i32], random: &mut Random) {
    let old = |&level: &i32| i8::try_from(level).expect("a level of eight bits");
    let old: Vec<i8> = levels.iter().map(old).collect();
    let (answer, over) = widen(&old, old.len(), random);
    let numbers: Vec<i32> = over.iter().map(|&level| level.into()).collect();
    assert_eq!((answer, &numbers[..]), (Packed(0), levels));
    assert_eq!(narrow(&over, old.len(), random), (Packed(0), old));
}

#[test]
fn every_level_is_taken_back() {
    let mut random = random(3000);
    for (case, _) in stored() {
        let (opened, steps) = Lent::new(&case).session();
        for left in [vec![opened], steps].concat() {
            are_taken_back(&left.levels, &mut random);
        }
    }
}
