//! What is proved of a block's outcome, in words, and the totals of a run.

use crate::amount::{counted, thousands};
use crate::checked::Answer;
use crate::fields::column_letters;
use crate::matrix_file::Matrix;
use crate::results::{Counts, Outcome, Row};
use crate::setting::{Setting, MOST_BITS};
use crate::status::Status;

/// The promise that a code and a setting carry: at most t wrong bits are undone, or at most as many
/// as the limit leaves the rounds for.
#[derive(Clone, Copy, Debug)]
pub struct Promise {
    t: usize,
    gamma: usize,
    /// None for one-step voting.
    setting: Option<Setting>,
}

impl Promise {
    /// Of iterative voting.
    pub fn iterative(matrix: &Matrix, setting: &Setting) -> Promise {
        Promise {
            setting: Some(*setting),
            ..Promise::one_step(matrix)
        }
    }

    /// Of one-step voting, which has no limit.
    pub fn one_step(matrix: &Matrix) -> Promise {
        Promise {
            t: matrix.guaranteed(),
            gamma: matrix.gamma.into(),
            setting: None,
        }
    }

    /// How many wrong bits the limit leaves the rounds for.
    fn undone(&self) -> usize {
        let enough = |wrong: &usize| {
            self.setting
                .is_none_or(|by| by.rounds_for(self.gamma, *wrong) <= by.limit.into())
        };
        (0..=self.t).rev().find(enough).unwrap_or(0)
    }

    /// Whether samples of level 0 matter: half of an even gamma wrong, and voting from samples.
    fn needs_levels(&self) -> bool {
        self.setting.is_some() && 2 * self.undone() == self.gamma
    }

    /// What in the setting would carry the whole promise, where the limit does not: a larger limit
    /// or, where none is large enough, fewer bits.
    fn missing(&self) -> Option<String> {
        let given = self.setting.filter(|_| self.undone() < self.t)?;
        let needed = |bits: u8| Setting { bits, ..given }.rounds_for(self.gamma, self.t);
        let mut fewer = (2..=given.bits.min(MOST_BITS)).rev();
        let bits = fewer.find(|&bits| needed(bits) <= 255)?;
        Some(match bits == given.bits {
            true => format!("limit {}", needed(bits)),
            false => format!("bits {bits} limit {}", needed(bits)),
        })
    }

    /// How many bits were wrong in a block that failed: with fewer it would have been decoded.
    /// `weak` says that a bit 1 has level 0.
    fn more_than(&self, weak: bool) -> String {
        let lost = usize::from(weak && self.needs_levels());
        match self.undone().saturating_sub(lost) {
            0 => "a bit was wrong".into(),
            1 => "more than 1 bit was wrong".into(),
            t => format!("more than {} were wrong", counted(t, "bit")),
        }
    }

    /// What is to be said of a codeword that lies beyond the half, whatever the limit.
    fn beyond(&self, wrong_bits: usize) -> String {
        format!(
            "wrong_bits is {wrong_bits}, more than t = {} (half of gamma): \
             nothing proves this codeword to be the one sent, compare it with another reception \
             or send the block again",
            self.t
        )
    }

    /// Why a block is open or to be looked at, in words; nothing where it is decoded within the
    /// half.
    fn reason(&self, answer: &Answer, ended: &Ended) -> String {
        if answer.decoded && ended.wrong_bits <= self.t {
            return String::new();
        }
        if answer.decoded {
            return self.beyond(ended.wrong_bits);
        }
        let still = match answer.failing {
            1 => "1 check still fails".into(),
            failing => format!("{} still fail", counted(failing, "check")),
        };
        let wrong = self.more_than(ended.weak);
        match self.missing() {
            None => format!("{wrong}: {still}: send the block again"),
            Some(other) => format!(
                "{wrong}: {still} after {}: try {other} before you send it again",
                counted(answer.rounds, "round")
            ),
        }
    }

    /// The row of a block that was decoded or failed.
    pub fn row(&self, line: usize, block: usize, answer: Answer, ended: Ended) -> Row {
        let within_half = answer.decoded && ended.wrong_bits <= self.t;
        let reason = self.reason(&answer, &ended);
        Row {
            line,
            block,
            outcome: if answer.decoded {
                Outcome::Decoded
            } else {
                Outcome::Failed
            },
            counts: Some(Counts {
                rounds: answer.rounds,
                failing: answer.failing,
                changed: answer.changed,
                wrong_bits: ended.wrong_bits,
                word: ended.word,
            }),
            within_half,
            reason,
        }
    }
}

/// What this tool finds out of a block's word and samples.
#[derive(Clone, Debug, Default)]
pub struct Ended {
    pub word: Vec<u8>,
    /// In how many places the word differs from the hard bits, with a level or without.
    pub wrong_bits: usize,
    /// Whether a sample above 0 has level 0.
    pub weak: bool,
}

/// The row of a refused block.
pub fn refused(line: usize, block: usize, reason: String) -> Row {
    Row {
        line,
        block,
        outcome: Outcome::Refused,
        counts: None,
        within_half: false,
        reason,
    }
}

/// Why a block is refused of which a sample is not finite: the sample's place, from 0, and the
/// spreadsheet's column, from 1, where a block is one line.
pub fn not_finite(sample: f32, place: usize, column: Option<usize>) -> String {
    let what = match sample.is_nan() {
        true => "not a number",
        false => "infinite",
    };
    let column = column.map(|column| format!(" (column {})", column_letters(column)));
    let (number, column) = (place + 1, column.unwrap_or_default());
    format!("sample {number}{column} is {what}: send the block again")
}

/// `1,700 decoded within the half, 250 decoded beyond the half, 45 failed, 5 refused`.
pub fn outcomes(counts: [u64; 4]) -> String {
    let [within, beyond, failed, refused] = counts.map(thousands);
    format!(
        "{within} decoded within the half, {beyond} decoded beyond the half, \
         {failed} failed, {refused} refused"
    )
}

/// The totals of a run.
#[derive(Clone, Copy, Debug, Default, PartialEq, Eq)]
pub struct Totals {
    pub blocks: usize,
    pub decoded: usize,
    pub within_half: usize,
    pub failed: usize,
    pub refused: usize,
    /// Samples of level 0, and blocks in which one of them is above 0.
    pub level_0: usize,
    pub weak_blocks: usize,
}

impl Totals {
    pub fn count(&mut self, row: &Row) {
        self.blocks += 1;
        match row.outcome {
            Outcome::Decoded => self.decoded += 1,
            Outcome::Failed => self.failed += 1,
            Outcome::Refused => self.refused += 1,
        }
        self.within_half += usize::from(row.within_half);
    }

    pub fn add(&mut self, other: &Totals) {
        self.blocks += other.blocks;
        self.decoded += other.decoded;
        self.within_half += other.within_half;
        self.failed += other.failed;
        self.refused += other.refused;
        self.level_0 += other.level_0;
        self.weak_blocks += other.weak_blocks;
    }

    /// Blocks that were decoded, but to a word that nothing proves to be the one sent.
    pub fn beyond_half(&self) -> usize {
        self.decoded - self.within_half
    }

    /// Open where a block failed or was refused; `strict` counts those beyond the half too.
    pub fn status(&self, strict: bool) -> Status {
        let all_decoded = self.decoded == self.blocks;
        match all_decoded && !(strict && self.beyond_half() > 0) {
            true => Status::Done,
            false => Status::Open,
        }
    }

    /// The outcomes, in one line; and another where blocks are to be looked at.
    pub fn outcomes(&self) -> String {
        let (blocks, beyond) = (counted(self.blocks, "block"), self.beyond_half());
        let counts = [self.within_half, beyond, self.failed, self.refused];
        let mut text = format!("{blocks}: {}", outcomes(counts.map(|count| count as u64)));
        if beyond > 0 {
            text += &format!(
                "\nto be looked at: {} decoded beyond the half (within_half is no)",
                counted(beyond, "block")
            );
        }
        text
    }

    /// The sizes and what they promise, in one line; `sizes` comes from the matrix.
    pub fn summary(&self, sizes: &str, promise: &Promise) -> String {
        let mut line = format!("{sizes}, blocks {}", self.blocks);
        let Some(setting) = promise.setting else {
            return line + "; one-step voting carries the promise";
        };
        line += &format!(", samples at level 0: {}", self.level_0);
        line += &format!("; limit {} ", setting.limit);
        line += &match (promise.missing(), promise.undone()) {
            (None, t) => {
                let rounds = setting.rounds_for(promise.gamma, t);
                format!("carries the promise (it is at least {rounds})")
            }
            (Some(other), 0) => format!("does not carry the promise: {other} does"),
            (Some(other), undone) => {
                let bits = counted(undone, "wrong bit");
                format!("carries the promise for {bits} and no more: {other} carries it for t")
            }
        };
        if promise.needs_levels() {
            line += &format!(
                "; gamma is even: it holds for t - 1 in the blocks with a sample above 0 at \
                 level 0, which are {}",
                self.weak_blocks
            );
        }
        line
    }
}

#[cfg(test)]
mod tests {
    use super::{Answer, Ended, Matrix, Promise, Setting, Status, Totals};

    /// Of a code with this gamma, at 8 bits and this limit.
    fn promise(gamma: u16, limit: u8) -> Promise {
        promise_by(8, gamma, limit)
    }

    fn promise_by(bits: u8, gamma: u16, limit: u8) -> Promise {
        let matrix = Matrix {
            n: 155,
            m: 93,
            rho: 5,
            gamma,
            list: Vec::new(),
        };
        let setting = Setting {
            bits,
            limit,
            kind: 0,
            step: 0.1,
        };
        Promise::iterative(&matrix, &setting)
    }

    /// Of a block whose wrong bits are all undecided: `changed` decides nothing.
    fn reason(promise: Promise, decoded: bool, wrong_bits: usize, weak: bool) -> String {
        let answer = Answer {
            decoded,
            rounds: 30,
            failing: if decoded { 0 } else { 4 },
            changed: 0,
        };
        let ended = Ended {
            word: Vec::new(),
            wrong_bits,
            weak,
        };
        promise.row(1, 0, answer, ended).reason
    }

    /// The same words whatever the limit, and no claim of how many bits were wrong.
    #[test]
    fn decoded_beyond_the_half() {
        let ending = "nothing proves this codeword to be the one sent, \
                      compare it with another reception or send the block again";
        for limit in [0, 30, 63, 64, 255] {
            for weak in [false, true] {
                let expected =
                    format!("wrong_bits is 6, more than t = 2 (half of gamma): {ending}");
                assert_eq!(reason(promise(5, limit), true, 6, weak), expected);
                assert_eq!(reason(promise(4, limit), true, 6, weak), expected);
                assert_eq!(reason(promise(4, limit), true, 2, weak), "");
            }
        }
        let expected = format!("wrong_bits is 2, more than t = 1 (half of gamma): {ending}");
        assert_eq!(reason(promise(3, 64), true, 2, false), expected);
        let expected = format!("wrong_bits is 1, more than t = 0 (half of gamma): {ending}");
        assert_eq!(reason(promise(1, 64), true, 1, false), expected);
    }

    #[test]
    fn statuses() {
        let totals = |decoded, within_half, failed, refused| Totals {
            blocks: decoded + failed + refused,
            decoded,
            within_half,
            failed,
            refused,
            ..Totals::default()
        };
        for (totals, status, strict) in [
            (totals(2, 2, 0, 0), Status::Done, Status::Done),
            (totals(2, 1, 0, 0), Status::Done, Status::Open),
            (totals(2, 2, 1, 0), Status::Open, Status::Open),
            (totals(2, 2, 0, 1), Status::Open, Status::Open),
            (totals(0, 0, 0, 1), Status::Open, Status::Open),
        ] {
            assert_eq!(totals.status(false), status, "{totals:?}");
            assert_eq!(totals.status(true), strict, "{totals:?}");
        }
        assert_eq!(
            totals(1, 1, 0, 0).outcomes(),
            "1 block: 1 decoded within the half, 0 decoded beyond the half, 0 failed, 0 refused"
        );
        assert_eq!(
            totals(4_000, 1_700, 45, 5).outcomes(),
            "4,050 blocks: 1,700 decoded within the half, 2,300 decoded beyond the half, \
             45 failed, 5 refused\n\
             to be looked at: 2,300 blocks decoded beyond the half (within_half is no)"
        );
    }

    /// How many bits were wrong is said as it follows: with a limit that carries the promise, and for
    /// one bit fewer where gamma is even and a bit 1 has level 0.
    #[test]
    fn failed() {
        let ending = "4 checks still fail: send the block again";
        for (gamma, weak, wrong) in [
            (5, false, "more than 2 bits were wrong"),
            (5, true, "more than 2 bits were wrong"),
            (4, false, "more than 2 bits were wrong"),
            (4, true, "more than 1 bit was wrong"),
            (2, true, "a bit was wrong"),
        ] {
            let needed = if gamma == 5 { 43 } else { 64 };
            let found = reason(promise(gamma, needed), false, 9, weak);
            assert_eq!(found, format!("{wrong}: {ending}"));
        }
    }

    /// With a smaller limit fewer wrong bits are proved to be undone, and levels of 0 lose none.
    #[test]
    fn failed_with_a_small_limit() {
        for (bits, gamma, limit, wrong, other) in [
            (8, 5, 42, "more than 1 bit was wrong", "limit 43"),
            (8, 5, 25, "a bit was wrong", "limit 43"),
            (8, 4, 63, "more than 1 bit was wrong", "limit 64"),
            (8, 2, 63, "a bit was wrong", "limit 64"),
            (9, 2, 127, "a bit was wrong", "limit 128"),
            (10, 3, 170, "a bit was wrong", "limit 171"),
            (10, 4, 255, "more than 1 bit was wrong", "bits 9 limit 128"),
            (11, 3, 255, "a bit was wrong", "bits 10 limit 171"),
            (11, 5, 255, "more than 1 bit was wrong", "bits 10 limit 171"),
            (12, 8, 255, "a bit was wrong", "bits 9 limit 128"),
            (
                12,
                30,
                255,
                "more than 11 bits were wrong",
                "bits 9 limit 128",
            ),
            (
                12,
                32,
                255,
                "more than 12 bits were wrong",
                "bits 9 limit 128",
            ),
            (12, 32, 63, "a bit was wrong", "bits 9 limit 128"),
            (12, 32, 64, "more than 1 bit was wrong", "bits 9 limit 128"),
        ] {
            for weak in [false, true] {
                let found = reason(promise_by(bits, gamma, limit), false, 9, weak);
                let expected = format!(
                    "{wrong}: 4 checks still fail after 30 rounds: \
                     try {other} before you send it again"
                );
                assert_eq!(found, expected, "bits {bits}, gamma {gamma}");
            }
        }
    }

    /// As many wrong bits as 255 rounds are enough for: README.md has this table.
    #[test]
    fn most_that_can_be_promised() {
        for gamma in 1..=32 {
            let t = usize::from(gamma) / 2;
            let promised = |bits| promise_by(bits, gamma, 255).undone();
            assert_eq!([2, 8, 9].map(promised), [t; 3]);
            let lost = match gamma % 2 {
                0 => [1, 2, 4],
                _ => [0, 1, 3],
            };
            let expected = lost.map(|lost| t.saturating_sub(lost));
            assert_eq!([10, 11, 12].map(promised), expected, "gamma {gamma}");
        }
    }

    /// What the summary says of the limit.
    #[test]
    fn summaries() {
        let said = |promise: Promise| {
            let line = Totals::default().summary("sizes", &promise);
            let (_, limit) = line.split_once("level 0: 0; ").expect("the limit");
            limit.to_string()
        };
        let even = "; gamma is even: it holds for t - 1 in the blocks with a sample above 0 at \
                    level 0, which are 0";
        for (bits, gamma, limit, expected) in [
            (8, 1, 0, "limit 0 carries the promise (it is at least 0)"),
            (8, 3, 64, "limit 64 carries the promise (it is at least 43)"),
            (8, 3, 42, "limit 42 does not carry the promise: limit 43 does"),
            (
                8,
                5,
                42,
                "limit 42 carries the promise for 1 wrong bit and no more: limit 43 carries it for t",
            ),
            (
                12,
                3,
                255,
                "limit 255 does not carry the promise: bits 10 limit 171 does",
            ),
            (
                12,
                32,
                255,
                "limit 255 carries the promise for 12 wrong bits and no more: \
                 bits 9 limit 128 carries it for t",
            ),
        ] {
            assert_eq!(said(promise_by(bits, gamma, limit)), expected);
        }
        assert_eq!(
            said(promise(4, 64)),
            format!("limit 64 carries the promise (it is at least 64){even}")
        );
    }
}
