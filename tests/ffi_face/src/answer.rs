use reference::{Answer, Outcome, Refusal};
use std::fmt;

/// The answer of an exported function: code + 2^32 × (rounds + 2^8 × (failing + 2^12 × changed)).
///
/// The code is 0 for decoded, accepted, counted, quantised, brought over, taken back, built, read or
/// stored, 1 for failed, 2 for working, else the refusal's number × 65,536 + its place. A refusal has
/// rounds, failing and changed 0. A stored sheet has its number of bytes in their place, 2^32 times.
#[derive(Clone, Copy, PartialEq, Eq)]
pub struct Packed(pub u64);

impl Packed {
    pub fn new(code: u64, rounds: usize, failing: usize, changed: usize) -> Packed {
        let (rounds, failing, changed) = (rounds as u64, failing as u64, changed as u64);
        assert!(code < 1 << 32 && rounds < 1 << 8 && failing < 1 << 12 && changed < 1 << 12);
        Packed(code + (1 << 32) * (rounds + (1 << 8) * (failing + (1 << 12) * changed)))
    }

    /// What the library is to answer where the reference checks a matrix, quantises, brings levels over,
    /// takes them back, builds an index or reads a sheet.
    pub fn of_check(answer: Result<(), Refusal>) -> Packed {
        answer.map_or_else(Packed::refused, |()| Packed::new(0, 0, 0, 0))
    }

    /// The same for the count of failing checks.
    pub fn of_failing(answer: Result<usize, Refusal>) -> Packed {
        answer.map_or_else(Packed::refused, |failing| Packed::new(0, 0, failing, 0))
    }

    /// The same for the count of changed bits.
    pub fn of_changed(answer: Result<usize, Refusal>) -> Packed {
        answer.map_or_else(Packed::refused, |changed| Packed::new(0, 0, 0, changed))
    }

    /// The same for a sheet that is stored in so many bytes.
    pub fn of_stored(answer: Result<usize, Refusal>) -> Packed {
        answer.map_or_else(Packed::refused, |bytes| Packed((bytes as u64) << 32))
    }

    /// The same for voting.
    pub fn of_voting(answer: Result<Answer, Refusal>) -> Packed {
        answer.map_or_else(Packed::refused, |answer| {
            let code = match answer.outcome {
                Outcome::Decoded => 0,
                Outcome::Failed => 1,
                Outcome::Working => 2,
            };
            Packed::new(code, answer.rounds, answer.failing, answer.changed)
        })
    }

    /// The same for a refusal.
    pub fn refused(refusal: Refusal) -> Packed {
        let code = u64::from(refusal.number) * 65536 + u64::from(refusal.place);
        Packed::new(code, 0, 0, 0)
    }

    /// The refusal's number, or 0.
    pub fn refusal(self) -> u64 {
        self.0 % (1 << 32) / 65536
    }

    /// The refusal's place, or the outcome.
    pub fn place(self) -> u64 {
        self.0 % 65536
    }

    /// The changed bits of an answer that is no refusal.
    pub fn changed(self) -> usize {
        (self.0 >> 52) as usize
    }

    /// The bytes of a stored sheet.
    pub fn bytes(self) -> usize {
        (self.0 >> 32) as usize
    }
}

impl fmt::Debug for Packed {
    fn fmt(&self, f: &mut fmt::Formatter) -> fmt::Result {
        let counts = self.0 >> 32;
        match (self.refusal(), self.place()) {
            (0, 0) => write!(f, "decoded")?,
            (0, 1) => write!(f, "failed")?,
            (0, 2) => write!(f, "working")?,
            (0, code) => write!(f, "code {code}")?,
            (number, place) => write!(f, "refusal {number} at {place}")?,
        }
        let (rounds, failing, changed) = (counts % 256, counts / 256 % 4096, counts / 256 / 4096);
        write!(f, ", rounds {rounds}, failing {failing}, changed {changed}")
    }
}
