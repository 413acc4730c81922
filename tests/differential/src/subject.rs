use crate::Guarded;
use ffi_face::{LentMatrix, Packed};
use generator::Random;
use reference::{byte_count, Matrix, Refusal};

/// The library's refusal of a matrix and its place, the same in the check, the count of failing
/// checks and one-step voting; 0 for accepted.
pub fn refusal(h: &Matrix, random: &mut Random) -> (u64, u64) {
    let subject = Subject::new(h, random);
    let answer = subject.check();
    if answer.refusal() != 0 {
        let received = random.bytes(byte_count(h.n));
        let room = byte_count(h.n) + random.below(3);
        assert_eq!(subject.failing(&received, random), answer);
        assert_eq!(subject.one_step(&received, room, random).0, answer);
    }
    (answer.refusal(), answer.place())
}

/// A matrix that both sides are asked about. The reference checks it once.
pub struct Subject {
    matrix: Matrix,
    list: Guarded<u16>,
    verdict: Result<(), Refusal>,
}

impl Subject {
    pub fn new(matrix: &Matrix, random: &mut Random) -> Subject {
        Subject {
            matrix: matrix.clone(),
            list: Guarded::new(&matrix.list, random),
            verdict: reference::check(matrix),
        }
    }

    pub fn matrix(&self) -> &Matrix {
        &self.matrix
    }

    /// The reference's check of it.
    pub fn verdict(&self) -> Result<(), Refusal> {
        self.verdict
    }

    /// The bytes of a word of this matrix.
    pub fn needed(&self) -> usize {
        byte_count(self.matrix.n)
    }

    pub(crate) fn lent(&self) -> LentMatrix<'_> {
        LentMatrix {
            list: self.list.lent(),
            ..LentMatrix::from(&self.matrix)
        }
    }

    /// The sizes and, of a short list, the entries, for a message.
    pub(crate) fn described(&self) -> String {
        let h = &self.matrix;
        let mut text = format!("n {} m {} rho {} gamma {}", h.n, h.m, h.rho, h.gamma);
        if h.list.len() <= 120 {
            text += &format!(" list {:?}", h.list);
        } else {
            text += &format!(" list of {}", h.list.len());
        }
        text
    }

    /// The list and its guards are as they were.
    pub(crate) fn list_stands(&self) -> bool {
        self.list.lent() == self.matrix.list && self.list.guards_stand()
    }

    /// Compares the check; gives the answer.
    pub fn check(&self) -> Packed {
        let expected = Packed::of_check(self.verdict);
        let answer = ffi_face::check(self.lent());
        assert_eq!(answer, expected, "check of {}", self.described());
        assert!(self.list_stands(), "list of {}", self.described());
        answer
    }

    /// Compares the count of failing checks; gives the answer.
    pub fn failing(&self, received: &[u8], random: &mut Random) -> Packed {
        let guarded = Guarded::new(received, random);
        let expected = self
            .verdict
            .and_then(|()| reference::failing_accepted(&self.matrix, received));
        let answer = ffi_face::failing(self.lent(), guarded.lent());
        let call = || format!("failing of {received:02x?}, {}", self.described());
        assert_eq!(answer, Packed::of_failing(expected), "{}", call());
        assert!(self.list_stands(), "list, {}", call());
        assert!(guarded.guards_stand(), "guards, {}", call());
        assert_eq!(guarded.lent(), received, "received word, {}", call());
        answer
    }

    /// Compares one-step voting into a buffer of `room` random bytes; gives the answer and what
    /// stands in the buffer.
    pub fn one_step(&self, received: &[u8], room: usize, random: &mut Random) -> (Packed, Vec<u8>) {
        let guarded = Guarded::new(received, random);
        let mut written = Guarded::new(&random.bytes(room), random);
        let mut expected_cells = written.lent().to_vec();
        let expected = self.verdict.and_then(|()| {
            reference::one_step_accepted(&self.matrix, received, &mut expected_cells)
        });
        let answer = ffi_face::one_step(self.lent(), guarded.lent(), written.lent_mut());
        let call = || {
            format!(
                "one step on {received:02x?} into {room}, {}",
                self.described()
            )
        };
        assert_eq!(answer, Packed::of_voting(expected), "{}", call());
        assert_eq!(written.lent(), expected_cells, "written buffer, {}", call());
        assert!(written.guards_stand(), "guards of the buffer, {}", call());
        assert!(self.list_stands(), "list, {}", call());
        assert!(guarded.guards_stand(), "guards, {}", call());
        assert_eq!(guarded.lent(), received, "received word, {}", call());
        (answer, written.lent().to_vec())
    }

    /// Compares the count, and one-step voting into a buffer of exactly the needed bytes, a
    /// longer one and one that is a byte short. Gives the answer and the word of the first.
    pub fn word(&self, received: &[u8], random: &mut Random) -> (Packed, Vec<u8>) {
        let needed = self.needed();
        self.failing(received, random);
        self.one_step(received, needed + 1 + random.below(12), random);
        self.one_step(received, needed - 1, random);
        self.one_step(received, needed, random)
    }
}
