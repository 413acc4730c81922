//! The index of a matrix, and voting that is lent one, on both sides.

use crate::samples::described_samples;
use crate::{level_by_chance, Guarded, Left, Subject};
use ffi_face::{LentMatrix, Packed};
use generator::{settings, Random};
use reference::{pack, Answer, Matrix, Refusal, Setting};

/// A matrix and its own index, which the reference makes once.
pub struct Indexed {
    subject: Subject,
    own: Result<Vec<u16>, Refusal>,
}

/// The buffers that voting is lent to write to. One-step voting has no levels.
#[derive(Clone)]
struct Buffers {
    word: Vec<u8>,
    levels: Vec<i16>,
}

impl Buffers {
    fn by_chance(for_word: usize, for_levels: usize, random: &mut Random) -> Buffers {
        let levels = (0..for_levels).map(|_| level_by_chance(random)).collect();
        Buffers {
            word: random.bytes(for_word),
            levels,
        }
    }

    fn left(self, answer: Packed) -> Left {
        let Buffers { word, levels } = self;
        Left {
            answer,
            word,
            levels,
        }
    }
}

impl Indexed {
    pub fn new(matrix: &Matrix, random: &mut Random) -> Indexed {
        let subject = Subject::new(matrix, random);
        let own = subject.verdict().map(|()| reference::index_of(matrix));
        Indexed { subject, own }
    }

    pub fn subject(&self) -> &Subject {
        &self.subject
    }

    pub fn n(&self) -> usize {
        usize::from(self.subject.matrix().n)
    }

    /// The index of an accepted matrix.
    pub fn own(&self) -> &[u16] {
        self.own.as_ref().expect("an accepted matrix")
    }

    /// Refusals 1 to 5 and 10 of a call that is lent this index.
    fn verdict(&self, index: &[u16]) -> Result<(), Refusal> {
        match &self.own {
            Ok(own) => reference::trust_index(own, index),
            Err(refusal) => Err(*refusal),
        }
    }

    /// A lent index and the matrix for a message: all of a short index, else its length and where
    /// it differs.
    fn described(&self, index: &[u16]) -> String {
        let matrix = self.subject.described();
        if index.len() <= 120 {
            return format!("index {index:?}, {matrix}");
        }
        let own = self.own.as_deref().unwrap_or(&[]);
        let differs = index.iter().zip(own).position(|(a, b)| a != b);
        let length = index.len();
        format!("index of {length}, the first other number {differs:?}, {matrix}")
    }

    /// Compares the building of the index in a buffer of `room` random cells; gives the answer and
    /// what stands in the buffer.
    pub fn build(&self, room: usize, random: &mut Random) -> (Packed, Vec<u16>) {
        let before: Vec<u16> = (0..room).map(|_| random.number() as u16).collect();
        let mut buffer = Guarded::new(&before, random);
        let mut expected_cells = before.clone();
        let expected = match &self.own {
            Ok(own) => reference::write_index(own, &mut expected_cells),
            Err(refusal) => Err(*refusal),
        };
        let answer = ffi_face::index(self.subject.lent(), buffer.lent_mut());
        let call = || format!("index into {room}, {}", self.subject.described());
        assert_eq!(answer, Packed::of_check(expected), "{}", call());
        if let Some(at) = (0..room).find(|&at| buffer.lent()[at] != expected_cells[at]) {
            let (is, should_be) = (buffer.lent()[at], expected_cells[at]);
            panic!("number {at} is {is}, should be {should_be}, {}", call());
        }
        assert!(buffer.guards_stand(), "guards of the buffer, {}", call());
        assert!(self.subject.list_stands(), "list, {}", call());
        if answer.refusal() != 0 {
            assert!(buffer.holds(&before), "refused and written, {}", call());
        }
        (answer, buffer.lent().to_vec())
    }

    /// What the reference leaves: the matrix, then the index, then the call without one.
    fn by_reference(
        &self,
        index: &[u16],
        before: &Buffers,
        call: impl FnOnce(&Matrix, &mut Buffers) -> Result<Answer, Refusal>,
    ) -> Left {
        let mut buffers = before.clone();
        let answer = self
            .verdict(index)
            .and_then(|()| call(self.subject.matrix(), &mut buffers));
        buffers.left(Packed::of_voting(answer))
    }

    /// What the library leaves. Guards, list and index stand, and a refused call has written
    /// nothing.
    fn by_library(
        &self,
        index: &[u16],
        before: &Buffers,
        random: &mut Random,
        call: impl FnOnce(LentMatrix, &[u16], &mut [u8], &mut [i16]) -> Packed,
    ) -> Left {
        let lent = Guarded::new(index, random);
        let mut word = Guarded::new(&before.word, random);
        let mut levels = Guarded::new(&before.levels, random);
        let h = self.subject.lent();
        let answer = call(h, lent.lent(), word.lent_mut(), levels.lent_mut());
        let described = || self.described(index);
        assert!(word.guards_stand(), "guards of the word, {}", described());
        assert!(levels.guards_stand(), "of the levels, {}", described());
        assert!(lent.holds(index), "lent index, {}", described());
        assert!(self.subject.list_stands(), "list, {}", described());
        if answer.refusal() != 0 {
            let stand = word.holds(&before.word) && levels.holds(&before.levels);
            assert!(stand, "refused and written, {}", described());
        }
        Left {
            answer,
            word: word.lent().to_vec(),
            levels: levels.lent().to_vec(),
        }
    }

    /// The call without an index leaves the same, unless the index is refused.
    fn compare_without(
        &self,
        index: &[u16],
        mut buffers: Buffers,
        left: &Left,
        call: impl FnOnce(LentMatrix, &mut Buffers) -> Packed,
    ) {
        if self.verdict(index) != Err(Refusal::plain(10)) {
            let answer = call(self.subject.lent(), &mut buffers);
            let without = buffers.left(answer);
            assert_eq!(left, &without, "without, {}", self.described(index));
        }
    }

    /// Compares one-step voting, lent this index and `room` random bytes; gives the answer and what
    /// stands in the buffer.
    pub fn one_step(
        &self,
        index: &[u16],
        received: &[u8],
        room: usize,
        random: &mut Random,
    ) -> (Packed, Vec<u8>) {
        let guarded = Guarded::new(received, random);
        let before = Buffers::by_chance(room, 0, random);
        let expected = self.by_reference(index, &before, |h, to| {
            reference::one_step_accepted(h, received, &mut to.word)
        });
        let left = self.by_library(index, &before, random, |h, index, word, _| {
            ffi_face::one_step_indexed(h, index, guarded.lent(), word)
        });
        let call = || {
            let index = self.described(index);
            format!("one step on {received:02x?} into {room}, {index}")
        };
        assert_eq!(left, expected, "{}", call());
        assert!(guarded.holds(received), "received word, {}", call());
        self.compare_without(index, before, &left, |h, to| {
            ffi_face::one_step(h, received, &mut to.word)
        });
        (left.answer, left.word)
    }

    /// Compares iterative voting, lent this index and as many random cells for word and levels as
    /// `rooms` says; gives what it left.
    pub fn iterative(
        &self,
        index: &[u16],
        setting: &Setting,
        samples: &[f32],
        rooms: (usize, usize),
        random: &mut Random,
    ) -> Left {
        let guarded = Guarded::new(samples, random);
        let before = Buffers::by_chance(rooms.0, rooms.1, random);
        let expected = self.by_reference(index, &before, |h, to| {
            reference::iterative_accepted(h, setting, samples, &mut to.word, &mut to.levels)
        });
        let left = self.by_library(index, &before, random, |h, index, word, levels| {
            ffi_face::iterative_indexed(h, index, setting, guarded.lent(), word, levels)
        });
        let call = || {
            let (index, samples) = (self.described(index), described_samples(samples));
            format!("iterative, {setting:?}, rooms {rooms:?}, {index}, {samples}")
        };
        assert_eq!(left, expected, "{}", call());
        assert!(guarded.holds(samples), "samples, {}", call());
        self.compare_without(index, before, &left, |h, to| {
            ffi_face::iterative(h, setting, samples, &mut to.word, &mut to.levels)
        });
        left
    }

    /// One-step voting with the own index and a few bytes more than needed.
    pub fn word(&self, received: &[u8], random: &mut Random) -> (Packed, Vec<u8>) {
        let room = self.subject.needed() + random.below(4);
        self.one_step(self.own(), received, room, random)
    }

    /// Iterative voting with the own index and a few cells more than needed.
    pub fn block(&self, setting: &Setting, samples: &[f32], random: &mut Random) -> Left {
        let rooms = self.rooms(random);
        self.iterative(self.own(), setting, samples, rooms, random)
    }

    /// Cells for word and levels, a few more than needed.
    pub fn rooms(&self, random: &mut Random) -> (usize, usize) {
        let for_word = self.subject.needed() + random.below(4);
        (for_word, self.n() + random.below(4))
    }

    /// Both calls, lent this index with a word and a block that nothing refuses; gives the
    /// refusal's number and place, which are the same.
    pub fn lend(&self, index: &[u16], random: &mut Random) -> (u64, u64) {
        let rooms = self.rooms(random);
        let received = pack(&random.bits(self.n()));
        let voted = self.one_step(index, &received, rooms.0, random).0;
        let mut setting = settings::some(random);
        setting.limit %= 4;
        let samples: Vec<f32> = (0..self.n())
            .map(|_| setting.step * 3.0 * random.gaussian() as f32)
            .collect();
        let left = self.iterative(index, &setting, &samples, rooms, random);
        assert_eq!(left.answer.refusal(), voted.refusal());
        match voted.refusal() {
            0 => (0, 0),
            number => (number, voted.place()),
        }
    }
}
