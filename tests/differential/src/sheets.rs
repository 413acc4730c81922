//! Circulant sheets into lists and back, on both sides.

use crate::{Guarded, Subject};
use ffi_face::Packed;
use generator::Random;
use reference::{Matrix, Refusal};

/// A sheet that both sides are asked about. The reference reads it once.
pub struct LentSheet {
    bytes: Vec<u8>,
    matrix: Result<Matrix, Refusal>,
}

impl LentSheet {
    pub fn new(bytes: Vec<u8>) -> LentSheet {
        let matrix = reference::matrix_of_sheet(&bytes);
        LentSheet { bytes, matrix }
    }

    /// The reference's matrix of it.
    pub fn matrix(&self) -> Option<&Matrix> {
        self.matrix.as_ref().ok()
    }

    /// The cells of its list; none of a refused sheet.
    pub fn needed(&self) -> usize {
        self.matrix().map_or(0, |h| h.list.len())
    }

    /// All bytes of a short sheet, for a message.
    fn described(&self) -> String {
        let count = self.bytes.len();
        format!("sheet of {count}: {:02x?}", &self.bytes[..count.min(200)])
    }

    /// Compares the reading of it into as many random cells for sizes and list as `rooms` says.
    /// Gives the answer and what stands in the two.
    pub fn to_list(&self, rooms: [usize; 2], random: &mut Random) -> (Packed, [Vec<u16>; 2]) {
        let lent = Guarded::new(&self.bytes, random);
        let before = rooms.map(|room| cells(room, random));
        let mut buffers = [0, 1].map(|at| Guarded::new(&before[at], random));
        let [sizes, list] = &mut buffers;
        let answer = ffi_face::sheet_to_list(lent.lent(), sizes.lent_mut(), list.lent_mut());

        let mut expected_cells = before.clone();
        let [sizes, list] = &mut expected_cells;
        let expected = self.matrix.as_ref().map_err(|refusal| *refusal);
        let expected = expected.and_then(|h| reference::write_matrix(h, sizes, list));
        let call = || format!("into {rooms:?}, {}", self.described());
        assert_eq!(answer, Packed::of_check(expected), "{}", call());
        if answer.refusal() != 0 {
            assert_eq!(before, expected_cells, "refused and written, {}", call());
        }
        for (buffer, expected) in buffers.iter().zip(&expected_cells) {
            assert_eq!(buffer.lent(), expected, "{}", call());
            assert!(buffer.guards_stand(), "guards, {}", call());
        }
        assert!(lent.holds(&self.bytes), "lent sheet, {}", call());
        (answer, expected_cells)
    }

    /// The same with a few cells more than needed; gives the refusal's number and place.
    pub fn refusal(&self, random: &mut Random) -> (u64, u64) {
        let rooms = [4 + random.below(3), self.needed() + random.below(9)];
        let (answer, _) = self.to_list(rooms, random);
        (answer.refusal(), answer.place())
    }
}

/// So many random numbers of 16 bits.
fn cells(count: usize, random: &mut Random) -> Vec<u16> {
    (0..count).map(|_| random.number() as u16).collect()
}

/// The refusal of a sheet and its place; 0 for accepted.
pub fn sheet_refusal(bytes: Vec<u8>, random: &mut Random) -> (u64, u64) {
    LentSheet::new(bytes).refusal(random)
}

/// A matrix and its sheet with blocks of z, which the reference makes once.
pub struct Sheeted<'a> {
    subject: &'a Subject,
    z: u16,
    own: Result<Vec<u8>, Refusal>,
}

impl Sheeted<'_> {
    pub fn new(subject: &Subject, z: u16) -> Sheeted<'_> {
        let own = subject
            .verdict()
            .and_then(|()| reference::sheet_of_accepted(subject.matrix(), z));
        Sheeted { subject, z, own }
    }

    /// The sheet, if there is one.
    pub fn own(&self) -> Option<&[u8]> {
        self.own.as_deref().ok()
    }

    /// Compares the storing of it in `room` random bytes; gives the answer and what stands there.
    pub fn store(&self, room: usize, random: &mut Random) -> (Packed, Vec<u8>) {
        let before = random.bytes(room);
        let mut buffer = Guarded::new(&before, random);
        let answer = ffi_face::list_to_sheet(self.subject.lent(), self.z, buffer.lent_mut());

        let mut expected_bytes = before.clone();
        let expected = self.own.as_ref().map_err(|refusal| *refusal);
        let expected = expected.and_then(|own| reference::write_sheet(own, &mut expected_bytes));
        let call = || {
            let matrix = self.subject.described();
            format!("blocks of {} into {room}, {matrix}", self.z)
        };
        assert_eq!(answer, Packed::of_stored(expected), "{}", call());
        if answer.refusal() != 0 {
            assert!(buffer.holds(&before), "refused and written, {}", call());
        }
        assert!(buffer.holds(&expected_bytes), "written bytes, {}", call());
        assert!(self.subject.list_stands(), "list, {}", call());
        (answer, expected_bytes)
    }

    /// The same in a few bytes more than needed; gives the refusal's number and place.
    pub fn refusal(&self, random: &mut Random) -> (u64, u64) {
        let room = self.own().map_or(0, <[u8]>::len) + random.below(9);
        let (answer, _) = self.store(room, random);
        (answer.refusal(), answer.place())
    }
}

/// The refusal of a matrix with blocks of z and its place; 0 for stored.
pub fn store_refusal(h: &Matrix, z: u16, random: &mut Random) -> (u64, u64) {
    let subject = Subject::new(h, random);
    Sheeted::new(&subject, z).refusal(random)
}
