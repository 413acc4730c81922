//! Stored levels brought over and taken back, on both sides.

use crate::guarded::same_cells;
use crate::{Cell, Guarded};
use ffi_face::Packed;
use generator::Random;
use reference::Refusal;

/// The first few numbers of a list and its length, for a message.
fn described<T: Cell>(numbers: &[T]) -> String {
    let shown = &numbers[..numbers.len().min(40)];
    format!("{} numbers {shown:?}", numbers.len())
}

/// Compares one of the two calls on `from`, with `room` random cells lent; gives the answer and what
/// stands in the cells. A refused call has written nothing.
fn compared<A: Cell, B: Cell>(
    name: &str,
    from: &[A],
    room: usize,
    by_reference: impl FnOnce(&[A], &mut [B]) -> Result<(), Refusal>,
    by_library: impl FnOnce(&[A], &mut [B]) -> Packed,
    random: &mut Random,
) -> (Packed, Vec<B>) {
    let lent = Guarded::new(from, random);
    let mut to = Guarded::<B>::by_chance(room, random);
    let before = to.lent().to_vec();
    let mut expected_cells = before.clone();
    let expected = Packed::of_check(by_reference(from, &mut expected_cells));
    let answer = by_library(lent.lent(), to.lent_mut());
    let call = || format!("{name} into {room}, {}", described(from));
    assert_eq!(answer, expected, "{}", call());
    let unlike = |&at: &usize| !to.lent()[at].same(expected_cells[at]);
    if let Some(at) = (0..room).find(unlike) {
        let (is, should_be) = (to.lent()[at], expected_cells[at]);
        panic!("{at} is {is:?}, should be {should_be:?}, {}", call());
    }
    assert!(to.guards_stand(), "guards, {}", call());
    assert!(lent.holds(from), "what was lent, {}", call());
    if answer.refusal() != 0 {
        assert!(same_cells(to.lent(), &before), "written, {}", call());
    }
    (answer, to.lent().to_vec())
}

/// Old levels brought over.
pub fn widen(old: &[i8], room: usize, random: &mut Random) -> (Packed, Vec<i16>) {
    let (by_reference, by_library) = (reference::widen, ffi_face::widen);
    compared("widen", old, room, by_reference, by_library, random)
}

/// Levels taken back.
pub fn narrow(levels: &[i16], room: usize, random: &mut Random) -> (Packed, Vec<i8>) {
    let (by_reference, by_library) = (reference::narrow, ffi_face::narrow);
    compared("narrow", levels, room, by_reference, by_library, random)
}
