//! Rounds one at a time. The record crosses as eight numbers: state, b, round limit, k, n, m,
//! rho, gamma.

use crate::{LentMatrix, Packed};
use reference::{Session, Setting, State};

extern "C" {
    fn mlgd_open(
        record: *mut u16,
        record_len: usize,
        n: u16,
        m: u16,
        rho: u16,
        gamma: u16,
        list: *const u16,
        list_len: usize,
        bits: u16,
        limit: u16,
        kind: u16,
        step: f32,
        samples: *const f32,
        samples_len: usize,
        word: *mut u8,
        word_len: usize,
        levels: *mut i16,
        levels_len: usize,
    ) -> u64;

    fn mlgd_step(
        record: *mut u16,
        record_len: usize,
        n: u16,
        m: u16,
        rho: u16,
        gamma: u16,
        list: *const u16,
        list_len: usize,
        received: *const u8,
        received_len: usize,
        opened: *const i16,
        opened_len: usize,
        word: *mut u8,
        word_len: usize,
        levels: *mut i16,
        levels_len: usize,
    ) -> u64;
}

/// Opening.
pub fn open(
    record: &mut [u16],
    h: LentMatrix,
    setting: &Setting,
    samples: &[f32],
    word: &mut [u8],
    levels: &mut [i16],
) -> Packed {
    // SAFETY: as in the crate's root: any record, any setting and any lengths are accepted.
    Packed(unsafe {
        mlgd_open(
            record.as_mut_ptr(),
            record.len(),
            h.n,
            h.m,
            h.rho,
            h.gamma,
            h.list.as_ptr(),
            h.list.len(),
            setting.bits,
            setting.limit,
            setting.kind,
            setting.step,
            samples.as_ptr(),
            samples.len(),
            word.as_mut_ptr(),
            word.len(),
            levels.as_mut_ptr(),
            levels.len(),
        )
    })
}

/// One step. `opened` are the levels that the opening wrote.
pub fn step(
    record: &mut [u16],
    h: LentMatrix,
    received: &[u8],
    opened: &[i16],
    word: &mut [u8],
    levels: &mut [i16],
) -> Packed {
    // SAFETY: as above.
    Packed(unsafe {
        mlgd_step(
            record.as_mut_ptr(),
            record.len(),
            h.n,
            h.m,
            h.rho,
            h.gamma,
            h.list.as_ptr(),
            h.list.len(),
            received.as_ptr(),
            received.len(),
            opened.as_ptr(),
            opened.len(),
            word.as_mut_ptr(),
            word.len(),
            levels.as_mut_ptr(),
            levels.len(),
        )
    })
}

/// The record that the numbers stand for, if they are eight. A state other than 0 to 3 is taken
/// as empty.
pub fn record_of(cells: &[u16]) -> Option<Session> {
    let &[state, bits, limit, k, n, m, rho, gamma] = cells else {
        return None;
    };
    let state = match state {
        1 => State::Working,
        2 => State::Decoded,
        3 => State::Failed,
        _ => State::Empty,
    };
    Some(Session {
        state,
        bits,
        limit,
        k,
        n,
        m,
        rho,
        gamma,
    })
}

/// The numbers of a record.
pub fn cells_of(record: &Session) -> [u16; 8] {
    let state = match record.state {
        State::Empty => 0,
        State::Working => 1,
        State::Decoded => 2,
        State::Failed => 3,
    };
    let r = record;
    [state, r.bits, r.limit, r.k, r.n, r.m, r.rho, r.gamma]
}
