use crate::iterative::{buffers_fit, checks_of_all, Voting};
use crate::one_step::{lengths, received_bits};
use crate::quantiser::{check_setting, largest_level, limit_fits, samples_are_finite, width_fits};
use crate::word::spare_place_set;
use crate::{byte_count, check, unpack, Answer, Matrix, Outcome, Refusal, Setting};

/// "A session record is empty, working, decoded or failed".
#[derive(Clone, Copy, Debug, PartialEq, Eq)]
pub enum State {
    Empty,
    Working,
    Decoded,
    Failed,
}

/// "with b, the round limit, k and the four sizes." Nothing here is known to hold.
#[derive(Clone, Copy, Debug, PartialEq, Eq)]
pub struct Session {
    pub state: State,
    pub bits: u16,
    pub limit: u16,
    pub k: u16,
    pub n: u16,
    pub m: u16,
    pub rho: u16,
    pub gamma: u16,
}

impl Session {
    /// A record that no call has made.
    pub const EMPTY: Session = Session {
        state: State::Empty,
        bits: 0,
        limit: 0,
        k: 0,
        n: 0,
        m: 0,
        rho: 0,
        gamma: 0,
    };
}

/// "Opening and each step answer with the record's state".
fn state(outcome: Outcome) -> State {
    match outcome {
        Outcome::Decoded => State::Decoded,
        Outcome::Failed => State::Failed,
        Outcome::Working => State::Working,
    }
}

/// "Opening does steps 1 to 3." "Opening asks 1 to 8 and replaces any record."
pub fn open(
    record: &mut Session,
    h: &Matrix,
    setting: &Setting,
    samples: &[f32],
    word: &mut [u8],
    levels: &mut [i16],
) -> Result<Answer, Refusal> {
    open_checked(record, h, check(h), setting, samples, word, levels)
}

/// The same with the verdict of `check` at hand.
pub fn open_checked(
    record: &mut Session,
    h: &Matrix,
    verdict: Result<(), Refusal>,
    setting: &Setting,
    samples: &[f32],
    word: &mut [u8],
    levels: &mut [i16],
) -> Result<Answer, Refusal> {
    verdict?;
    check_setting(setting)?;
    buffers_fit(h, samples, word, levels)?;
    samples_are_finite(samples)?;

    let voting = Voting::opened(setting, samples);
    let outcome = voting.outcome(h, setting.limit);
    voting.write(word, levels);
    *record = Session {
        state: state(outcome),
        bits: setting.bits,
        limit: setting.limit,
        k: 0,
        n: h.n,
        m: h.m,
        rho: h.rho,
        gamma: h.gamma,
    };
    Ok(voting.answer(h, outcome, &voting.z, &voting.r))
}

/// Refusals 20 and 21.
fn record_is_working(record: &Session) -> Result<(), Refusal> {
    match record.state {
        // "20: the record is empty; or it is working with b or the round limit out of range or k
        // not below the round limit."
        State::Empty => Err(Refusal::plain(20)),
        State::Working => {
            if !width_fits(record.bits) || !limit_fits(record.limit) || record.k >= record.limit {
                return Err(Refusal::plain(20));
            }
            Ok(())
        }
        // "21: the record is decoded or failed."
        State::Decoded | State::Failed => Err(Refusal::plain(21)),
    }
}

/// "22: sizes other than the record's."
fn sizes_are_the_records(record: &Session, h: &Matrix) -> Result<(), Refusal> {
    let of_record = (record.n, record.m, record.rho, record.gamma);
    if of_record != (h.n, h.m, h.rho, h.gamma) {
        return Err(Refusal::plain(22));
    }
    Ok(())
}

/// "7: [..] or a written buffer shorter than needed." Card 6, of the levels the opening wrote: "a
/// wrong length of those is 7, and what they hold is never refused."
fn levels_fit(h: &Matrix, opened: &[i16], levels: &[i16]) -> Result<(), Refusal> {
    let n = usize::from(h.n);
    if opened.len() != n || levels.len() < n {
        return Err(Refusal::plain(7));
    }
    Ok(())
}

/// "23: a spare place set in the current word, or a level beyond ±L among the first n."
fn current_fits(record: &Session, word: &[u8], levels: &[i16]) -> Result<(), Refusal> {
    let largest = largest_level(record.bits);
    let beyond = levels[..usize::from(record.n)]
        .iter()
        .any(|&r| i32::from(r) < -largest || i32::from(r) > largest);
    if spare_place_set(record.n, &word[..byte_count(record.n)]) || beyond {
        return Err(Refusal::plain(23));
    }
    Ok(())
}

/// "A step does 4 to 6 and then 2 and 3, on the matrix, word and levels lent with it." Card 6: "a
/// step is also lent the levels the opening wrote".
///
/// "A step asks in this order: 20, 21, 1 to 5, 22, 7, 9, 23."
pub fn step(
    record: &mut Session,
    h: &Matrix,
    received: &[u8],
    opened: &[i16],
    word: &mut [u8],
    levels: &mut [i16],
) -> Result<Answer, Refusal> {
    step_checked(record, h, check(h), received, opened, word, levels)
}

/// The same with the verdict of `check` at hand.
pub fn step_checked(
    record: &mut Session,
    h: &Matrix,
    verdict: Result<(), Refusal>,
    received: &[u8],
    opened: &[i16],
    word: &mut [u8],
    levels: &mut [i16],
) -> Result<Answer, Refusal> {
    record_is_working(record)?;
    verdict?;
    sizes_are_the_records(record, h)?;
    lengths(h, received, Some(word))?;
    levels_fit(h, opened, levels)?;
    let received = received_bits(h, received)?;
    current_fits(record, word, levels)?;

    let n = usize::from(h.n);
    let numbers = |levels: &[i16]| levels.iter().map(|&r| i32::from(r)).collect();
    let opened: Vec<i32> = numbers(opened);
    let mut voting = Voting {
        k: usize::from(record.k),
        z: unpack(h.n, &word[..byte_count(h.n)]),
        r: numbers(&levels[..n]),
    };
    voting.round(h, &checks_of_all(h), record.bits);
    let outcome = voting.outcome(h, record.limit);
    voting.write(word, levels);
    // "The step brings the caller's own record up to date".
    record.state = state(outcome);
    record.k = voting.k as u16;
    Ok(voting.answer(h, outcome, &received, &opened))
}
