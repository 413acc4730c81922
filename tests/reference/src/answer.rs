/// "decoded or failed", and in a session "working included".
#[derive(Clone, Copy, Debug, PartialEq, Eq)]
pub enum Outcome {
    Decoded,
    Failed,
    Working,
}

/// "An answer holds: decoded or failed; rounds; failing (checks that fail in the word handed
/// back, 0 when decoded); changed (positions at which the word handed back differs from the
/// received word, that is from the hard bits where samples were lent)." Card 6 counts fewer of
/// them where samples were lent.
#[derive(Clone, Copy, Debug, PartialEq, Eq)]
pub struct Answer {
    pub outcome: Outcome,
    pub rounds: usize,
    pub failing: usize,
    pub changed: usize,
}

/// "positions at which the word handed back differs from the received word". Card 6: "one-step
/// voting on a word counts as before".
pub(crate) fn positions_that_differ(z: &[bool], received: &[bool]) -> usize {
    (0..z.len()).filter(|&j| z[j] != received[j]).count()
}

/// Card 6: "For samples, changed is from now on the number of positions with a level other than 0
/// at opening whose bit ends different".
pub(crate) fn decided_positions_that_differ(
    opened: &[i32],
    z: &[bool],
    received: &[bool],
) -> usize {
    (0..z.len())
        .filter(|&j| opened[j] != 0 && z[j] != received[j])
        .count()
}
