//! The blocks of a results table, as a map needs them.

use crate::fault::Fault;
use crate::results::{Counts, Outcome, Row, Table};

/// How many blocks keep the reason of their refusal or failure: those that can have a tooltip.
pub const WITH_REASON: usize = 2_000;

/// How a block ended.
#[derive(Clone, Copy, Debug, PartialEq, Eq)]
pub enum End {
    /// Decoded, with so many changed bits, and no other codeword is so near.
    Within(u32),
    /// Decoded, with so many changed bits, but beyond the half: to be looked at.
    Beyond(u32),
    /// Not decoded; so many checks fail.
    Failed(u32),
    /// Not even tried.
    Refused,
}

impl End {
    fn of(row: &Row) -> End {
        let count = |of: fn(&Counts) -> usize| row.counts.as_ref().map_or(0, of) as u32;
        match row.outcome {
            Outcome::Decoded if row.within_half => End::Within(count(|c| c.changed)),
            Outcome::Decoded => End::Beyond(count(|c| c.changed)),
            Outcome::Failed => End::Failed(count(|c| c.failing)),
            Outcome::Refused => End::Refused,
        }
    }
}

/// A line of the table.
#[derive(Clone, Copy, Debug, PartialEq, Eq)]
pub struct Block {
    pub number: usize,
    pub end: End,
    /// How many further bits the vote turned, whose samples have level 0.
    pub undecided: u32,
}

/// The wrong bits that are not counted as changed.
fn undecided(row: &Row) -> u32 {
    let counts = row.counts.as_ref();
    counts.map_or(0, |c| c.wrong_bits.saturating_sub(c.changed)) as u32
}

/// The blocks in the table's order, and the reasons of some of them.
#[derive(Debug, Default)]
pub struct Blocks {
    pub all: Vec<Block>,
    /// Places in `all`, ascending, each with its reason.
    reasons: Vec<(usize, String)>,
}

impl Blocks {
    /// Reads a results table; `-` is standard input.
    pub fn open(file: &str) -> Result<Blocks, Fault> {
        let mut table = Table::open(file)?;
        let mut blocks = Blocks::default();
        while let Some(row) = table.next_row()? {
            blocks.add(row);
        }
        Ok(blocks)
    }

    fn add(&mut self, row: Row) {
        let block = Block {
            number: row.block,
            end: End::of(&row),
            undecided: undecided(&row),
        };
        if !row.reason.is_empty() && self.all.len() < WITH_REASON {
            self.reasons.push((self.all.len(), row.reason));
        }
        self.all.push(block);
    }

    /// The reason of the block at this place, or nothing.
    pub fn reason(&self, at: usize) -> &str {
        match self.reasons.binary_search_by_key(&at, |(place, _)| *place) {
            Ok(found) => &self.reasons[found].1,
            Err(_) => "",
        }
    }
}

/// Blocks without reasons and undecided bits, numbered from 0.
#[cfg(test)]
impl FromIterator<End> for Blocks {
    fn from_iter<T: IntoIterator<Item = End>>(ends: T) -> Blocks {
        let block = |(number, end)| Block {
            number,
            end,
            undecided: 0,
        };
        Blocks {
            all: (0..).zip(ends).map(block).collect(),
            reasons: Vec::new(),
        }
    }
}
