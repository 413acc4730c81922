use generator::Random;
use std::fmt::Debug;

/// What a lent cell can be.
pub trait Cell: Copy + Debug {
    fn by_chance(random: &mut Random) -> Self;

    /// Whether the two are the same bit for bit.
    fn same(self, other: Self) -> bool;
}

impl Cell for u8 {
    fn by_chance(random: &mut Random) -> u8 {
        random.byte()
    }

    fn same(self, other: u8) -> bool {
        self == other
    }
}

impl Cell for i8 {
    fn by_chance(random: &mut Random) -> i8 {
        random.byte() as i8
    }

    fn same(self, other: i8) -> bool {
        self == other
    }
}

impl Cell for i16 {
    fn by_chance(random: &mut Random) -> i16 {
        level_by_chance(random)
    }

    fn same(self, other: i16) -> bool {
        self == other
    }
}

impl Cell for u16 {
    fn by_chance(random: &mut Random) -> u16 {
        random.byte().into()
    }

    fn same(self, other: u16) -> bool {
        self == other
    }
}

impl Cell for f32 {
    fn by_chance(random: &mut Random) -> f32 {
        f32::from_bits(random.number() as u32)
    }

    fn same(self, other: f32) -> bool {
        self.to_bits() == other.to_bits()
    }
}

/// Any number of sixteen bits, often one of eight.
pub fn level_by_chance(random: &mut Random) -> i16 {
    let number = random.number();
    match number % 2 {
        0 => i16::from((number >> 56) as i8),
        _ => (number >> 48) as i16,
    }
}

/// Whether both have the same cells.
pub fn same_cells<T: Cell>(cells: &[T], others: &[T]) -> bool {
    cells.len() == others.len() && cells.iter().zip(others).all(|(&a, &b)| a.same(b))
}

/// Cells to lend, in the middle of others that no call may touch.
#[derive(Clone, Debug)]
pub struct Guarded<T> {
    cells: Vec<T>,
    before: usize,
    len: usize,
    guards: Vec<T>,
}

impl<T: Cell> Guarded<T> {
    /// The contents between guards of random number and contents.
    pub fn new(contents: &[T], random: &mut Random) -> Guarded<T> {
        let (before, after) = (1 + random.below(9), 1 + random.below(9));
        let guards: Vec<T> = (0..before + after).map(|_| T::by_chance(random)).collect();
        let (front, back) = guards.split_at(before);
        Guarded {
            cells: [front, contents, back].concat(),
            before,
            len: contents.len(),
            guards,
        }
    }

    /// `count` cells by chance between guards.
    pub fn by_chance(count: usize, random: &mut Random) -> Guarded<T> {
        let contents: Vec<T> = (0..count).map(|_| T::by_chance(random)).collect();
        Guarded::new(&contents, random)
    }

    pub fn lent(&self) -> &[T] {
        &self.cells[self.before..self.before + self.len]
    }

    pub fn lent_mut(&mut self) -> &mut [T] {
        &mut self.cells[self.before..self.before + self.len]
    }

    /// Whether the guards are as they were made.
    pub fn guards_stand(&self) -> bool {
        let (front, back) = self.guards.split_at(self.before);
        same_cells(&self.cells[..self.before], front)
            && same_cells(&self.cells[self.before + self.len..], back)
    }

    /// Whether the contents are these and the guards stand.
    pub fn holds(&self, contents: &[T]) -> bool {
        same_cells(self.lent(), contents) && self.guards_stand()
    }
}
