//! Lent runs: filled with old numbers before a call, and looked at to the end after it.
use crate::chance::Chance;

/// Places before and behind a lent run that must stay as they were as well.
const MARGIN: usize = 3;

pub trait Cell: Copy + PartialEq + Default {
    fn of(number: u64) -> Self;
}

impl Cell for u8 {
    fn of(number: u64) -> u8 {
        number as u8
    }
}

impl Cell for u16 {
    fn of(number: u64) -> u16 {
        number as u16
    }
}

impl Cell for u32 {
    fn of(number: u64) -> u32 {
        number as u32
    }
}

/// What stands in a run before a call.
#[derive(Clone, Copy)]
pub enum Dirt {
    Zeros,
    Ones,
    /// Numbers that might be an earlier job's marks and entries.
    Small,
    Any,
}

pub const DIRT: [Dirt; 4] = [Dirt::Any, Dirt::Small, Dirt::Ones, Dirt::Zeros];

#[derive(Default)]
pub struct Run<T> {
    cells: Vec<T>,
    was: Vec<T>,
    len: usize,
}

impl<T: Cell> Run<T> {
    pub fn lend(&mut self, len: usize, dirt: Dirt, chance: &mut Chance) {
        self.len = len;
        self.cells.clear();
        let whole = 0..len + 2 * MARGIN;
        match dirt {
            Dirt::Zeros => self.cells.extend(whole.map(|_| T::default())),
            Dirt::Ones => self.cells.extend(whole.map(|_| T::of(u64::MAX))),
            Dirt::Small => self.cells.extend(whole.map(|_| T::of(chance.next() >> 61))),
            Dirt::Any => self.cells.extend(whole.map(|_| T::of(chance.next() >> 16))),
        }
        self.was.clear();
        self.was.extend_from_slice(&self.cells);
    }

    pub fn pointer(&mut self) -> *mut T {
        self.cells[MARGIN..].as_mut_ptr()
    }

    pub fn part(&mut self) -> &mut [T] {
        &mut self.cells[MARGIN..MARGIN + self.len]
    }

    pub fn len(&self) -> usize {
        self.len
    }

    /// As it was.
    pub fn kept(&self) -> bool {
        self.cells == self.was
    }

    /// All zero, to its end.
    pub fn cleared(&self) -> bool {
        self.held(self.len, |place| self.cells[place] == T::default())
    }

    /// What was made, and behind it as it was.
    pub fn made(&self, made: &[T]) -> bool {
        made.len() <= self.len && self.held(made.len(), |place| self.cells[place] == made[place - MARGIN])
    }

    fn held(&self, first: usize, fits: impl Fn(usize) -> bool) -> bool {
        let (from, to) = (MARGIN, MARGIN + first);
        self.cells[..from] == self.was[..from] && self.cells[to..] == self.was[to..] && (from..to).all(fits)
    }
}
