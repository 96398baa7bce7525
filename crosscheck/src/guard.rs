//! Lent buffers between two guards, so that a write outside what was lent shows.

use crate::random::Random;
use std::ops::Range;

/// What a lent buffer may hold: bytes or dwords.
pub trait Cell: Copy + PartialEq + From<u8> + std::fmt::LowerHex {
    fn random(random: &mut Random, count: usize) -> Vec<Self>;
}

impl Cell for u8 {
    fn random(random: &mut Random, count: usize) -> Vec<u8> {
        random.bytes(count)
    }
}

impl Cell for u32 {
    fn random(random: &mut Random, count: usize) -> Vec<u32> {
        random.words(count)
    }
}

/// Cells in a guard, more than one record in bytes.
const GUARD: usize = 96;

#[derive(Clone)]
pub struct Guarded<T> {
    cells: Vec<T>,
    start: usize,
    length: usize,
}

impl<T: Cell> Guarded<T> {
    /// Lends `content`. The left guard's length varies, so byte buffers start at
    /// any alignment, and the pointer is a real one also at length 0.
    pub fn new(random: &mut Random, content: &[T]) -> Self {
        let left = GUARD + random.below(8);
        let mut cells = T::random(random, left);
        cells.extend_from_slice(content);
        cells.extend(T::random(random, GUARD));
        Guarded {
            cells,
            start: left,
            length: content.len(),
        }
    }

    /// Lends random content.
    pub fn filled(random: &mut Random, length: usize) -> Self {
        let content = T::random(random, length);
        Guarded::new(random, &content)
    }

    /// Puts `content` where the right guard begins: what a reader would meet
    /// that goes past the lent part.
    pub fn followed_by(mut self, content: &[T]) -> Self {
        let end = self.start + self.length;
        self.cells[end..end + content.len()].copy_from_slice(content);
        self
    }

    pub fn lent(&self) -> &[T] {
        &self.cells[self.start..self.start + self.length]
    }

    pub fn lent_mut(&mut self) -> &mut [T] {
        &mut self.cells[self.start..self.start + self.length]
    }

    /// The first cell, guards included, in which two copies of one buffer differ,
    /// in words: `lent 5: 1 against 2`.
    pub fn difference(&self, other: &Self) -> Option<String> {
        if self.cells == other.cells {
            return None;
        }
        let at = (0..self.cells.len()).find(|&at| self.cells[at] != other.cells[at])?;
        let name = if at < self.start {
            format!("guard -{}", self.start - at)
        } else if at < self.start + self.length {
            format!("lent {}", at - self.start)
        } else {
            format!("guard +{}", at - self.start - self.length)
        };
        Some(format!(
            "{name}: {:x} against {:x}",
            self.cells[at], other.cells[at]
        ))
    }

    /// True where nothing but the first `count` lent cells differs.
    pub fn differs_only_before(&self, other: &Self, count: usize) -> bool {
        self.differs_only_in(other, 0..count)
    }

    /// True where nothing was written outside what was lent.
    pub fn same_guards(&self, other: &Self) -> bool {
        self.differs_only_in(other, 0..self.length)
    }

    /// True where nothing but a part of the lent cells differs.
    pub fn differs_only_in(&self, other: &Self, part: Range<usize>) -> bool {
        let (from, to) = (self.start + part.start, self.start + part.end);
        self.cells[..from] == other.cells[..from] && self.cells[to..] == other.cells[to..]
    }
}

#[cfg(test)]
mod tests {
    use super::*;

    #[test]
    fn a_write_outside_shows() {
        let mut random = Random::new(1);
        let first = Guarded::<u32>::filled(&mut random, 4);
        for at in 0..first.cells.len() {
            let mut other = first.clone();
            other.cells[at] ^= 1;
            assert!(first.difference(&other).is_some());
            let within = (first.start..first.start + 3).contains(&at);
            assert_eq!(first.differs_only_before(&other, 3), within);
            let within = (first.start + 1..first.start + 3).contains(&at);
            assert_eq!(first.differs_only_in(&other, 1..3), within);
            let within = (first.start..first.start + 4).contains(&at);
            assert_eq!(first.same_guards(&other), within);
        }
        assert_eq!(first.difference(&first.clone()), None);
    }
}
