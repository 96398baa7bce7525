//! What no check can be faster than: a plain read of its input, and a plain store of
//! its output.

use std::hint::black_box;

/// What a lent buffer holds: bytes or dwords. Both are read and written by dwords, so
/// that the limits of the two entries are one.
pub trait Plain: Copy + Default + PartialEq {
    fn sum(all: &[Self]) -> u32;
    fn fill(all: &mut [Self], word: u32);
}

impl Plain for u32 {
    fn sum(all: &[u32]) -> u32 {
        all.iter().fold(0, |sum, &word| sum.wrapping_add(word))
    }

    fn fill(all: &mut [u32], word: u32) {
        all.fill(word);
    }
}

impl Plain for u8 {
    fn sum(all: &[u8]) -> u32 {
        let (words, tail) = all.as_chunks();
        let words = words.iter().map(|&word| u32::from_le_bytes(word));
        let tail = tail.iter().map(|&byte| u32::from(byte));
        words.chain(tail).fold(0, u32::wrapping_add)
    }

    fn fill(all: &mut [u8], word: u32) {
        let (words, tail) = all.as_chunks_mut();
        words.fill(word.to_le_bytes());
        tail.fill(0);
    }
}

/// Reads every element once, a register's width at a time.
#[inline(never)]
pub fn read<T: Plain>(all: &[T]) {
    black_box(T::sum(all));
}

/// Writes every element once.
#[inline(never)]
pub fn store<T: Plain>(all: &mut [T]) {
    T::fill(all, black_box(0));
    black_box(all);
}
