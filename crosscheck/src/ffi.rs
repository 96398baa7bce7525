//! The library's C interface, with safe wrappers.

use crate::batch::Answer;

pub mod chunks;

mod in_play;
pub use in_play::deltas_in_play;

mod order;
pub use order::{check_order, check_order_dwords};

mod replay;
pub use replay::replay;

extern "C" {
    fn mpl_check_batch(
        chip: u32,
        batch: *const u8,
        batch_len: usize,
        capacity: u32,
        records: *mut u8,
        records_len: usize,
    ) -> Answer;

    fn mpl_check_batch_dwords(
        chip: u32,
        batch: *const u32,
        batch_len: usize,
        capacity: u32,
        records: *mut u32,
        records_len: usize,
    ) -> Answer;
}

/// The batch check over little-endian bytes.
pub fn check_batch(chip: u32, batch: &[u8], capacity: u32, records: &mut [u8]) -> Answer {
    // SAFETY: both slices are live for the call and do not overlap; a slice's
    // pointer is never null and is aligned, also at length 0.
    unsafe {
        mpl_check_batch(
            chip,
            batch.as_ptr(),
            batch.len(),
            capacity,
            records.as_mut_ptr(),
            records.len(),
        )
    }
}

/// The batch check over dwords.
pub fn check_batch_dwords(chip: u32, batch: &[u32], capacity: u32, records: &mut [u32]) -> Answer {
    // SAFETY: as above; the lengths are in dwords.
    unsafe {
        mpl_check_batch_dwords(
            chip,
            batch.as_ptr(),
            batch.len(),
            capacity,
            records.as_mut_ptr(),
            records.len(),
        )
    }
}

/// Both entries with nothing lent: null pointers, which are allowed at length 0.
pub fn check_nothing(chip: u32, capacity: u32) -> [Answer; 2] {
    use std::ptr::{null, null_mut};
    // SAFETY: a pointer of length 0 is not used.
    unsafe {
        [
            mpl_check_batch(chip, null(), 0, capacity, null_mut(), 0),
            mpl_check_batch_dwords(chip, null(), 0, capacity, null_mut(), 0),
        ]
    }
}
