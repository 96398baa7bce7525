//! The library's order check.

use crate::order::Answer;

extern "C" {
    fn mpl_check_order(
        chip: u32,
        batch: *const u8,
        batch_len: usize,
        capacity: u32,
        run: *const u8,
        run_len: usize,
        records: *mut u8,
        records_len: usize,
        states: *mut u8,
        states_len: usize,
    ) -> Answer;

    fn mpl_check_order_dwords(
        chip: u32,
        batch: *const u32,
        batch_len: usize,
        capacity: u32,
        run: *const u32,
        run_len: usize,
        records: *mut u32,
        records_len: usize,
        states: *mut u8,
        states_len: usize,
    ) -> Answer;
}

/// The order check over little-endian bytes.
pub fn check_order(
    chip: u32,
    batch: &[u8],
    capacity: u32,
    run: &[u8],
    records: &mut [u8],
    states: &mut [u8],
) -> Answer {
    // SAFETY: the slices are live for the call and do not overlap; a slice's
    // pointer is never null and is aligned, also at length 0.
    unsafe {
        mpl_check_order(
            chip,
            batch.as_ptr(),
            batch.len(),
            capacity,
            run.as_ptr(),
            run.len(),
            records.as_mut_ptr(),
            records.len(),
            states.as_mut_ptr(),
            states.len(),
        )
    }
}

/// The order check over dwords.
pub fn check_order_dwords(
    chip: u32,
    batch: &[u32],
    capacity: u32,
    run: &[u32],
    records: &mut [u32],
    states: &mut [u8],
) -> Answer {
    // SAFETY: as above; the lengths are in dwords, for states in bytes.
    unsafe {
        mpl_check_order_dwords(
            chip,
            batch.as_ptr(),
            batch.len(),
            capacity,
            run.as_ptr(),
            run.len(),
            records.as_mut_ptr(),
            records.len(),
            states.as_mut_ptr(),
            states.len(),
        )
    }
}
