//! The library's gateway replay.

use crate::replay::Replayed;

extern "C" {
    fn mpl_replay(
        recording: *const u8,
        recording_len: usize,
        registers: *mut u8,
        registers_len: usize,
        counts: *mut u32,
        counts_len: usize,
        outcomes: *mut u8,
        outcomes_len: usize,
    ) -> Replayed;
}

/// The gateway replay.
pub fn replay(
    recording: &[u8],
    registers: &mut [u8],
    counts: &mut [u32],
    outcomes: &mut [u8],
) -> Replayed {
    // SAFETY: the slices are live for the call and do not overlap; a slice's
    // pointer is never null and is aligned, also at length 0.
    unsafe {
        mpl_replay(
            recording.as_ptr(),
            recording.len(),
            registers.as_mut_ptr(),
            registers.len(),
            counts.as_mut_ptr(),
            counts.len(),
            outcomes.as_mut_ptr(),
            outcomes.len(),
        )
    }
}
