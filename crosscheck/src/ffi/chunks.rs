//! The library's check of a batch that comes in parts.

use crate::batch::Answer;

/// What the library carries: `struct mpl_carried`, all zero before the first chunk.
#[derive(Clone, Copy, Debug, Default, PartialEq, Eq)]
#[repr(C)]
pub struct Carried {
    pub answered: u32,
    pub dwords: u32,
    pub stop: u32,
    pub place: u32,
    pub got: u32,
    pub own: [u32; 8],
    pub earlier_vfe: u32,
    pub vfe_in_force: u32,
    pub vfe_dword_1: u32,
    pub vfe_dword_2: u32,
    pub vfe_dword_3: u32,
    pub vfe_dword_4: u32,
    pub count_loaded: u32,
    pub standing: u32,
    pub commands: u32,
    pub objects: u32,
}

/// `struct mpl_fed`: its last four numbers are those of an answer.
#[derive(Clone, Copy, Debug, PartialEq, Eq)]
#[repr(C)]
pub struct Fed {
    pub carried: Carried,
    pub more: u64,
    pub answer: Answer,
}

extern "C" {
    fn mpl_feed(
        chip: u32,
        carried: Carried,
        chunk: *const u32,
        chunk_len: usize,
        last: u32,
        capacity: u32,
        records: *mut u32,
        records_len: usize,
    ) -> Fed;

    /// The same function: on x86-64 C hands over the place of what is returned in memory
    /// as if it were the first argument.
    #[link_name = "mpl_feed"]
    #[allow(clashing_extern_declarations)]
    fn mpl_feed_into(
        fed: *mut Fed,
        chip: u32,
        carried: Carried,
        chunk: *const u32,
        chunk_len: usize,
        last: u32,
        capacity: u32,
        records: *mut u32,
        records_len: usize,
    ) -> *mut Fed;
}

/// One chunk. Inlined, so that the carried state is copied once, as a caller in C does.
#[inline(always)]
pub fn feed(
    chip: u32,
    carried: &Carried,
    chunk: &[u32],
    last: u32,
    capacity: u32,
    records: &mut [u32],
) -> Fed {
    // SAFETY: both slices are live for the call and do not overlap; a slice's
    // pointer is never null and is aligned, also at length 0.
    unsafe {
        mpl_feed(
            chip,
            *carried,
            chunk.as_ptr(),
            chunk.len(),
            last,
            capacity,
            records.as_mut_ptr(),
            records.len(),
        )
    }
}

/// What a call gives back, between two guards.
#[repr(C)]
struct Framed {
    before: [u64; 16],
    fed: Fed,
    after: [u64; 16],
}

const GUARD: u64 = 0xa5a5_5a5a_c3c3_3c3c;

/// The same between guards; none where the library wrote outside what it gives back.
pub fn feed_framed(
    chip: u32,
    carried: &Carried,
    chunk: &[u32],
    last: u32,
    capacity: u32,
    records: &mut [u32],
) -> Option<Fed> {
    let mut framed = Framed {
        before: [GUARD; 16],
        fed: Fed {
            carried: Carried::default(),
            more: GUARD,
            answer: Answer {
                number: GUARD,
                place: GUARD,
                commands: GUARD,
                dwords: GUARD,
            },
        },
        after: [GUARD; 16],
    };
    // SAFETY: as above; what is given back is written where the frame has it.
    unsafe {
        mpl_feed_into(
            &raw mut framed.fed,
            chip,
            *carried,
            chunk.as_ptr(),
            chunk.len(),
            last,
            capacity,
            records.as_mut_ptr(),
            records.len(),
        )
    };
    (framed.before == [GUARD; 16] && framed.after == [GUARD; 16]).then_some(framed.fed)
}

/// A chunk of no dwords and no record buffer: null pointers, which are allowed at length 0.
pub fn feed_nothing(chip: u32, carried: &Carried, last: u32) -> Fed {
    use std::ptr::{null, null_mut};
    // SAFETY: a pointer of length 0 is not used.
    unsafe { mpl_feed(chip, *carried, null(), 0, last, 0, null_mut(), 0) }
}
