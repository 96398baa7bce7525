//! The library's deltas in play.

#[repr(C)]
struct MplInPlay {
    count: u32,
    lowest: u32,
}

extern "C" {
    fn mpl_deltas_in_play(object_dword_2: u32, vfe_dword_5: u32, object_dword_5: u32) -> MplInPlay;
}

/// How many deltas are in play, and the lowest.
pub fn deltas_in_play(object_dword_2: u32, vfe_dword_5: u32, object_dword_5: u32) -> (u32, u32) {
    // SAFETY: numbers alone.
    let in_play = unsafe { mpl_deltas_in_play(object_dword_2, vfe_dword_5, object_dword_5) };
    (in_play.count, in_play.lowest)
}
