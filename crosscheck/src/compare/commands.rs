//! The commands of a batch, one after the other.

use crate::batch::{CURBE, DESCRIPTOR, END, FLUSH, GATEWAY, NOOP, OBJECT, STATE_FLUSH, VFE};

pub struct Command {
    pub kind: usize,
    pub place: usize,
    pub total: usize,
}

/// Up to END, the slice's end or a header of no kind. Lengths are taken as they stand, so
/// it is for commands that have passed and the one after them.
pub fn commands(batch: &[u32]) -> impl Iterator<Item = Command> + '_ {
    let mut next = 0;
    std::iter::from_fn(move || {
        let place = next;
        let &header = batch.get(place)?;
        let kind = kind(header)?;
        let total = match kind {
            0..=2 => 1,
            _ => (header & 0xffff) as usize + 2,
        };
        next = if kind == 2 {
            batch.len()
        } else {
            place + total
        };
        Some(Command { kind, place, total })
    })
}

fn kind(header: u32) -> Option<usize> {
    let kind = match (header, header >> 16) {
        (NOOP, _) => 0,
        (FLUSH, _) => 1,
        (END, _) => 2,
        (_, VFE) => 3,
        (_, CURBE) => 4,
        (_, DESCRIPTOR) => 5,
        (_, STATE_FLUSH) => 6,
        (_, OBJECT) => 7,
        (_, GATEWAY) => 8,
        _ => return None,
    };
    Some(kind)
}
