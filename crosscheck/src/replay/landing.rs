//! Where accepted forwards landed: section "What each entry owes its caller" of
//! document 01.

use super::{Frame, END_OF_THREAD, EVENT, REGISTER, REGISTERS};
use std::ops::Range;

/// The bytes of the lent registers on which each forward of outcome 0 to a thread
/// landed, overwritten later or not. `outcomes` are those of the recording's events.
pub fn landings(recording: &[u8], outcomes: &[u8], thread: usize) -> Vec<Range<usize>> {
    let Ok(frame) = Frame::read(recording) else {
        return Vec::new();
    };
    let mut landed = Vec::new();
    // Under bypass no open is accepted, so that the base stays 0. Through a closed
    // gateway no forward is.
    let mut base = 0;
    let accepted = frame.events.iter().zip(outcomes);
    for (event, _) in accepted.filter(|(_, &outcome)| outcome == 0) {
        let [kind, sender, flags, _, recipient, code, ..] = *event;
        match kind {
            0 if usize::from(sender) == thread && flags & END_OF_THREAD == 0 => {
                base = REGISTER * place(event);
            }
            2 if usize::from(recipient) == thread => {
                let start = REGISTERS * thread + base + place(event);
                landed.push(start..start + (1 << code));
            }
            _ => {}
        }
    }
    landed
}

/// An open's register base, a forward's offset.
fn place(event: &[u8; EVENT]) -> usize {
    usize::from(u16::from_le_bytes([event[8], event[9]]))
}
