//! The gateway replay: section "The gateway recording" of document 01.
//!
//! One pass over the recording; nothing is allocated, and of an event only a
//! forward's own data is copied. Counts are only written, so they are added up
//! beside the events and handed over at the end.

/// Bytes of a recording before the group bytes.
pub const HEADER: usize = 10;

/// Bytes of an event.
pub const EVENT: usize = 48;

/// Bytes of a thread's registers, and of one register.
pub const REGISTERS: usize = 4096;
pub const REGISTER: usize = 32;

/// The group byte of a thread that belongs to none.
pub const NO_GROUP: u8 = 255;

/// The end-of-thread flag in byte 2.
const END_OF_THREAD: u8 = 8;

mod landing;

pub use landing::landings;

/// A thread's gateway; all 0 where it is closed. The size is the size code.
#[derive(Clone, Copy, Debug, Default, PartialEq, Eq)]
#[repr(C)]
pub struct Gateway {
    pub open: u32,
    pub base: u32,
    pub size: u32,
    pub key: u32,
}

/// A barrier's byte and who waits at it, bit t for thread t.
#[derive(Clone, Copy, Debug, Default, PartialEq, Eq)]
#[repr(C)]
pub struct Barrier {
    pub byte: u32,
    pub waiting: u32,
}

/// What the entry answers; on refusal the gateways are closed and the barriers empty.
/// Laid out as in C, with what it holds, so that the library can answer with it too.
#[derive(Clone, Copy, Debug, Default, PartialEq, Eq)]
#[repr(C)]
pub struct Replayed {
    pub number: u32,
    pub gateways: [Gateway; 16],
    pub barriers: [Barrier; 16],
}

/// Replays a recording over the lent registers, counts and outcomes.
pub fn replay(
    recording: &[u8],
    registers: &mut [u8],
    counts: &mut [u32],
    outcomes: &mut [u8],
) -> Replayed {
    let tape = match Tape::read(recording, registers.len(), counts.len(), outcomes.len()) {
        Ok(tape) => tape,
        Err(number) => {
            return Replayed {
                number,
                ..Replayed::default()
            }
        }
    };
    let mut desk = Desk {
        bypass: tape.bypass,
        groups: tape.groups,
        members: tape.members(),
        registers: registers.as_chunks_mut().0,
        notified: [[0; 4]; 16],
        released: [0; 16],
        end: Replayed::default(),
    };
    for (event, outcome) in tape.events.iter().zip(outcomes) {
        *outcome = desk.step(event);
    }
    for (thread, counts) in counts.as_chunks_mut().0.iter_mut().enumerate() {
        *counts = desk.counts(thread);
    }
    desk.end
}

/// A recording that passed rules 11 to 14, so that it has events.
pub(crate) struct Frame<'a> {
    pub bypass: bool,
    /// A byte per thread.
    pub groups: &'a [u8],
    pub events: &'a [[u8; EVENT]],
}

impl<'a> Frame<'a> {
    /// Rules 11 to 14 in order.
    pub fn read(recording: &'a [u8]) -> Result<Self, u32> {
        let Some((&header, rest)) = recording.split_first_chunk::<HEADER>() else {
            return Err(11);
        };
        let [m0, m1, m2, v0, v1, threads, bypass, e0, e1, zero] = header;
        if [m0, m1, m2] != *b"GWR" {
            return Err(11);
        }
        if u16::from_le_bytes([v0, v1]) != 1 {
            return Err(12);
        }
        if !(1..=16).contains(&threads) || bypass > 1 || zero != 0 {
            return Err(13);
        }
        let threads = usize::from(threads);
        let count = usize::from(u16::from_le_bytes([e0, e1]));
        if rest.len() != threads + EVENT * count {
            return Err(14);
        }
        let (groups, events) = rest.split_at(threads);
        Ok(Frame {
            bypass: bypass == 1,
            groups,
            events: events.as_chunks().0,
        })
    }
}

/// A recording that passed rules 11 to 16.
struct Tape<'a> {
    bypass: bool,
    /// The group byte of each thread; none past the thread count.
    groups: [u8; 16],
    events: &'a [[u8; EVENT]],
}

impl<'a> Tape<'a> {
    /// Rules 11 to 16 in order, over the recording and the lent lengths.
    fn read(
        recording: &'a [u8],
        registers: usize,
        counts: usize,
        outcomes: usize,
    ) -> Result<Self, u32> {
        let Frame {
            bypass,
            groups: own_groups,
            events,
        } = Frame::read(recording)?;
        if own_groups
            .iter()
            .any(|&group| group > 15 && group != NO_GROUP)
        {
            return Err(15);
        }
        let threads = own_groups.len();
        if registers != REGISTERS * threads || counts != 2 * threads || outcomes < events.len() {
            return Err(16);
        }
        let mut groups = [NO_GROUP; 16];
        groups[..threads].copy_from_slice(own_groups);
        Ok(Tape {
            bypass,
            groups,
            events,
        })
    }

    /// The members of each group, bit t for thread t.
    fn members(&self) -> [u32; 16] {
        let mut members = [0; 16];
        for (thread, &group) in self.groups.iter().enumerate() {
            if let Some(members) = members.get_mut(usize::from(group)) {
                *members |= 1 << thread;
            }
        }
        members
    }
}

/// What the events work on. Registers have an element per thread.
struct Desk<'a> {
    bypass: bool,
    groups: [u8; 16],
    members: [u32; 16],
    registers: &'a mut [[u8; REGISTERS]],
    /// Accepted forwards, by recipient and notify.
    notified: [[u32; 4]; 16],
    /// Releases of each barrier.
    released: [u32; 16],
    end: Replayed,
}

impl Desk<'_> {
    /// N0 and N2 of a thread.
    fn counts(&self, thread: usize) -> [u32; 2] {
        let group = usize::from(self.groups[thread]);
        let released = self.released.get(group).copied().unwrap_or(0);
        let [_, n0, n2, _] = self.notified[thread];
        [n0 + released, n2]
    }

    /// One event; gives its outcome.
    fn step(&mut self, event: &[u8; EVENT]) -> u8 {
        let [kind, sender, flags, ack_register, ..] = *event;
        let sender = usize::from(sender);
        let ack = flags & 1 == 1;
        let end_of_thread = flags & END_OF_THREAD != 0;
        let stray = event[10..16] != [0; 6];
        if sender >= self.registers.len() || flags > 15 || ack && end_of_thread || stray {
            return 31;
        }
        // End of thread belongs to kinds 0 and 1, a counted ack to 0, 1, 2 and 4.
        if end_of_thread && kind > 1 {
            return 31;
        }
        let counted = ack && matches!(kind, 0 | 1 | 2 | 4);
        if counted && ack_register > 127 {
            return 31;
        }
        let outcome = match kind {
            0 if end_of_thread => self.close(sender),
            0 => self.open(sender, event),
            1 => self.close(sender),
            2 => self.forward(flags >> 1 & 3, event),
            4 => self.barrier(sender),
            5 => self.update(event),
            3 | 6 => 32,
            _ => 31,
        };
        // Last, so that it wins over the sender's own forward.
        if counted && outcome != 31 && outcome != 32 {
            let register = REGISTER * usize::from(ack_register);
            self.registers[sender][register..][..4]
                .copy_from_slice(&u32::from(outcome).to_le_bytes());
        }
        outcome
    }

    fn open(&mut self, sender: usize, event: &[u8; EVENT]) -> u8 {
        let size = u32::from(event[5]);
        let base = u32::from(u16::from_le_bytes([event[8], event[9]]));
        if base > 127 || size > 5 {
            return 31;
        }
        if self.bypass {
            return 32;
        }
        if base + (1 << size) > 128 {
            return 33;
        }
        self.end.gateways[sender] = Gateway {
            open: 1,
            base,
            size,
            key: u32::from(u16::from_le_bytes([event[6], event[7]])),
        };
        0
    }

    fn close(&mut self, sender: usize) -> u8 {
        if self.bypass {
            return 32;
        }
        self.end.gateways[sender] = Gateway::default();
        0
    }

    fn forward(&mut self, notify: u8, event: &[u8; EVENT]) -> u8 {
        let recipient = usize::from(event[4]);
        let code = event[5];
        let offset = usize::from(u16::from_le_bytes([event[8], event[9]]));
        if notify == 3 || code > 5 || offset > 8191 {
            return 31;
        }
        let Some(registers) = self.registers.get_mut(recipient) else {
            return 34;
        };
        let (base, window) = match self.bypass {
            true => (0, REGISTERS),
            false => {
                let gateway = &self.end.gateways[recipient];
                if gateway.open == 0 {
                    return 35;
                }
                if gateway.key != u32::from(u16::from_le_bytes([event[6], event[7]])) {
                    return 36;
                }
                (REGISTER * gateway.base as usize, REGISTER << gateway.size)
            }
        };
        if offset + (1 << code) > window {
            return 37;
        }
        let (_, data) = event.split_last_chunk().expect("an event's data");
        write(registers, base + offset, code, data);
        self.notified[recipient][usize::from(notify)] += 1;
        0
    }

    fn barrier(&mut self, sender: usize) -> u8 {
        let group = usize::from(self.groups[sender]);
        let Some(&members) = self.members.get(group) else {
            return 38;
        };
        let barrier = &mut self.end.barriers[group];
        if barrier.waiting >> sender & 1 == 1 {
            return 39;
        }
        barrier.waiting |= 1 << sender;
        if barrier.waiting == members {
            barrier.waiting = 0;
            self.released[group] += 1;
        }
        0
    }

    fn update(&mut self, event: &[u8; EVENT]) -> u8 {
        match self.end.barriers.get_mut(usize::from(event[4])) {
            Some(barrier) => {
                barrier.byte = u32::from(event[5]);
                0
            }
            None => 31,
        }
    }
}

/// The first 2^code data bytes to a thread's registers from a byte on, where they fit.
/// The length is no branch: bytes past it are written as they were.
fn write(registers: &mut [u8; REGISTERS], at: usize, code: u8, data: &[u8; 32]) {
    let mask = &MASKS[usize::from(code)];
    if let Some(target) = registers[at..].first_chunk_mut::<32>() {
        let (old, new) = (target.as_chunks_mut::<8>().0, data.as_chunks::<8>().0);
        for ((old, new), mask) in old.iter_mut().zip(new).zip(mask) {
            let kept = u64::from_le_bytes(*old) & !mask;
            *old = (kept | u64::from_le_bytes(*new) & mask).to_le_bytes();
        }
        return;
    }
    // Fewer than 32 bytes are left, so it is 16 at most: these as one number.
    let start = at.min(REGISTERS - 16);
    let shift = 8 * (at - start);
    let mask = (u128::from(mask[0]) | u128::from(mask[1]) << 64) << shift;
    let target: &mut [u8; 16] = registers[start..].first_chunk_mut().expect("16 bytes");
    let kept = u128::from_le_bytes(*target) & !mask;
    let new = u128::from_le_bytes(*data.first_chunk().expect("16 bytes")) << shift;
    *target = (kept | new & mask).to_le_bytes();
}

/// The first 2^code bytes of 32, by code.
const MASKS: [[u64; 4]; 6] = [
    [0xff, 0, 0, 0],
    [0xffff, 0, 0, 0],
    [0xffff_ffff, 0, 0, 0],
    [u64::MAX, 0, 0, 0],
    [u64::MAX, u64::MAX, 0, 0],
    [u64::MAX; 4],
];

#[cfg(test)]
mod tests;
