//! Pairs of recordings that differ only in data bytes of forwards naming one thread.

use crate::generate::replay::{self, Case};
use crate::random::Random;
use crate::replay::{Frame, EVENT, HEADER, REGISTERS};
use std::ops::Range;

pub struct Pair {
    pub first: Case,
    /// Agrees with the first recording but for data bytes of forwards naming `thread`.
    pub second: Vec<u8>,
    /// From 0 to 15, a thread of the recording or not.
    pub thread: usize,
}

impl Pair {
    fn new(random: &mut Random, first: Case, thread: usize) -> Self {
        let mut second = first.recording.clone();
        // All data bytes, or of some events one.
        let all = random.one_in(2);
        for data in data_bytes(&second, thread) {
            match all {
                true => second[data.clone()].copy_from_slice(&random.bytes(data.len())),
                false if random.one_in(2) => {
                    second[random.between(data.start, data.end - 1)] ^= 1 << random.below(8);
                }
                false => {}
            }
        }
        Pair {
            first,
            second,
            thread,
        }
    }

    /// Bytes in which the two recordings differ.
    pub fn differing(&self) -> usize {
        let both = self.first.recording.iter().zip(&self.second);
        both.filter(|(first, second)| first != second).count()
    }

    /// Where the thread's own registers stand among the lent ones, which may be fewer.
    pub fn own_registers(&self) -> Range<usize> {
        let start = REGISTERS * self.thread;
        let lent = self.first.registers;
        start.min(lent)..(start + REGISTERS).min(lent)
    }
}

/// The data of each forward that names the thread, accepted or not. A recording
/// refused with 11 to 14 has no events.
fn data_bytes(recording: &[u8], thread: usize) -> Vec<Range<usize>> {
    let Ok(frame) = Frame::read(recording) else {
        return Vec::new();
    };
    let start = HEADER + frame.groups.len();
    let events = (start..).step_by(EVENT).zip(frame.events);
    events
        .filter(|(_, event)| event[0] == 2 && usize::from(event[4]) == thread)
        .map(|(at, _)| at + 16..at + EVENT)
        .collect()
}

/// One random pair; the thread is mostly one that a forward names.
pub fn random_case(random: &mut Random) -> Pair {
    let first = replay::random_case(random);
    any_pair(random, first)
}

fn any_pair(random: &mut Random, first: Case) -> Pair {
    let named = recipients(&first.recording);
    let thread = match named.len() {
        1.. if !random.one_in(8) => random.pick(&named),
        _ => random.below(16),
    };
    Pair::new(random, first, thread)
}

/// Threads that forwards name, as often as they do.
fn recipients(recording: &[u8]) -> Vec<usize> {
    let Ok(frame) = Frame::read(recording) else {
        return Vec::new();
    };
    let forwards = frame.events.iter().filter(|event| event[0] == 2);
    let named = forwards.map(|event| usize::from(event[4]));
    named.filter(|&thread| thread < 16).collect()
}

/// The replay's own sweep, thinned out, and its long recordings.
pub fn sweep(seed: u64) -> Vec<Pair> {
    let random = &mut Random::new(seed);
    let cases = replay::sweep(seed).into_iter().step_by(7);
    let cases = cases.chain(replay::longest());
    cases.map(|first| any_pair(random, first)).collect()
}

#[cfg(test)]
mod tests;
