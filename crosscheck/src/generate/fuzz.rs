//! Junk and near-valid inputs: the bytes of other cases, changed without regard to
//! what they mean, in buffers of any length, for any chip.

use super::batch::CHIPS;
use super::{batch, dwords, order, replay};
use crate::batch::{END, GATEWAY, LIMIT, OBJECT, VFE};
use crate::random::Random;

/// A batch as the batch check's own cases, scenes or nothing in particular have it.
pub fn batch(random: &mut Random) -> batch::Case {
    let mut case = match random.below(4) {
        0 => junk_batch(random),
        1 => order::random_case(random).batch,
        _ => batch::random_case(random),
    };
    change(random, &mut case);
    case
}

fn change(random: &mut Random, case: &mut batch::Case) {
    case.chip = any_chip(random, case.chip);
    let mut bytes = case.bytes();
    mutate(random, &mut bytes, 4);
    (case.batch, case.tail) = dwords(&bytes);
    case.capacity = any_capacity(random, case.capacity);
    case.records = any_length(random, case.records);
}

/// A batch and a run, either of them or both changed.
pub fn order(random: &mut Random) -> order::Case {
    let mut case = order::random_case(random);
    match random.below(8) {
        0 => case.batch = batch(random),
        1..=3 => change(random, &mut case.batch),
        _ => {}
    }
    let mut bytes = case.run_bytes();
    mutate(random, &mut bytes, 4);
    (case.run, case.run_tail) = dwords(&bytes);
    case.states = any_length(random, case.states);
    case
}

/// A recording, header and events changed alike.
pub fn recording(random: &mut Random) -> replay::Case {
    let mut case = replay::random_case(random);
    mutate(random, &mut case.recording, 48);
    if random.one_in(8) {
        case.registers = any_length(random, case.registers);
        case.counts = any_length(random, case.counts);
    }
    case.outcomes = any_length(random, case.outcomes);
    case
}

/// Bytes of any content, few headers over and over, or one dword alone.
fn junk_batch(random: &mut Random) -> batch::Case {
    let length = match random.below(100) {
        0 => 4 * random.between(LIMIT - 9, LIMIT + 30),
        _ => random.below(400),
    };
    let content = match random.below(3) {
        0 => random.bytes(length),
        1 => repeated(&[random.word()], length),
        _ => {
            let objects = OBJECT << 16 | random.below(40) as u32;
            let any = random.word();
            let headers = [VFE << 16 | 6, objects, GATEWAY << 16, END, any, 0];
            repeated(&headers[random.below(5)..], length)
        }
    };
    let (batch, tail) = dwords(&content);
    batch::Case {
        chip: random.pick(&CHIPS),
        records: random.below(16 * batch.len() + 40),
        batch,
        tail,
        capacity: random.word() >> random.below(32),
        records_tail: random.below(4),
    }
}

fn repeated(dwords: &[u32], length: usize) -> Vec<u8> {
    let bytes = dwords.iter().cycle().flat_map(|dword| dword.to_le_bytes());
    bytes.take(length).collect()
}

/// As it was, the other one, or any number.
fn any_chip(random: &mut Random, chip: u32) -> u32 {
    match random.below(32) {
        0 => random.word(),
        1 => random.below(16) as u32,
        2 => chip ^ 1,
        _ => chip,
    }
}

fn any_capacity(random: &mut Random, capacity: u32) -> u32 {
    match random.below(8) {
        0 => random.word(),
        1 => capacity ^ 1 << random.below(32),
        _ => capacity,
    }
}

/// As it was, a little off, or any.
fn any_length(random: &mut Random, length: usize) -> usize {
    match random.below(12) {
        0 => random.below(2 * length + 2),
        1 => length + random.below(70),
        2 => length.saturating_sub(random.below(70)),
        _ => length,
    }
}

/// Changes bytes here and there, mostly once or twice; whole `unit`s move together
/// more often than not, so that what follows keeps its sense.
fn mutate(random: &mut Random, bytes: &mut Vec<u8>, unit: usize) {
    for _ in 0..random.pick(&[0, 1, 1, 1, 1, 2, 2, 3, 8]) {
        mutate_once(random, bytes, unit);
    }
}

fn mutate_once(random: &mut Random, bytes: &mut Vec<u8>, unit: usize) {
    if bytes.is_empty() {
        let more = random.below(2 * unit);
        return bytes.extend(random.bytes(more));
    }
    let at = random.below(bytes.len());
    match random.below(12) {
        0..=2 => bytes[at] ^= 1 << random.below(8),
        3 => bytes[at] = random.pick(&[0, 1, 2, 5, 0x70, 0x71, 0x7f, 0x80, 0xff]),
        4 => bytes[at] = random.word() as u8,
        5 | 6 => {
            // A dword at its edges or one step further.
            let at = at & !3;
            if let Some(dword) = bytes[at..].first_chunk_mut() {
                let word = u32::from_le_bytes(*dword);
                let next = random.pick(&[word.wrapping_add(1), word.wrapping_sub(1)]);
                let edge = random.pick(&[0, u32::MAX, 1 << 31, next, next, word ^ 0x1_0000]);
                *dword = edge.to_le_bytes();
            }
        }
        7 => {
            let part = part(random, bytes.len(), unit);
            bytes.drain(part);
        }
        8 => {
            let part = part(random, bytes.len(), unit);
            let again = bytes[part.clone()].to_vec();
            bytes.splice(part.start..part.start, again);
        }
        9 => {
            let part = part(random, bytes.len(), unit);
            let to = random.below(bytes.len() - part.len() + 1) / unit * unit;
            bytes.copy_within(part, to);
        }
        10 => {
            let more = random.pick(&[1, unit, unit, 2 * unit]);
            let place = at / unit * unit;
            bytes.splice(place..place, random.bytes(more));
        }
        _ => bytes.truncate(at),
    }
}

/// A few units, or any bytes.
fn part(random: &mut Random, length: usize, unit: usize) -> std::ops::Range<usize> {
    let unit = random.pick(&[unit, unit, unit, 1]);
    let start = random.below(length) / unit * unit;
    let end = start + unit * random.between(1, 8);
    start..end.min(length)
}

#[cfg(test)]
mod tests;
