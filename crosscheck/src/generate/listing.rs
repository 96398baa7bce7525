//! Inputs of the listing programs: batches as bytes, valid, damaged or junk, short
//! and around their limit of length.

use super::batch::{self, flat, Command, Rows};
use super::{bytes, isolation};
use crate::batch::{END, NOOP};
use crate::listing::{CAPACITY, MOST};
use crate::random::Random;

/// One random input; the stream decides which sort. Mostly for the chip's own program.
pub fn random_case(random: &mut Random, chip: u32) -> Vec<u8> {
    if random.one_in(10) {
        let length = random.below(MOST + 500);
        return random.bytes(length);
    }
    let dwords = match random.below(8) {
        0 => random.between(MOST / 4 - 100, MOST / 4 + 8),
        1 | 2 => random.between(1, 300),
        _ => random.between(1, 60),
    };
    let of = match random.one_in(12) {
        true => batch::other_chip(chip),
        false => chip,
    };
    batch::case_of(random, of, dwords, CAPACITY).bytes()
}

/// The fixed inputs of the chip's program. The seed fills what no rule looks at.
pub fn sweep(seed: u64, chip: u32) -> Vec<Vec<u8>> {
    let mut inputs = limits();
    inputs.extend(cuts(chip));
    inputs.extend(single_bits(chip));
    let random = &mut Random::new(seed);
    inputs.extend(capacities(random, chip));
    inputs.extend(second_vfes(random, chip));
    // The batch check's own sweep, thinned out.
    let batches = batch::sweep(seed).into_iter();
    let batches = batches.filter(|case| case.chip == chip).step_by(299);
    inputs.extend(batches.map(|case| case.bytes()));
    // Inline data, then each way in which reading stops.
    let pairs = isolation::sweep(seed).into_iter();
    let pairs = pairs.filter(|pair| pair.first.batch.chip == chip);
    inputs.extend(pairs.step_by(21).map(|pair| pair.first.batch.bytes()));
    inputs
}

/// Lengths around 0 and the limit; END first, in the last whole dword or missing.
fn limits() -> Vec<Vec<u8>> {
    let lengths = (0..9).chain(MOST - 5..MOST + 6).chain([2 * MOST, 70_000]);
    let ends = |length: usize| [Some(0), (length / 4).checked_sub(1), None];
    let input = |length: usize, end: Option<usize>| {
        let mut dwords = vec![NOOP; length.div_ceil(4)];
        if let Some(dword) = end.and_then(|end| dwords.get_mut(end)) {
            *dword = END;
        }
        let mut input = bytes(&dwords);
        input.truncate(length);
        input
    };
    lengths
        .flat_map(|length| ends(length).map(|end| input(length, end)))
        .collect()
}

/// A batch of every kind, cut at every byte.
fn cuts(chip: u32) -> impl Iterator<Item = Vec<u8>> {
    let whole = bytes(&flat(&batch::base(chip)));
    (0..=whole.len()).map(move |length| whole[..length].to_vec())
}

/// That batch with one bit changed, in every dword.
fn single_bits(chip: u32) -> impl Iterator<Item = Vec<u8>> {
    let whole = flat(&batch::base(chip));
    (0..whole.len()).flat_map(move |at| {
        [0, 8, 31].map(|bit| {
            let mut dwords = whole.clone();
            dwords[at] ^= 1 << bit;
            bytes(&dwords)
        })
    })
}

/// Rows asked for against the capacity, by the entries and by the CURBE.
fn capacities(random: &mut Random, chip: u32) -> Vec<Vec<u8>> {
    let mut inputs = Vec::new();
    for rows in [0, 1, CAPACITY - 1, CAPACITY, CAPACITY + 1, 65_535] {
        for (entry_size, curbe_size) in [(rows, 0), (0, rows), (rows / 2, rows - rows / 2)] {
            let vfe = Command::vfe(random, chip, Rows(1, entry_size, curbe_size));
            inputs.push(bytes(&flat(&[vfe, Command::plain(2)])));
        }
    }
    inputs
}

/// A VFE, flushes of each sort and the VFE again, with a bit of any dword changed or none.
fn second_vfes(random: &mut Random, chip: u32) -> Vec<Vec<u8>> {
    let vfe = Command::vfe(random, chip, Rows(1, 2, 4));
    let mut seconds = vec![vfe.clone()];
    seconds.extend((0..8).map(|dword| vfe.flipped(dword, random.below(32) as u32)));
    let mut inputs = Vec::new();
    for second in &seconds {
        for flushes in [&[6][..], &[6, 0, 6], &[1, 6], &[6, 1], &[]] {
            let mut commands = vec![vfe.clone()];
            commands.extend(flushes.iter().map(|&kind| Command::plain(kind)));
            commands.extend([second.clone(), Command::plain(2)]);
            inputs.push(bytes(&flat(&commands)));
        }
    }
    inputs
}

#[cfg(test)]
mod tests;
