//! The listing: section "The listing" of document 01.

use crate::batch::{self, Answer, Word, RECORD};
use crate::masks::KINDS;
use std::fmt::Write;

/// The most bytes that the program takes.
pub const MOST: usize = 4096;

/// The capacity that it lends, in rows.
pub const CAPACITY: u32 = 2048;

/// The commands' names, by kind.
pub const NAMES: [&str; KINDS] = [
    "NOP", "FLU", "END", "VFE", "CUR", "IDL", "SFL", "OBJ", "GWS",
];

/// What the chip's program prints for its input.
pub fn listing(chip: u32, input: &[u8]) -> Vec<u8> {
    // A record for every dword that passes, so that 10 never occurs.
    let mut records = vec![0; MOST * RECORD];
    let answer = check(chip, input, &mut records);
    let text = match answer.number {
        0 => accepted(answer, &records),
        number => format!("MPL 1\nrefused {number} at {}\n", answer.place),
    };
    text.into_bytes()
}

/// The batch check, after the program's own limit, which precedes 17.
fn check(chip: u32, input: &[u8], records: &mut [u8]) -> Answer {
    if input.len() > MOST {
        return Answer::refused(1, 0);
    }
    batch::check_bytes(chip, input, CAPACITY, records)
}

/// A line for each record, then the sums.
fn accepted(answer: Answer, records: &[u8]) -> String {
    let mut text = String::from("MPL 1\n");
    let (words, _) = records.as_chunks::<4>();
    let (records, _) = words.as_chunks::<RECORD>();
    for record in &records[..answer.commands as usize] {
        let [kind, place, total, ..] = record.map(Word::get);
        let name = NAMES[kind as usize];
        let _ = writeln!(text, "{place} {name} {total}");
    }
    let _ = writeln!(text, "accepted {} {}", answer.commands, answer.dwords);
    text
}

#[cfg(test)]
mod tests;
