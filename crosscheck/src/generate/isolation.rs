//! Pairs of batches that differ only in inline data of OBJECTs passed in the first,
//! each with one chip, one run and one set of buffers; and, in `recordings`, pairs of
//! recordings. Where the number names no chip, the batches differ anywhere.

use super::batch::{plausible, Command, CHIPS, NO_CHIPS};
use super::order::{self, Case, Object, Scene, Vfe};
use super::{batch, bytes, dwords};
use crate::batch::{
    known, passed_inline_data, CURBE, END, FLUSH, GATEWAY, LIMIT, NOOP, OBJECT, RECORD, VFE,
};
use crate::listing::CAPACITY;
use crate::random::Random;

pub mod recordings;

pub struct Pair {
    pub first: Case,
    /// Agrees with the first one's batch but for inline data passed there, if the chip
    /// is known.
    pub second: Vec<u32>,
}

impl Pair {
    fn new(first: Case, word: impl FnMut(u32) -> u32) -> Self {
        let batch::Case { chip, capacity, .. } = first.batch;
        let second = redrawn(chip, &first.batch.batch, capacity, word);
        Pair { first, second }
    }

    /// The second batch for the byte entries; the bytes after the last whole dword agree.
    pub fn second_bytes(&self) -> Vec<u8> {
        [bytes(&self.second), self.first.batch.tail.clone()].concat()
    }

    /// Dwords in which the two differ.
    pub fn differing(&self) -> usize {
        let both = self.first.batch.batch.iter().zip(&self.second);
        both.filter(|(first, second)| first != second).count()
    }
}

/// A batch with its passed inline data drawn anew by `word`, from what stands there; all
/// of it, if the chip is not known.
fn redrawn(chip: u32, batch: &[u32], capacity: u32, mut word: impl FnMut(u32) -> u32) -> Vec<u32> {
    let parts = match known(chip) {
        true => passed_inline_data(chip, batch, capacity),
        false => vec![0..batch.len(); 1],
    };
    let mut second = batch.to_vec();
    for at in parts.into_iter().flatten() {
        second[at] = word(second[at]);
    }
    second
}

/// The other input of a pair for the chip's listing program: a batch as bytes.
pub fn other_input(random: &mut Random, chip: u32, input: &[u8]) -> Vec<u8> {
    let (batch, tail) = dwords(input);
    let second = redrawn(chip, &batch, CAPACITY, |word| any_other(random, word));
    [bytes(&second), tail].concat()
}

/// One random pair that does differ.
pub fn random_case(random: &mut Random) -> Pair {
    loop {
        // Mostly accepted, or of any sort.
        let first = match random.one_in(3) {
            false => order::random_case(random),
            true => order::any_batch(random),
        };
        // All of the inline data, or here and there a dword.
        let often = random.pick(&[1, 1, 3, 10]);
        let pair = Pair::new(first, |word| match random.one_in(often) {
            true => any_other(random, word),
            false => word,
        });
        if pair.differing() > 0 {
            return pair;
        }
    }
}

/// A dword that stands for the given one: a header, one bit away, or any.
fn any_other(random: &mut Random, word: u32) -> u32 {
    match random.below(4) {
        0 => word ^ 1 << random.below(32),
        1 => random.pick(&CATCHES),
        _ => plausible(random),
    }
}

/// What might catch a reader of inline data.
const CATCHES: [u32; 9] = [
    NOOP,
    FLUSH,
    END,
    VFE << 16 | 6,
    CURBE << 16 | 2,
    GATEWAY << 16,
    OBJECT << 16 | 4,
    OBJECT << 16 | 0xffff,
    u32::MAX,
];

/// The fixed pairs: objects with inline data, then each way in which reading stops,
/// with each run and each lack of room, on both chips; and numbers of no chip. The seed
/// fills what no rule looks at.
pub fn sweep(seed: u64) -> Vec<Pair> {
    let random = &mut Random::new(seed);
    let mut cases = Vec::new();
    for chip in CHIPS {
        for stalling in [false, true] {
            for ending in endings() {
                for run in RUNS {
                    for odd in 0..4 {
                        let case = ended(random, chip, stalling, &ending, run);
                        cases.extend(lend(random, case, odd));
                    }
                }
            }
        }
        cases.extend(long(random, chip));
    }
    cases.extend(no_chips(&cases));
    cases
        .into_iter()
        .enumerate()
        .map(|(at, case)| Pair::new(case, |_| CATCHES[at % CATCHES.len()]))
        .collect()
}

/// Some of the cases with numbers of no chip.
fn no_chips(cases: &[Case]) -> Vec<Case> {
    let numbers = NO_CHIPS.into_iter().cycle();
    let some = cases.iter().step_by(23).zip(numbers);
    some.map(|(case, chip)| {
        let mut case = case.clone();
        case.batch.chip = chip;
        case
    })
    .collect()
}

/// Runs over three objects: whole, in part, and each refusal.
const RUNS: [&[u32]; 7] = [
    &[],
    &[0, 1, 2, 3, 4, 5],
    &[0, 1, 2, 6],
    &[0, 0],
    &[0, 1, 1],
    &[2],
    &[0, 2],
];

/// What follows the objects: END, or each fault that a command may have.
fn endings() -> Vec<Vec<u32>> {
    let fault = |kind: usize, dword: usize, word: u32| {
        let mut words = Command::plain(kind).words;
        words[dword] = word;
        words
    };
    vec![
        vec![END],
        vec![END, OBJECT << 16 | 4, 0, 0],
        vec![],
        fault(0, 0, 1),
        fault(7, 0, OBJECT << 16 | 3),
        fault(7, 0, OBJECT << 16 | 5),
        fault(7, 5, 1 << 31),
        fault(5, 2, 1),
        fault(3, 2, 0),
        fault(4, 2, 32 * 5),
        fault(8, 0, GATEWAY << 16 | 1),
    ]
}

/// Three objects that wait for the one before, with inline data, then `ending`. Before the
/// last one a state flush lets the VFE change its type.
fn ended(random: &mut Random, chip: u32, stalling: bool, ending: &[u32], run: &[u32]) -> Case {
    let mut scene = Scene::new(chip);
    let vfe = Vfe {
        enable: true,
        stalling,
        mask: 255,
        deltas: [(-1, 0); 8],
    };
    scene.vfe(random, vfe);
    for x in 0..3 {
        if x == 2 {
            let stalling = !stalling;
            scene.scoreboard(random, &[6], Vfe { stalling, ..vfe });
        }
        scene.filler(random);
        let object = Object {
            own_use: true,
            x,
            y: 0,
            colour: 0,
            mask: 255,
        };
        scene.object(random, object, 4 - x as usize);
    }
    let mut case = Case::new(&scene, run.to_vec());
    // The scene's own END goes.
    case.batch.batch.pop();
    case.batch.batch.extend(ending);
    case
}

/// The case with room enough, with too few records and with too few states; and
/// odd bytes after the batch or, for 3, after the run.
fn lend(random: &mut Random, case: Case, odd: usize) -> [Case; 3] {
    let exact = case.batch.records;
    let rooms = [(exact + 20, 5), (exact - 1, 3), (exact, 2)];
    rooms.map(|(records, states)| {
        let mut lent = case.clone();
        lent.batch.records = records;
        lent.states = states;
        lent.batch.records_tail = random.below(4);
        match odd {
            3 => lent.run_tail = random.bytes(1),
            _ => lent.batch.tail = random.bytes(odd),
        }
        lent
    })
}

/// Batches around the limit, and one over it; what stands before still counts as passed.
fn long(random: &mut Random, chip: u32) -> Vec<Case> {
    let mut cases = Vec::new();
    for length in [LIMIT - 1, LIMIT, LIMIT + 1, LIMIT + 5_000] {
        for ending in [&[END][..], &[]] {
            let mut case = ended(random, chip, false, &[], RUNS[1]);
            let end = length - ending.len();
            case.batch.batch.resize(end, NOOP);
            case.batch.batch.extend(ending);
            case.batch.records = RECORD * length;
            cases.push(case);
        }
    }
    cases
}

#[cfg(test)]
mod tests;
