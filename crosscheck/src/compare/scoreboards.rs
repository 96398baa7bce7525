//! VFEs after a state flush, which pass by what they change: which changes were met, and
//! which fields of a changed scoreboard decided a run.

use super::commands::{commands, Command};
use super::{Report, Tally};
use crate::generate::batch::CHIPS;
use crate::generate::order;
use crate::masks::{self, Masks, FIXED_DWORDS};
use crate::order::{check, Answer};
use std::ops::Range;

/// A VFE after a state flush, while others stand since the last MI_FLUSH.
pub struct Change {
    place: usize,
    /// The place of the VFE in force before it.
    in_force: usize,
    /// The kind that stands since the state flush, if one does.
    stands: Option<usize>,
    /// The bits in which it differs from the VFE in force.
    bits: Masks,
    passed: bool,
}

/// A row's name for batches accepted in which a state flush let a VFE pass.
pub const CHANGED: &str = "by a state flush";

/// That name, or none.
pub fn row(batch: &[u32], number: u64) -> &'static str {
    match number {
        0 if !changes(batch, 0, 0).is_empty() => CHANGED,
        _ => "",
    }
}

/// The changes in a batch that passed, or up to a command refused with 8.
pub fn changes(batch: &[u32], number: u64, place: u64) -> Vec<Change> {
    let end = match number {
        0 | 21..=25 => batch.len(),
        8 => place as usize + 1,
        _ => 0,
    };
    let mut changes = Vec::new();
    let (mut last, mut in_use, mut flushed, mut stands) = (None, false, false, None);
    for Command { kind, place, .. } in commands(batch).take_while(|command| command.place < end) {
        match (kind, last) {
            (1, _) => (in_use, flushed, stands) = (false, false, None),
            (6, _) => (flushed, stands) = (in_use, None),
            (3, Some(in_force)) if flushed => changes.push(Change {
                place,
                in_force,
                stands,
                bits: std::array::from_fn(|dword| batch[place + dword] ^ batch[in_force + dword]),
                passed: number != 8 || place + 1 < end,
            }),
            _ => {}
        }
        if kind == 3 {
            last = Some(place);
        }
        if matches!(kind, 3 | 4 | 5 | 7 | 8) {
            (in_use, stands) = (true, Some(kind));
        }
    }
    changes
}

/// A scoreboard's fields.
const FIELDS: [(&str, Masks); 4] = [
    ("by enable", [0, 0, 0, 0, 0, 1 << 31, 0, 0]),
    ("by type", [0, 0, 0, 0, 0, 1 << 30, 0, 0]),
    ("by mask", [0, 0, 0, 0, 0, 0xff, 0, 0]),
    ("by deltas", [0, 0, 0, 0, 0, 0, u32::MAX, u32::MAX]),
];

/// Those that have a part in a run's number.
fn fields(number: u64) -> &'static [(&'static str, Masks)] {
    match number {
        0 | 25 => &FIELDS,
        24 => &FIELDS[..2],
        _ => &[],
    }
}

/// The fields of changed scoreboards without whose change the run would end otherwise.
pub fn deciding(case: &order::Case, changes: &[Change], answer: Answer) -> Vec<&'static str> {
    let changes_any = |field: &Masks| {
        let bits = changes.iter().flat_map(|change| change.bits);
        let mut fields = bits.zip(field.iter().cycle());
        fields.any(|(bits, field)| bits & field != 0)
    };
    let decides = |field: &Masks| changes_any(field) && undone(case, changes, field) != answer;
    let fields = fields(answer.number).iter();
    let deciding = fields.filter(|(_, field)| decides(field));
    deciding.map(|&(name, _)| name).collect()
}

/// The answer where each of the VFEs keeps a field of the one before.
fn undone(case: &order::Case, changes: &[Change], field: &Masks) -> Answer {
    let mut batch = case.batch.batch.clone();
    for change in changes {
        for (dword, bits) in field.iter().enumerate() {
            let kept = batch[change.in_force + dword] & bits;
            let own = &mut batch[change.place + dword];
            *own = *own & !bits | kept;
        }
    }
    let mut records = vec![0; case.batch.records];
    let mut states = vec![0; case.states];
    check(
        case.batch.chip,
        &batch,
        case.batch.capacity,
        &case.run,
        &mut records,
        &mut states,
    )
}

/// What the cases of an entry met, by chip.
pub struct Scoreboards([OfChip; CHIPS.len()]);

struct OfChip {
    chip: u32,
    tally: Tally,
    /// The bits that were a VFE's only difference: of those that passed, and of those
    /// refused with 8.
    passed: Masks,
    refused: Masks,
}

const EQUAL: &str = "equal VFE";
const SCOREBOARD: &str = "in the scoreboard alone";
const OTHER: &str = "in another field";

/// What stands since the state flush, by kind.
const STANDING: [(usize, &str); 5] = [
    (3, "VFE stands"),
    (4, "CURBE load stands"),
    (5, "descriptor load stands"),
    (7, "OBJECT stands"),
    (8, "gateway state stands"),
];

impl Scoreboards {
    /// For an entry of the batch check.
    pub fn new(entry: &str) -> Self {
        Scoreboards(CHIPS.map(|chip| {
            let entry = format!("{entry}, VFEs after a state flush, Gen{chip}");
            let mut tally = Tally::new(entry, [])
                .and(0, EQUAL)
                .and(0, SCOREBOARD)
                .and(8, OTHER);
            for (kind, name) in STANDING {
                if kind < 8 || chip == 6 {
                    tally = tally.and(8, name);
                }
            }
            OfChip {
                chip,
                tally,
                passed: Masks::default(),
                refused: Masks::default(),
            }
        }))
    }

    /// For an entry of the order check: what the fields decide too.
    pub fn of_runs(entry: &str) -> Self {
        let Scoreboards(chips) = Scoreboards::new(entry);
        Scoreboards(chips.map(|mut of_chip| {
            for number in [0, 24, 25] {
                for (name, _) in fields(number) {
                    of_chip.tally = of_chip.tally.and(number, name);
                }
            }
            of_chip
        }))
    }

    fn of(&mut self, chip: u32) -> Option<&mut OfChip> {
        self.0.iter_mut().find(|of_chip| of_chip.chip == chip)
    }

    pub fn count(&mut self, chip: u32, changes: &[Change]) {
        if let Some(of_chip) = self.of(chip) {
            changes.iter().for_each(|change| of_chip.count(change));
        }
    }

    /// The fields that decided a run's number.
    pub fn decided(&mut self, chip: u32, number: u64, fields: &[&'static str]) {
        if let Some(of_chip) = self.of(chip) {
            for name in fields {
                of_chip.tally.count_of(number, name);
            }
        }
    }

    pub fn print(&self, report: &mut Report) {
        self.0.iter().for_each(|of_chip| of_chip.print(report));
    }
}

impl OfChip {
    fn count(&mut self, change: &Change) {
        let others = change.bits[..5].iter().any(|&bits| bits != 0);
        let scoreboard = change.bits[5..].iter().any(|&bits| bits != 0);
        let row = match (change.stands, others) {
            (None, true) => OTHER,
            (None, false) if scoreboard => SCOREBOARD,
            (None, false) => EQUAL,
            // It would pass, were it not for the one that stands.
            (Some(kind), false) => {
                let row = STANDING.iter().find(|(standing, _)| *standing == kind);
                row.expect("a kind that stands").1
            }
            (Some(_), true) => return,
        };
        self.tally.count_of(if change.passed { 0 } else { 8 }, row);
        let bits: u32 = change.bits.iter().map(|bits| bits.count_ones()).sum();
        if change.stands.is_none() && bits == 1 {
            let met = match change.passed {
                true => &mut self.passed,
                false => &mut self.refused,
            };
            met.iter_mut()
                .zip(change.bits)
                .for_each(|(met, bits)| *met |= bits);
        }
    }

    /// A row never reached counts as a failure, and so does a bit never met alone.
    fn print(&self, report: &mut Report) {
        self.tally.print(report);
        let count = |met: &Masks| met.iter().map(|bits| bits.count_ones()).sum::<u32>();
        let (passed, refused) = (count(&self.passed), count(&self.refused));
        println!("bits that differ alone: {passed} pass, {refused} are refused");
        // Those that need not be zero: dwords 1 to 4, and the scoreboard's.
        let masks = masks::of(self.chip)[3];
        let free = |dwords: Range<usize>| -> Masks {
            std::array::from_fn(|dword| match dwords.contains(&dword) {
                true => !masks[dword],
                false => 0,
            })
        };
        for (met, all) in [
            (self.refused, free(1..5)),
            (self.passed, free(5..FIXED_DWORDS)),
        ] {
            report.case(match met == all {
                true => Ok(()),
                false => Err(format!("{}: {met:x?} met of {all:x?}", self.tally.entry)),
            });
        }
    }
}
