//! Tallies of an entry that takes a chip, by the chip that was named.

use super::{Report, Tally};

pub struct Chips {
    gen6: Tally,
    gen7: Tally,
    /// Numbers of no chip, all answered with 18.
    others: Tally,
}

impl Chips {
    /// `reachable` are the numbers that the entry can answer on either chip.
    pub fn new(entry: &str, reachable: impl IntoIterator<Item = u64> + Clone) -> Self {
        Chips::rows(entry, reachable).and_no_chip(18, "")
    }

    /// The same without 18.
    pub fn rows(entry: &str, reachable: impl IntoIterator<Item = u64> + Clone) -> Self {
        Chips {
            gen6: Tally::new(format!("{entry}, Gen6"), reachable.clone()),
            gen7: Tally::new(format!("{entry}, Gen7"), reachable),
            others: Tally::new(format!("{entry}, no chip"), []),
        }
    }

    /// One more row to be reached on either chip.
    pub fn and(mut self, number: u64, of: &'static str) -> Self {
        self.gen6 = self.gen6.and(number, of);
        self.gen7 = self.gen7.and(number, of);
        self
    }

    /// One more row to be reached where no chip is named.
    pub fn and_no_chip(mut self, number: u64, of: &'static str) -> Self {
        self.others = self.others.and(number, of);
        self
    }

    pub fn of(&mut self, chip: u32) -> &mut Tally {
        match chip {
            6 => &mut self.gen6,
            7 => &mut self.gen7,
            _ => &mut self.others,
        }
    }

    pub fn print(&self, report: &mut Report) {
        for tally in [&self.gen6, &self.gen7, &self.others] {
            tally.print(report);
        }
    }
}

/// How many batches passed on both chips.
#[derive(Default)]
pub struct OnBoth(usize);

impl OnBoth {
    pub fn count(&mut self) {
        self.0 += 1;
    }

    /// None is a failure, as nothing is shown then.
    pub fn print(&self, report: &mut Report) {
        println!(
            "batches that pass on both chips, with one reading: {}",
            self.0
        );
        report.case(match self.0 {
            1.. => Ok(()),
            0 => Err("no batch passed on both chips".into()),
        });
    }
}

/// What a batch that passes on one chip may be answered on the other: the same, unless it
/// is refused with 3 or 6, as only the kinds and the masks differ.
pub fn may_differ(number: u64) -> bool {
    matches!(number, 3 | 6)
}
