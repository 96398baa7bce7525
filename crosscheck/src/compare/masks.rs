//! Which must-be-zero bits were met.

use super::commands::{commands, Command};
use super::Report;
use crate::generate::batch::{Case, CHIPS};
use crate::masks::{self, Masks, KINDS};

/// The bits that refused a batch, each alone in its dword, by chip and kind.
#[derive(Default)]
pub struct Met([[Masks; KINDS]; CHIPS.len()]);

impl Met {
    /// The bits of a batch refused with 6 at this place.
    pub fn count(&mut self, case: &Case, place: usize) {
        let Some(chip) = CHIPS.iter().position(|&chip| chip == case.chip) else {
            return;
        };
        let (kind, dword) = command_at(&case.batch, place);
        let stray = case.batch[place] & masks::of(case.chip)[kind][dword];
        if stray.count_ones() == 1 {
            self.0[chip][kind][dword] |= stray;
        }
    }

    /// A bit never met counts as a failure.
    pub fn print(&self, report: &mut Report) {
        for (chip, met) in CHIPS.into_iter().zip(&self.0) {
            let bits: u32 = met.iter().flatten().map(|bits| bits.count_ones()).sum();
            println!("must-be-zero bits of Gen{chip} met alone: {bits}");
            for (kind, masks) in masks::of(chip).iter().enumerate() {
                report.case(match met[kind] == *masks {
                    true => Ok(()),
                    false => Err(format!(
                        "Gen{chip}, kind {kind}: {:x?} met of {masks:x?}",
                        met[kind]
                    )),
                });
            }
        }
    }
}

/// The kind of the command that holds this dword, and which of its dwords it is. All
/// commands before have passed.
fn command_at(batch: &[u32], place: usize) -> (usize, usize) {
    let mut commands = commands(batch);
    let holds = |command: &Command| place < command.place + command.total;
    let command = commands.find(holds).expect("a command at the place");
    (command.kind, place - command.place)
}
