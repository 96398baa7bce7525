//! The part of the sweep about a VFE after another: what stands before it, which flushes
//! come between, and what it changes.

use super::{Command, Rows, Sweep, BASE_ROWS, SCOREBOARD};
use crate::batch::{LIMIT, RECORD};
use crate::masks;
use crate::random::Random;
use std::slice;

impl Sweep {
    /// Every sequence of a few VFEs, flushes and CURBE loads after a VFE, and after one that
    /// is in force no more (rule 8).
    pub(super) fn vfe_orders(&mut self) {
        let vfe = self.base().swap_remove(2);
        let scoreboard = vfe.flipped(7, 0);
        let other = vfe.flipped(1, 31);
        let [flush, state_flush] = [1, 6].map(Command::plain);
        let alphabet = [
            vfe.clone(),
            scoreboard,
            other.clone(),
            flush.clone(),
            state_flush,
            Command::load(4, 128, 0x40),
        ];
        self.sequences(&alphabet, slice::from_ref(&vfe), 4);
        self.sequences(&alphabet, &[vfe, flush, other], 3);
    }

    /// A second VFE that equals the first or differs in one bit, whatever stands before it
    /// and whichever flushes come between (rules 3, 4, 6, 8 and 9).
    pub(super) fn second_vfes(&mut self) {
        let first = self.vfe_of_fields();
        let seconds = one_bit_away(&first);
        let between = self.between(&first);
        for (at, before) in self.standing(&first).iter().enumerate() {
            // Every bit after a state flush; elsewhere some, so that each comes up somewhere.
            for second in &seconds {
                self.second_vfe(before, &[Command::plain(6)], second);
            }
            for (number, second) in seconds.iter().enumerate() {
                let between = &between[(number + at) % between.len()];
                self.second_vfe(before, between, second);
            }
            for between in &between {
                self.second_vfe(before, between, &first);
                for dword in 1..8 {
                    let bit = self.random.below(32) as u32;
                    self.second_vfe(before, between, &first.flipped(dword, bit));
                }
            }
        }
        // As many as a batch holds, with room for each record, and for one too few.
        let pair = vec![first, Command::plain(6)];
        let mut commands = vec![pair; LIMIT / 10].concat();
        commands.resize_with(commands.len() + LIMIT % 10 - 1, || Command::plain(0));
        commands.push(Command::plain(2));
        for records in [RECORD * commands.len(), RECORD * commands.len() - 1] {
            self.add(&commands, BASE_ROWS);
            self.cases.last_mut().expect("just added").records = records;
        }
    }

    /// A third VFE is held against the second and not against the first; and rows are
    /// asked for anew at each (rules 8 and 9).
    pub(super) fn third_vfes(&mut self) {
        let first = self.vfe_of_fields();
        for dword in 0..8 {
            let second = self.changed(&first, dword);
            for third in self.thirds(&first, &second) {
                for flushes in [[1, 1], [1, 6], [6, 1], [6, 6]] {
                    let [one, two] = flushes.map(Command::plain);
                    let before = [first.clone(), one, second.clone()];
                    self.second_vfe(&before, &[two], &third);
                }
            }
        }
        let rows = [(1, 2, 4), (1, 2, 5), (1, 2, 3), (2, 2, 4), (2, 1, 4)];
        for (entries, entry_size, curbe_size) in rows {
            let mut second = first.clone();
            second.words[2] = first.words[2] & 0xffff_00ff | entries << 8;
            second.words[4] = entry_size << 16 | curbe_size;
            for flush in [1, 6] {
                for capacity in BASE_ROWS - 1..=BASE_ROWS + 3 {
                    let flush = Command::plain(flush);
                    let commands = [first.clone(), flush, second.clone(), Command::plain(2)];
                    self.add(&commands, capacity);
                }
            }
        }
    }

    /// Both VFEs, each with the other's scoreboard, and each with a bit of a dword changed.
    fn thirds(&mut self, first: &Command, second: &Command) -> Vec<Command> {
        let mut thirds = Vec::new();
        for (own, other) in [(first, second), (second, first)] {
            let mut mixed = own.clone();
            mixed.words[SCOREBOARD].copy_from_slice(&other.words[SCOREBOARD]);
            thirds.push(mixed);
            thirds.extend((0..8).map(|dword| self.changed(own, dword)));
        }
        thirds
    }

    /// A VFE with one bit of a dword changed that need not be zero; of dword 0 none.
    fn changed(&mut self, vfe: &Command, dword: usize) -> Command {
        changed(&mut self.random, self.chip, vfe, dword)
    }

    /// The base's rows, other fields of any content.
    fn vfe_of_fields(&mut self) -> Command {
        Command::vfe(&mut self.random, self.chip, Rows(1, 2, 4))
    }

    /// Commands that stand, what comes between, the second VFE, and commands under it.
    fn second_vfe(&mut self, before: &[Command], between: &[Command], second: &Command) {
        let mut commands = [before, between].concat();
        commands.push(second.clone());
        commands.extend(self.later());
        commands.push(Command::plain(2));
        let capacity = self.random.pick(&[BASE_ROWS, u32::MAX]);
        self.add(&commands, capacity);
    }

    /// The VFE alone and flushed, and each kind that may stand after it, with an MI_FLUSH
    /// before or without.
    fn standing(&mut self, vfe: &Command) -> Vec<Vec<Command>> {
        let flush = Command::plain(1);
        let mut all = vec![vec![vfe.clone()], vec![vfe.clone(), flush.clone()]];
        for stands in self.later() {
            let load = Command::load(5, 64, 0x1000);
            all.push(vec![vfe.clone(), load.clone(), stands.clone()]);
            all.push(vec![vfe.clone(), load, flush.clone(), stands]);
        }
        all
    }

    /// Flushes and no-ops in each order that matters, and a state flush with one command
    /// more that stands.
    fn between(&mut self, vfe: &Command) -> Vec<Vec<Command>> {
        let plain = |kinds: &[usize]| kinds.iter().map(|&kind| Command::plain(kind)).collect();
        let mut all: Vec<Vec<Command>> = vec![
            plain(&[]),
            plain(&[0]),
            plain(&[1]),
            plain(&[1, 6]),
            plain(&[6, 1]),
            plain(&[6, 6]),
            plain(&[6, 0]),
            plain(&[0, 0, 6, 0, 0]),
            vec![Command::random(&mut self.random, self.chip, 6)],
        ];
        let state_flush = Command::plain(6);
        for stands in self.later().into_iter().chain([vfe.clone()]) {
            let since = [state_flush.clone(), stands];
            for after in [vec![], plain(&[0]), plain(&[6])] {
                all.push([&since[..], &after].concat());
            }
        }
        all
    }

    /// A command of each kind that may stand after a VFE and a descriptor load.
    fn later(&mut self) -> Vec<Command> {
        let mut commands = vec![
            Command::load(4, 128, 0x40),
            Command::load(5, 64, 0x1000),
            Command::object(&mut self.random, self.chip, 1, 2),
        ];
        if self.chip == 6 {
            commands.push(Command::random(&mut self.random, 6, 8));
        }
        commands
    }
}

/// A VFE with one bit of a dword changed that need not be zero; of dword 0 none.
pub(super) fn changed(random: &mut Random, chip: u32, vfe: &Command, dword: usize) -> Command {
    let free = !masks::of(chip)[3][dword];
    let bits: Vec<u32> = (0..32).filter(|bit| free >> bit & 1 == 1).collect();
    match dword {
        0 => vfe.clone(),
        _ => vfe.flipped(dword, random.pick(&bits)),
    }
}

/// A command itself and with each of its bits the other way.
fn one_bit_away(command: &Command) -> Vec<Command> {
    let dwords = 0..command.words.len();
    let bits = dwords.flat_map(|dword| (0..32).map(move |bit| (dword, bit)));
    let others = bits.map(|(dword, bit)| command.flipped(dword, bit));
    others.chain([command.clone()]).collect()
}
