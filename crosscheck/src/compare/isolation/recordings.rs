//! Two recordings that differ only in data bytes of forwards naming one thread,
//! over registers that differ only in that thread's: all else ends the same, and
//! its own registers differ only where they did or where a forward landed.

use crate::compare::replay::{call, Lent};
use crate::compare::{print_input, Faults, Plan, Report, Tally};
use crate::ffi;
use crate::generate::isolation::recordings::{random_case, sweep, Pair};
use crate::random::Random;
use crate::replay::{self, landings, Replayed};

pub fn run(plan: &Plan, report: &mut Report) {
    let mut numbers = Tally::new(
        "gateway replay, differing pairs",
        [0].into_iter().chain([15, 16]),
    );
    let mut total = Differing::default();
    plan.each(&sweep(plan.seed), random_case, |index, pair, random| {
        let outcome = compare(pair, random).map(|(number, differing)| {
            total.add(&differing);
            // Recordings refused with 11 to 14 have no events to differ in.
            if differing.data > 0 {
                numbers.count(number.into());
            }
        });
        report.case(outcome.map_err(|found| describe(plan, index, pair, &found)));
    });
    if plan.only.is_none() {
        total.print(report);
        numbers.print(report);
    }
}

/// Bytes that differ, in one pair or in all.
#[derive(Default)]
struct Differing {
    /// Data bytes of forwards.
    data: usize,
    /// Bytes of the thread's registers that began and ended different.
    kept: usize,
    /// Bytes of the thread's registers that began equal and ended different.
    landed: usize,
}

impl Differing {
    fn add(&mut self, other: &Differing) {
        self.data += other.data;
        self.kept += other.kept;
        self.landed += other.landed;
    }

    /// The claim is empty where no byte ends different.
    fn print(&self, report: &mut Report) {
        let Differing { data, kept, landed } = self;
        println!(
            "pairs of recordings: {data} data bytes differ; \
             of register bytes that end different, {kept} began so, {landed} did not"
        );
        report.case(match (data, kept, landed) {
            (1.., 1.., 1..) => Ok(()),
            _ => Err("no byte ends different".into()),
        });
    }
}

/// What one recording is lent, what the library answers, and what it leaves.
struct Side {
    lent: Lent,
    answer: Replayed,
    left: Lent,
}

impl Side {
    fn run(lent: Lent) -> Self {
        let (answer, left) = call(ffi::replay, &lent);
        Side { lent, answer, left }
    }
}

/// Both recordings through the library; gives the common number.
fn compare(pair: &Pair, random: &mut Random) -> Result<(u32, Differing), String> {
    let lent = Lent::new(&pair.first, random);
    let mut other = lent.clone();
    other.recording.lent_mut().copy_from_slice(&pair.second);
    change(
        random,
        &mut other.registers.lent_mut()[pair.own_registers()],
    );
    let (first, second) = (Side::run(lent), Side::run(other));
    let mut faults = Faults::default();
    outside(pair, &first, &second, &mut faults);
    let differing = inside(pair, &first, &second, &mut faults);
    match faults.0.is_empty() {
        true => Ok((first.answer.number, differing)),
        false => Err(format!("first against second:{}", faults.0)),
    }
}

/// All but the thread's own registers ends the same.
fn outside(pair: &Pair, first: &Side, second: &Side, faults: &mut Faults) {
    if first.answer != second.answer {
        let (first, second) = (first.answer, second.answer);
        faults.add("answers", &format!("{first:?} against {second:?}"));
    }
    let (left, other) = (&first.left, &second.left);
    faults.difference("counts", left.counts.difference(&other.counts));
    faults.difference("outcomes", left.outcomes.difference(&other.outcomes));
    let own = pair.own_registers();
    if !left.registers.differs_only_in(&other.registers, own) {
        faults.add("registers", "of another thread differ");
    }
    for side in [first, second] {
        faults.difference(
            "the recording changed at",
            side.left.recording.difference(&side.lent.recording),
        );
    }
    // What both sides write alike outside would not show as a difference.
    if !left.registers.same_guards(&first.lent.registers)
        || !left.counts.same_guards(&first.lent.counts)
        || !left.outcomes.same_guards(&first.lent.outcomes)
    {
        faults.add("guards", "were written");
    }
}

/// A byte of the thread's registers ends different only where it began so or a
/// forward landed on it.
fn inside(pair: &Pair, first: &Side, second: &Side, faults: &mut Faults) -> Differing {
    let landed = landed(pair, &first.lent);
    let mut differing = Differing {
        data: pair.differing(),
        ..Differing::default()
    };
    for at in pair.own_registers() {
        let differs =
            |first: &Lent, second: &Lent| first.registers.lent()[at] != second.registers.lent()[at];
        if !differs(&first.left, &second.left) {
            continue;
        }
        let began = differs(&first.lent, &second.lent);
        differing.kept += usize::from(began);
        differing.landed += usize::from(!began);
        if !began && !landed[at] {
            faults.add("register byte", &format!("{at} ends different"));
        }
    }
    differing
}

/// Changes all of the thread's registers, some bytes of them, or none.
fn change(random: &mut Random, own: &mut [u8]) {
    let bytes = match random.below(4) {
        0 => own.len(),
        1 | 2 => own.len().min(random.between(1, 200)),
        _ => 0,
    };
    for _ in 0..bytes {
        own[random.below(own.len())] = random.word() as u8;
    }
}

/// The register bytes on which forwards to the thread landed, by the second
/// implementation's outcomes.
fn landed(pair: &Pair, lent: &Lent) -> Vec<bool> {
    let mut landed = vec![false; pair.first.registers];
    let (answer, left) = call(replay::replay, lent);
    if answer.number == 0 {
        for bytes in landings(&pair.first.recording, left.outcomes.lent(), pair.thread) {
            landed[bytes].fill(true);
        }
    }
    landed
}

fn describe(plan: &Plan, index: u64, pair: &Pair, difference: &str) -> String {
    let mut text = format!(
        "{}: thread {}, {} bytes, {} differ\n  {difference}",
        plan.again(index),
        pair.thread,
        pair.first.recording.len(),
        pair.differing(),
    );
    print_input(&mut text, "first", &pair.first.recording);
    print_input(&mut text, "second", &pair.second);
    text
}
