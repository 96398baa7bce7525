//! The gateway replay: library against second implementation.

use super::{print_input, Faults, Plan, Report, Tally};
use crate::ffi;
use crate::generate::replay::{random_case, sweep, Case};
use crate::guard::Guarded;
use crate::random::Random;
use crate::replay::{self, Replayed};

pub fn run(plan: &Plan, report: &mut Report) {
    each(plan, report, &sweep(plan.seed), random_case);
}

/// Every case, then how often each number and each outcome was reached.
pub(super) fn each(
    plan: &Plan,
    report: &mut Report,
    fixed: &[Case],
    random_case: fn(&mut Random) -> Case,
) {
    let mut numbers = Tally::new("gateway replay", [0].into_iter().chain(11..=16));
    let mut outcomes = Tally::new("outcomes of its events", [0].into_iter().chain(31..=39));
    plan.each(fixed, random_case, |index, case, random| {
        let found = compare(case, random);
        let outcome = found.map(|(number, counts)| {
            numbers.count(number.into());
            for (outcome, count) in (0..).zip(counts).filter(|&(_, count)| count > 0) {
                outcomes.add(outcome, count);
            }
        });
        report.case(outcome.map_err(|found| describe(plan, index, case, &found)));
    });
    if plan.only.is_none() {
        numbers.print(report);
        outcomes.print(report);
    }
}

/// All that is lent for one call.
#[derive(Clone)]
pub(super) struct Lent {
    pub recording: Guarded<u8>,
    pub registers: Guarded<u8>,
    pub counts: Guarded<u32>,
    pub outcomes: Guarded<u8>,
}

impl Lent {
    /// No buffer starts at zeros, so that what is not written shows.
    pub fn new(case: &Case, random: &mut Random) -> Self {
        Lent {
            recording: Guarded::new(random, &case.recording),
            registers: Guarded::filled(random, case.registers),
            counts: Guarded::filled(random, case.counts),
            outcomes: Guarded::filled(random, case.outcomes),
        }
    }
}

/// How often each outcome occurs.
type Outcomes = [usize; 256];

/// Both implementations over copies of the same buffers; gives the common number
/// and the outcomes of the events.
fn compare(case: &Case, random: &mut Random) -> Result<(u32, Outcomes), String> {
    let lent = Lent::new(case, random);
    let (library, by_library) = call(ffi::replay, &lent);
    let (second, by_second) = call(replay::replay, &lent);
    let mut faults = Faults::default();
    if library.number != second.number {
        faults.add("numbers", "differ");
    }
    for at in 0..16 {
        if library.gateways[at] != second.gateways[at] {
            let (library, second) = (library.gateways[at], second.gateways[at]);
            faults.add("gateway", &format!("{at}: {library:?} against {second:?}"));
        }
        if library.barriers[at] != second.barriers[at] {
            let (library, second) = (library.barriers[at], second.barriers[at]);
            faults.add("barrier", &format!("{at}: {library:?} against {second:?}"));
        }
    }
    let Lent {
        registers,
        counts,
        outcomes,
        ..
    } = &by_second;
    faults.difference("registers", by_library.registers.difference(registers));
    faults.difference("counts", by_library.counts.difference(counts));
    faults.difference("outcomes", by_library.outcomes.difference(outcomes));
    // Nothing changes on a refusal, no outcome past the events else.
    let accepted = second.number == 0;
    let events = match accepted {
        true => usize::from(u16::from_le_bytes([case.recording[7], case.recording[8]])),
        false => 0,
    };
    for (side, name) in [(&by_library, "library"), (&by_second, "second")] {
        if side.recording.difference(&lent.recording).is_some() {
            faults.add(name, "changed the recording");
        }
        if !side.outcomes.differs_only_before(&lent.outcomes, events) {
            faults.add(name, "wrote past its outcomes");
        }
        let registers = if accepted { case.registers } else { 0 };
        if !side
            .registers
            .differs_only_before(&lent.registers, registers)
        {
            faults.add(name, "wrote outside the registers");
        }
        let counts = if accepted { case.counts } else { 0 };
        if !side.counts.differs_only_before(&lent.counts, counts) {
            faults.add(name, "wrote outside the counts");
        }
    }
    if faults.0.is_empty() {
        let mut found = [0; 256];
        for &outcome in &by_library.outcomes.lent()[..events] {
            found[usize::from(outcome)] += 1;
        }
        return Ok((library.number, found));
    }
    Err(format!(
        "library answers {}, second {}, library against second:{}",
        library.number, second.number, faults.0
    ))
}

pub(super) type Replay = fn(&[u8], &mut [u8], &mut [u32], &mut [u8]) -> Replayed;

pub(super) fn call(replay: Replay, lent: &Lent) -> (Replayed, Lent) {
    let mut left = lent.clone();
    let answer = replay(
        left.recording.lent(),
        left.registers.lent_mut(),
        left.counts.lent_mut(),
        left.outcomes.lent_mut(),
    );
    (answer, left)
}

fn describe(plan: &Plan, index: u64, case: &Case, difference: &str) -> String {
    let mut text = format!(
        "{}: {} bytes, {} bytes of registers, {} counts, {} outcomes\n  {difference}",
        plan.again(index),
        case.recording.len(),
        case.registers,
        case.counts,
        case.outcomes,
    );
    print_input(&mut text, "recording", &case.recording);
    text
}
