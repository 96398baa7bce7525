//! The order check: library against second implementation, over dwords and over
//! bytes.

use super::chips::{may_differ, Chips, OnBoth};
use super::scoreboards::{changes, deciding, Scoreboards};
use super::{print_input, Faults, Plan, Report};
use crate::batch::{self, known, END, RECORD};
use crate::ffi;
use crate::generate::batch::other_chip;
use crate::generate::order::{random_case, sweep, Case};
use crate::guard::{Cell, Guarded};
use crate::order::{self, Answer};
use crate::random::Random;

pub fn run(plan: &Plan, report: &mut Report) {
    let tallies = each(plan, report, &sweep(plan.seed), random_case);
    if plan.only.is_none() {
        tallies.dword_changes.print(report);
        tallies.byte_changes.print(report);
    }
}

/// Every case through both entries, then how often each number was reached.
pub(super) fn each(
    plan: &Plan,
    report: &mut Report,
    fixed: &[Case],
    random_case: fn(&mut Random) -> Case,
) -> Tallies {
    let numbers = (0..=10).chain(20..=25);
    let mut tallies = Tallies {
        dwords: Chips::new("order check over dwords", numbers.clone()),
        bytes: Chips::new("order check over bytes", numbers)
            .and(17, "of the batch")
            .and(17, "of the run"),
        on_both: OnBoth::default(),
        dword_changes: Scoreboards::of_runs("order check over dwords"),
        byte_changes: Scoreboards::of_runs("order check over bytes"),
    };
    plan.each(fixed, random_case, |index, case, random| {
        let outcome = compare(case, random, &mut tallies);
        report.case(outcome.map_err(|found| describe(plan, index, case, &found)));
    });
    if plan.only.is_none() {
        tallies.dwords.print(report);
        tallies.bytes.print(report);
        tallies.on_both.print(report);
    }
    tallies
}

/// What the cases reached.
pub(super) struct Tallies {
    dwords: Chips,
    bytes: Chips,
    on_both: OnBoth,
    dword_changes: Scoreboards,
    byte_changes: Scoreboards,
}

fn compare(case: &Case, random: &mut Random, tallies: &mut Tallies) -> Result<(), String> {
    let chip = case.batch.chip;
    let lent = Lent::dwords(case, random);
    let entry = Entry {
        name: "dwords",
        library: ffi::check_order_dwords,
        second: order::check,
        records: batch::check,
        record: RECORD,
    };
    let (over_dwords, left) = entry.compare(case, &lent)?;
    tallies.dwords.of(chip).count(over_dwords.number);
    if passed(over_dwords) && entry.one_reading(case, &lent, over_dwords, &left)? {
        tallies.on_both.count();
    }
    let Answer { number, place, .. } = over_dwords;
    let changes = changes(&case.batch.batch, number, place);
    let fields = deciding(case, &changes, over_dwords);
    tallies.dword_changes.count(chip, &changes);
    tallies.dword_changes.decided(chip, number, &fields);

    let lent = Lent::bytes(case, random);
    let entry = Entry {
        name: "bytes",
        library: ffi::check_order,
        second: order::check_bytes,
        records: batch::check_bytes,
        record: 4 * RECORD,
    };
    let (over_bytes, _) = entry.compare(case, &lent)?;

    // The two entries follow the same rules but for 17, the batch's before the run's.
    let (of, expected) = match (case.batch.tail.len(), case.run_tail.len()) {
        _ if !known(chip) => ("", over_dwords),
        (0, 0) => ("", over_dwords),
        (0, _) => ("of the run", Answer::new(17, case.run.len())),
        _ => ("of the batch", Answer::new(17, case.batch.batch.len())),
    };
    if over_bytes != expected {
        return Err(format!(
            "the entries disagree: dwords {over_dwords:?}, bytes {over_bytes:?}"
        ));
    }
    tallies.bytes.of(chip).count_of(over_bytes.number, of);
    if over_bytes == over_dwords {
        tallies.byte_changes.count(chip, &changes);
        tallies.byte_changes.decided(chip, number, &fields);
    }
    Ok(())
}

/// Whether the batch passed, and the run was looked at.
fn passed(answer: Answer) -> bool {
    matches!(answer.number, 0 | 21..=25)
}

/// All that is lent for one call.
#[derive(Clone)]
pub(super) struct Lent<T> {
    pub batch: Guarded<T>,
    pub run: Guarded<T>,
    pub records: Guarded<T>,
    pub states: Guarded<u8>,
}

impl Lent<u32> {
    pub fn dwords(case: &Case, random: &mut Random) -> Self {
        let next = next_event(case, random);
        Lent {
            batch: Guarded::new(random, &case.batch.batch).followed_by(&[END]),
            run: Guarded::new(random, &case.run).followed_by(&[next]),
            records: Guarded::filled(random, case.batch.records),
            states: Guarded::filled(random, case.states),
        }
    }
}

impl Lent<u8> {
    pub fn bytes(case: &Case, random: &mut Random) -> Self {
        let next = next_event(case, random).to_le_bytes();
        Lent {
            batch: Guarded::new(random, &case.batch.bytes()).followed_by(&END.to_le_bytes()),
            run: Guarded::new(random, &case.run_bytes()).followed_by(&next),
            records: Guarded::filled(random, case.batch.record_bytes()),
            states: Guarded::filled(random, case.states),
        }
    }
}

/// Who reads past the run meets an event that might do.
fn next_event(case: &Case, random: &mut Random) -> u32 {
    random.below(2 * case.states + 1) as u32
}

type Check<T> = fn(u32, &[T], u32, &[T], &mut [T], &mut [u8]) -> Answer;

struct Entry<T> {
    name: &'static str,
    library: Check<T>,
    second: Check<T>,
    /// The batch check that fills the records.
    records: fn(u32, &[T], u32, &mut [T]) -> batch::Answer,
    /// Cells in a record.
    record: usize,
}

impl<T: Cell> Entry<T> {
    /// Both implementations over copies of the same buffers; gives the common answer and
    /// what is left.
    fn compare(&self, case: &Case, lent: &Lent<T>) -> Result<(Answer, Lent<T>), String> {
        let chip = case.batch.chip;
        let (library, by_library) = Self::call(self.library, chip, case, lent);
        let (second, by_second) = Self::call(self.second, chip, case, lent);
        let mut faults = Faults::default();
        if library != second {
            faults.add("answers", "differ");
        }
        faults.difference(
            "records, library against second, at",
            by_library.records.difference(&by_second.records),
        );
        faults.difference(
            "states, library against second, at",
            by_library.states.difference(&by_second.states),
        );
        let expected = self.expected(second, case, lent);
        for (side, name) in [(&by_library, "library"), (&by_second, "second")] {
            faults.difference(
                &format!("{name} changed the batch at"),
                side.batch.difference(&lent.batch),
            );
            faults.difference(
                &format!("{name} changed the run at"),
                side.run.difference(&lent.run),
            );
            // The records are the batch check's, on a refusal up to 20 untouched.
            faults.difference(
                &format!("{name}, records against the batch check's, at"),
                side.records.difference(&expected.records),
            );
            if !side
                .states
                .differs_only_before(&lent.states, expected.objects)
            {
                faults.add(name, "wrote past its states");
            }
        }
        if faults.0.is_empty() {
            return Ok((library, by_library));
        }
        Err(format!(
            "over {}, {} lent for records, {} for states\n  library {library:?}\n  second  {second:?}{}",
            self.name,
            lent.records.lent().len(),
            lent.states.lent().len(),
            faults.0,
        ))
    }

    /// A batch that the chip accepts is read alike by the other one, where that accepts
    /// it too, and the run ends alike: then true.
    fn one_reading(
        &self,
        case: &Case,
        lent: &Lent<T>,
        answer: Answer,
        left: &Lent<T>,
    ) -> Result<bool, String> {
        let (by_other, other_left) =
            Self::call(self.library, other_chip(case.batch.chip), case, lent);
        if may_differ(by_other.number) {
            return Ok(false);
        }
        let mut faults = Faults::default();
        if by_other != answer {
            faults.add("answers", &format!("{answer:?} against {by_other:?}"));
        }
        faults.difference("records", left.records.difference(&other_left.records));
        faults.difference("states", left.states.difference(&other_left.states));
        match faults.0.is_empty() {
            true => Ok(true),
            false => Err(format!("the library on the other chip:{}", faults.0)),
        }
    }

    fn call(check: Check<T>, chip: u32, case: &Case, lent: &Lent<T>) -> (Answer, Lent<T>) {
        let mut left = lent.clone();
        let answer = check(
            chip,
            left.batch.lent(),
            case.batch.capacity,
            left.run.lent(),
            left.records.lent_mut(),
            left.states.lent_mut(),
        );
        (answer, left)
    }

    /// What must be found in the records, and how many states may differ.
    fn expected(&self, answer: Answer, case: &Case, lent: &Lent<T>) -> Expected<T> {
        let mut records = lent.records.clone();
        let mut objects = 0;
        if passed(answer) {
            let batch::Answer { commands, .. } = (self.records)(
                case.batch.chip,
                lent.batch.lent(),
                case.batch.capacity,
                records.lent_mut(),
            );
            let filled = &records.lent()[..commands as usize * self.record];
            let kinds = filled.chunks(self.record).map(|record| record[0]);
            objects = kinds.filter(|&kind| kind == T::from(7)).count();
        }
        Expected { records, objects }
    }
}

struct Expected<T> {
    records: Guarded<T>,
    objects: usize,
}

fn describe(plan: &Plan, index: u64, case: &Case, difference: &str) -> String {
    let mut text = format!(
        "{}: chip {}, {} dwords, {} bytes more, capacity {}, {} events, {} bytes more\n  {difference}",
        plan.again(index),
        case.batch.chip,
        case.batch.batch.len(),
        case.batch.tail.len(),
        case.batch.capacity,
        case.run.len(),
        case.run_tail.len(),
    );
    print_input(&mut text, "batch", &case.batch.batch);
    print_input(&mut text, "run", &case.run);
    text
}
