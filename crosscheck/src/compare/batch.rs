//! The batch check: library against second implementation, over dwords and over bytes.

use super::chips::{may_differ, Chips, OnBoth};
use super::masks::Met;
use super::scoreboards::{changes, Scoreboards};
use super::{print_input, Faults, Plan, Report};
use crate::batch::{self, known, Answer, END, RECORD};
use crate::ffi;
use crate::generate::batch::{other_chip, random_case, sweep, Case, CHIPS, NO_CHIPS};
use crate::guard::{Cell, Guarded};
use crate::random::Random;

pub fn run(plan: &Plan, report: &mut Report) {
    let tallies = each(plan, report, &sweep(plan.seed), random_case);
    if plan.only.is_none() {
        tallies.met.print(report);
        tallies.dword_changes.print(report);
        tallies.byte_changes.print(report);
        for chip in CHIPS.into_iter().chain(NO_CHIPS) {
            report.case(nothing(chip));
        }
    }
}

/// Every case through both entries, then how often each number was reached.
pub(super) fn each(
    plan: &Plan,
    report: &mut Report,
    fixed: &[Case],
    random_case: fn(&mut Random) -> Case,
) -> Tallies {
    let mut tallies = Tallies {
        dwords: Chips::new("batch check over dwords", 0..=10),
        bytes: Chips::new("batch check over bytes", (0..=10).chain([17])),
        on_both: OnBoth::default(),
        met: Met::default(),
        dword_changes: Scoreboards::new("batch check over dwords"),
        byte_changes: Scoreboards::new("batch check over bytes"),
    };
    plan.each(fixed, random_case, |index, case, random| {
        let outcome = compare(case, random, &mut tallies);
        report.case(outcome.map_err(|found| describe(plan, index, case, &found)));
    });
    if plan.only.is_none() {
        tallies.dwords.print(report);
        tallies.bytes.print(report);
        tallies.on_both.print(report);
    }
    tallies
}

/// What the cases reached.
pub(super) struct Tallies {
    dwords: Chips,
    bytes: Chips,
    on_both: OnBoth,
    met: Met,
    dword_changes: Scoreboards,
    byte_changes: Scoreboards,
}

/// Null pointers at length 0: an empty batch, which is used up at once.
fn nothing(chip: u32) -> Result<(), String> {
    let answers = ffi::check_nothing(chip, 0);
    let expected = match known(chip) {
        true => Answer::refused(2, 0),
        false => Answer::refused(18, 0),
    };
    if answers == [expected; 2] {
        Ok(())
    } else {
        Err(format!(
            "nothing lent for chip {chip}: library {answers:?}, expected {expected:?}"
        ))
    }
}

fn compare(case: &Case, random: &mut Random, tallies: &mut Tallies) -> Result<(), String> {
    let batch = Guarded::new(random, &case.batch).followed_by(&[END]);
    let records = Guarded::filled(random, case.records);
    let entry = Entry {
        name: "dwords",
        library: ffi::check_batch_dwords,
        second: batch::check,
        record: RECORD,
    };
    let over_dwords = entry.compare(case, &batch, &records)?;
    let answer = over_dwords.answer;
    tallies.dwords.of(case.chip).count(answer.number);
    match answer.number {
        0 if entry.one_reading(case, &over_dwords, &records)? => tallies.on_both.count(),
        6 => tallies.met.count(case, answer.place as usize),
        _ => {}
    }
    let changes = changes(&case.batch, answer.number, answer.place);
    tallies.dword_changes.count(case.chip, &changes);

    let batch = Guarded::new(random, &case.bytes()).followed_by(&END.to_le_bytes());
    let records = Guarded::filled(random, case.record_bytes());
    let entry = Entry {
        name: "bytes",
        library: ffi::check_batch,
        second: batch::check_bytes,
        record: 4 * RECORD,
    };
    let over_bytes = entry.compare(case, &batch, &records)?.answer;
    tallies.bytes.of(case.chip).count(over_bytes.number);

    // The two entries follow the same rules but for 17, which comes after 18.
    let expected = match case.tail.is_empty() || !known(case.chip) {
        true => answer,
        false => Answer::refused(17, case.batch.len()),
    };
    if over_bytes != expected {
        return Err(format!(
            "the entries disagree: dwords {answer:?}, bytes {over_bytes:?}"
        ));
    }
    if over_bytes == answer {
        tallies.byte_changes.count(case.chip, &changes);
    }
    Ok(())
}

type Check<T> = fn(u32, &[T], u32, &mut [T]) -> Answer;

struct Entry<T> {
    name: &'static str,
    library: Check<T>,
    second: Check<T>,
    /// Cells in a record.
    record: usize,
}

impl<T: Cell> Entry<T> {
    /// Both implementations over copies of the same buffers; gives the library's side,
    /// which is the second's too.
    fn compare(
        &self,
        case: &Case,
        batch: &Guarded<T>,
        records: &Guarded<T>,
    ) -> Result<Side<T>, String> {
        let by_library = Side::run(self.library, case, batch, records);
        let by_second = Side::run(self.second, case, batch, records);
        let mut faults = Faults::default();
        if by_library.answer != by_second.answer {
            faults.add("answers", "differ");
        }
        faults.difference(
            "records, library against second, at",
            by_library.records.difference(&by_second.records),
        );
        for (side, name) in [(&by_library, "library"), (&by_second, "second")] {
            if let Some(at) = side.batch.difference(batch) {
                faults.add(name, &format!("changed the batch at {at}"));
            }
            // Nothing changes on a refusal, nothing past the records on success.
            let count = side.answer.commands as usize;
            let written = count.saturating_mul(self.record).min(records.lent().len());
            if !side.records.differs_only_before(records, written) {
                faults.add(name, "wrote past its records");
            }
        }
        if faults.0.is_empty() {
            return Ok(by_library);
        }
        Err(format!(
            "over {}, {} lent for the batch, {} for records\n  library {:?}\n  second  {:?}{}",
            self.name,
            batch.lent().len(),
            records.lent().len(),
            by_library.answer,
            by_second.answer,
            faults.0,
        ))
    }

    /// A batch that the chip accepts is read alike by the other one, where that accepts
    /// it too: then true.
    fn one_reading(
        &self,
        case: &Case,
        accepted: &Side<T>,
        records: &Guarded<T>,
    ) -> Result<bool, String> {
        let batch = accepted.batch.lent();
        let mut records = records.clone();
        let lent = records.lent_mut();
        let answer = (self.library)(other_chip(case.chip), batch, case.capacity, lent);
        if may_differ(answer.number) {
            return Ok(false);
        }
        let mut faults = Faults::default();
        if answer != accepted.answer {
            let answers = format!("{:?} against {answer:?}", accepted.answer);
            faults.add("answers", &answers);
        }
        faults.difference("records", accepted.records.difference(&records));
        match faults.0.is_empty() {
            true => Ok(true),
            false => Err(format!("the library on the other chip:{}", faults.0)),
        }
    }
}

/// One implementation's answer and what it left of the lent buffers.
struct Side<T> {
    answer: Answer,
    batch: Guarded<T>,
    records: Guarded<T>,
}

impl<T: Cell> Side<T> {
    fn run(check: Check<T>, case: &Case, batch: &Guarded<T>, records: &Guarded<T>) -> Self {
        let batch = batch.clone();
        let mut records = records.clone();
        let answer = check(case.chip, batch.lent(), case.capacity, records.lent_mut());
        Side {
            answer,
            batch,
            records,
        }
    }
}

fn describe(plan: &Plan, index: u64, case: &Case, difference: &str) -> String {
    let mut text = format!(
        "{}: chip {}, {} dwords, {} bytes more, capacity {}\n  {difference}",
        plan.again(index),
        case.chip,
        case.batch.len(),
        case.tail.len(),
        case.capacity,
    );
    print_input(&mut text, "batch", &case.batch);
    text
}
