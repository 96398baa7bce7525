//! A batch that comes in parts: library against second implementation, call by call, with
//! the record buffer after each. Isolation is in `pairs`, carried states that no call
//! returned are in `junk`.

use super::chips::Chips;
use super::{print_input, Faults, Plan, Report};
use crate::batch::{known, Answer, END, LIMIT};
use crate::chunks::{self, Progress};
use crate::ffi::{self, chunks::Carried};
use crate::generate::batch::{CHIPS, NO_CHIPS};
use crate::generate::chunks::{self as sorts, random_case, sweep, Call, Case};
use crate::guard::Guarded;
use crate::random::Random;
use std::fmt::Write;

mod junk;
mod pairs;

pub fn run(plan: &Plan, report: &mut Report) {
    let mut tallies = Tallies::new();
    plan.each(&sweep(plan.seed), random_case, |index, case, random| {
        let outcome = compare(case, random, &mut tallies);
        report.case(outcome.map_err(|found| describe(plan, index, case, &found)));
    });
    if plan.only.is_none() {
        tallies.print(report);
        for chip in CHIPS.into_iter().chain(NO_CHIPS) {
            report.case(nothing(chip));
        }
    }
    pairs::run(plan, report);
    junk::run(plan, report);
}

/// What each sort of cases must be answered at least once, on either chip.
const REACHED: &[(&str, &[u64])] = &[
    (sorts::ONE_CUT, &[0, 2, 3, 4, 5, 6, 7, 8, 9]),
    (sorts::TWO_CUTS, &[0, 2, 3, 4, 5, 6, 7, 8, 9]),
    (sorts::SINGLE, &[0, 2, 3, 4, 5, 6, 7, 8, 9]),
    (sorts::EMPTY_FIRST, &[0]),
    (sorts::EMPTY_BETWEEN, &[0]),
    (sorts::EMPTY_LAST, &[0]),
    (sorts::EMPTY_ALONE, &[2]),
    (sorts::ANY_CUTS, &[0, 1, 2, 3, 4, 5, 6, 7, 8, 9, 10]),
    (sorts::NO_CHIP_FIRST, &[18]),
    (sorts::NO_CHIP_BETWEEN, &[18]),
    (sorts::NO_CHIP_LAST, &[18]),
    (sorts::OTHER_CHIP, &[0, 3, 6]),
    (sorts::OTHER_CAPACITY, &[0, 9]),
    (sorts::OTHER_ROOM, &[0, 10]),
    (sorts::BELOW_LIMIT, &[0, 2, 3]),
    (sorts::AT_LIMIT, &[0, 2, 3]),
    (sorts::OVER_LIMIT, &[1]),
    (sorts::FAR_OVER, &[1]),
    (sorts::END_EARLY, &[1]),
    (sorts::FAULT_EARLY, &[1]),
    (sorts::ENDS_AT_LIMIT, &[0, 1, 2, 3, 6]),
    (sorts::CROSSES_LIMIT, &[1, 5]),
    (sorts::NO_ROOM, &[10]),
    (sorts::ROOM_15, &[10]),
    (sorts::ROOM_16, &[10]),
    (sorts::ROOM_17, &[10]),
    (sorts::ONE_SHORT, &[10]),
    (sorts::WORD_SHORT, &[10]),
    (sorts::EXACT_ROOM, &[0]),
];

/// Calls after an answer.
const LAST: &str = "last";
const NOT_LAST: &str = "not last";
const EMPTY: &str = "empty";
const EMPTY_LAST: &str = "empty and last";

/// What the cases reached.
struct Tallies {
    numbers: Chips,
    sorts: Chips,
    after: Chips,
    /// Calls that said "more".
    more: usize,
    /// Batches answered as at once.
    at_once: usize,
}

impl Tallies {
    fn new() -> Self {
        let numbers = (0..=10).chain([18, 19]);
        let mut sorts = Chips::rows("chunked check, by sort", []).and_no_chip(18, sorts::NO_CHIP);
        for (sort, numbers) in REACHED {
            for &number in *numbers {
                sorts = sorts.and(number, sort);
            }
        }
        let mut after = Chips::rows("chunked check, chunks after an answer", []);
        for sort in [LAST, NOT_LAST, EMPTY, EMPTY_LAST] {
            after = after.and(19, sort).and_no_chip(19, sort);
        }
        Tallies {
            numbers: Chips::new("chunked check", numbers).and_no_chip(19, ""),
            sorts,
            after,
            more: 0,
            at_once: 0,
        }
    }

    fn count(&mut self, case: &Case, call: &Call, answer: Option<Answer>) {
        let Some(Answer { number, .. }) = answer else {
            self.more += 1;
            return;
        };
        self.numbers.of(call.chip).count(number);
        if number != 19 {
            let mut named = case.calls.iter().map(|call| call.chip);
            let chip = named.find(|&chip| known(chip)).unwrap_or(call.chip);
            return self.sorts.of(chip).count_of(number, case.sort);
        }
        let of = match (call.last, call.chunk.is_empty()) {
            (0, false) => NOT_LAST,
            (0, true) => EMPTY,
            (_, false) => LAST,
            (_, true) => EMPTY_LAST,
        };
        self.after.of(call.chip).count_of(number, of);
    }

    fn print(&self, report: &mut Report) {
        for tally in [&self.numbers, &self.sorts, &self.after] {
            tally.print(report);
        }
        let Tallies { more, at_once, .. } = self;
        println!("calls that said more: {more}; answers as at once: {at_once}");
        report.case(match (more, at_once) {
            (1.., 1..) => Ok(()),
            _ => Err("no call said more, or none answered as at once".into()),
        });
    }
}

/// All calls of a case, and the batch at once.
fn compare(case: &Case, random: &mut Random, tallies: &mut Tallies) -> Result<(), String> {
    let lent = Guarded::filled(random, case.records());
    let mut course = Course::new(&lent);
    for (at, call) in case.calls.iter().enumerate() {
        let answer = course.call(case, call, random);
        let answer = answer.map_err(|found| format!("call {at}: {found}"))?;
        tallies.count(case, call, answer);
        if at == case.answers() && case.is_one() {
            let answer = answer.ok_or("the last chunk has no answer")?;
            course.as_at_once(case, answer, &lent)?;
            tallies.at_once += 1;
        }
    }
    Ok(())
}

/// What both implementations carry and leave, from call to call.
struct Course {
    library: Carried,
    second: chunks::Carried,
    by_library: Guarded<u32>,
    by_second: Guarded<u32>,
    /// Dwords that have come.
    dwords: usize,
    /// A call has named no chip.
    no_chip: bool,
}

impl Course {
    fn new(records: &Guarded<u32>) -> Self {
        Course {
            library: Carried::default(),
            second: chunks::Carried::START,
            by_library: records.clone(),
            by_second: records.clone(),
            dwords: 0,
            no_chip: false,
        }
    }

    /// One call of both; gives the common answer, none for "more".
    fn call(
        &mut self,
        case: &Case,
        call: &Call,
        random: &mut Random,
    ) -> Result<Option<Answer>, String> {
        let chunk = guarded_chunk(case, call, random);
        let lent = chunk.clone();
        let records = &mut self.by_library.lent_mut()[..call.records];
        let &Call {
            chip,
            last,
            capacity,
            ..
        } = call;
        let fed =
            ffi::chunks::feed_framed(chip, &self.library, lent.lent(), last, capacity, records)
                .ok_or("the library wrote outside what it gives back")?;
        let records = &mut self.by_second.lent_mut()[..call.records];
        let second = chunks::feed(chip, self.second, lent.lent(), last != 0, capacity, records);
        self.dwords += call.chunk.len();
        self.no_chip |= !known(chip);

        let mut faults = Faults::default();
        let expected = given(second.answer);
        if (fed.more, fed.answer) != expected {
            let (more, answer) = expected;
            let found = format!(
                "differ\n  library more {} {:?}\n  second  more {more} {answer:?}",
                fed.more, fed.answer
            );
            faults.add("answers", &found);
        }
        faults.difference(
            "records, library against second, at",
            self.by_library.difference(&self.by_second),
        );
        faults.difference("chunk changed at", lent.difference(&chunk));
        if second.answer == Some(Answer::refused(19, 0)) {
            if fed.carried != self.library {
                faults.add("carried state", &changed(&self.library, &fed.carried));
            }
        } else {
            self.carried_alike(last, &fed.carried, &second.carried, &mut faults);
        }
        (self.library, self.second) = (fed.carried, second.carried);
        match faults.0.is_empty() {
            true => Ok(second.answer),
            false => Err(faults.0),
        }
    }

    /// What the header says of the carried state.
    fn carried_alike(
        &self,
        last: u32,
        library: &Carried,
        second: &chunks::Carried,
        faults: &mut Faults,
    ) {
        let mut expect = |name: &str, found: &[u32], expected: &[u32]| {
            if found != expected {
                let found = format!("{found:x?}, expected {expected:x?}");
                faults.add(name, &found);
            }
        };
        expect("answered", &[library.answered], &[u32::from(last != 0)]);
        if !self.no_chip {
            let dwords = self.dwords.min(LIMIT + 1) as u32;
            expect("dwords", &[library.dwords], &[dwords]);
        }
        if let Some(Progress {
            stop,
            place,
            got,
            own,
        }) = second.progress()
        {
            expect("stop", &[library.stop], &[stop]);
            expect("place", &[library.place], &[place]);
            if stop == 0 {
                expect("got", &[library.got], &[got]);
                expect("own", &library.own, &own);
            }
        }
    }

    /// The library's answer is that of its batch check on all chunks joined, and after
    /// acceptance the records are those.
    fn as_at_once(&self, case: &Case, answer: Answer, lent: &Guarded<u32>) -> Result<(), String> {
        let Call {
            chip,
            capacity,
            records,
            ..
        } = case.calls[0];
        let mut left = lent.clone();
        let room = &mut left.lent_mut()[..records];
        let at_once = ffi::check_batch_dwords(chip, &case.batch, capacity, room);
        let mut faults = Faults::default();
        if answer != at_once {
            let found = format!("{answer:?}, at once {at_once:?}");
            faults.add("answers", &found);
        }
        if at_once.number == 0 {
            faults.difference("records, in parts against at once, at", {
                self.by_library.difference(&left)
            });
        }
        match faults.0.is_empty() {
            true => Ok(()),
            false => Err(format!("the library at once:{}", faults.0)),
        }
    }
}

/// The chunk as it is lent: what stands after it in the batch follows, or END.
fn guarded_chunk(case: &Case, call: &Call, random: &mut Random) -> Guarded<u32> {
    let next = case.batch.get(call.chunk.end).copied();
    let chunk = Guarded::new(random, &case.batch[call.chunk.clone()]);
    chunk.followed_by(&[next.unwrap_or(END)])
}

/// What a call gives besides the carried state.
fn given(answer: Option<Answer>) -> (u64, Answer) {
    match answer {
        Some(answer) => (0, answer),
        None => (1, Answer::accepted(0, 0)),
    }
}

fn changed(before: &Carried, after: &Carried) -> String {
    format!("changed\n  from {before:x?}\n  to   {after:x?}")
}

/// Null pointers at length 0: an empty batch, first with "more", then with its answer.
fn nothing(chip: u32) -> Result<(), String> {
    let number = match known(chip) {
        true => 2,
        false => 18,
    };
    let mut carried = Carried::default();
    for (last, expected) in [
        (0, None),
        (0, None),
        (1, Some(Answer::refused(number, 0))),
        (0, Some(Answer::refused(19, 0))),
        (1, Some(Answer::refused(19, 0))),
    ] {
        let fed = ffi::chunks::feed_nothing(chip, &carried, last);
        if (fed.more, fed.answer) != given(expected) {
            let found = (fed.more, fed.answer);
            return Err(format!("nothing lent for chip {chip}: {found:?}"));
        }
        carried = fed.carried;
    }
    Ok(())
}

fn describe(plan: &Plan, index: u64, case: &Case, difference: &str) -> String {
    let mut text = format!(
        "{}: {}, {} dwords\n  {difference}",
        plan.again(index),
        case.sort,
        case.batch.len(),
    );
    print_calls(&mut text, &case.calls);
    print_input(&mut text, "batch", &case.batch);
    text
}

fn print_calls(text: &mut String, calls: &[Call]) {
    for call in calls.iter().take(20) {
        let Call {
            chip,
            chunk,
            last,
            capacity,
            records,
        } = call;
        let _ = write!(
            text,
            "\n  chip {chip}, dwords {chunk:?}, last {last}, capacity {capacity}, {records} for records",
        );
    }
}
