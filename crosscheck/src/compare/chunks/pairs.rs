//! Isolation of the chunked check, shown on the library: two batches that differ only in
//! inline data of OBJECTs passed, each cut in its own way, get the same answer and leave
//! the same records, also after chunks refused with 19.

use super::super::chips::Chips;
use super::super::{print_input, Faults, Plan, Report};
use super::{guarded_chunk, print_calls};
use crate::batch::Answer;
use crate::ffi::{self, chunks::Carried};
use crate::generate::chunks::{cut_anyhow, Case};
use crate::generate::isolation::{random_case, sweep, Pair};
use crate::guard::Guarded;
use crate::random::Random;

pub fn run(plan: &Plan, report: &mut Report) {
    // They take longer than others.
    let fewer = Plan {
        cases: plan.cases / 8,
        ..*plan
    };
    let numbers = (0..=10).chain([19]);
    let mut numbers = Chips::new("chunked check, differing pairs", numbers).and_no_chip(19, "");
    fewer.each(&sweep(plan.seed), random_case, |index, pair, random| {
        let both = [pair.first.batch.batch.clone(), pair.second.clone()];
        let cut = both.map(|batch| {
            let mut whole = pair.first.batch.clone();
            whole.batch = batch;
            cut_anyhow(random, whole)
        });
        let outcome = alike(&cut, random).map(|left| {
            // A pair that does not differ shows nothing.
            if pair.differing() > 0 {
                let tally = numbers.of(pair.first.batch.chip);
                tally.count(left.answer.number);
                tally.add(19, left.refused);
            }
        });
        report.case(outcome.map_err(|found| describe(plan, index, pair, &cut, &found)));
    });
    if plan.only.is_none() {
        numbers.print(report);
    }
}

/// What all calls of a case come to.
struct Left {
    answer: Answer,
    /// Calls refused with 19.
    refused: usize,
    records: Guarded<u32>,
}

/// Both batches, from the same record buffer; gives what the first came to.
fn alike(pair: &[Case; 2], random: &mut Random) -> Result<Left, String> {
    let lent = Guarded::filled(random, pair[0].records());
    let first = left(&pair[0], &lent, random)?;
    let second = left(&pair[1], &lent, random)?;
    let mut faults = Faults::default();
    if first.answer != second.answer {
        let found = format!("{:?} against {:?}", first.answer, second.answer);
        faults.add("answers", &found);
    }
    faults.difference("records", first.records.difference(&second.records));
    // What both sides write alike outside would not show as a difference.
    if !first.records.same_guards(&lent) {
        faults.add("guards", "were written");
    }
    match faults.0.is_empty() {
        true => Ok(first),
        false => Err(format!("first against second:{}", faults.0)),
    }
}

/// Hands a batch over. After the answer every call gives 19 and changes no record.
fn left(case: &Case, lent: &Guarded<u32>, random: &mut Random) -> Result<Left, String> {
    let mut carried = Carried::default();
    let mut records = lent.clone();
    let mut answered: Option<(Answer, Guarded<u32>)> = None;
    let mut refused = 0;
    for call in &case.calls {
        let chunk = guarded_chunk(case, call, random);
        let room = &mut records.lent_mut()[..call.records];
        let fed = ffi::chunks::feed(
            call.chip,
            &carried,
            chunk.lent(),
            call.last,
            call.capacity,
            room,
        );
        carried = fed.carried;
        match &answered {
            Some((_, left)) => {
                refused += 1;
                if (fed.more, fed.answer) != (0, Answer::refused(19, 0)) {
                    return Err(format!("after the answer: {:?}", fed.answer));
                }
                if let Some(at) = records.difference(left) {
                    return Err(format!("records changed after the answer at {at}"));
                }
            }
            None if fed.more == 0 => answered = Some((fed.answer, records.clone())),
            None => {}
        }
    }
    let (answer, _) = answered.ok_or("the last chunk has no answer")?;
    Ok(Left {
        answer,
        refused,
        records,
    })
}

fn describe(plan: &Plan, index: u64, pair: &Pair, cut: &[Case; 2], difference: &str) -> String {
    let mut text = format!("{}, pair: {difference}", plan.again(index));
    for (case, name) in cut.iter().zip(["first", "second"]) {
        text += &format!("\n  {name}");
        print_calls(&mut text, &case.calls);
    }
    print_input(&mut text, "first", &pair.first.batch.batch);
    print_input(&mut text, "second", &pair.second);
    text
}
