//! Isolation, the owner's third demand, shown on the library: two batches that
//! differ only in inline data of OBJECTs passed get the same answers and leave the
//! same bytes, on either chip; where the number names no chip, any two of one length.
//! Recordings are in `recordings`.

use super::chips::Chips;
use super::order::Lent;
use super::scoreboards::{self, CHANGED};
use super::{print_input, Faults, Plan, Report};
use crate::ffi;
use crate::generate::batch;
use crate::generate::isolation::{random_case, sweep, Pair};
use crate::guard::Cell;
use crate::random::Random;
use std::fmt::Debug;

mod recordings;

pub fn run(plan: &Plan, report: &mut Report) {
    let mut tallies = Tallies::new();
    let mut differing = Differing::default();
    plan.each(&sweep(plan.seed), random_case, |index, pair, random| {
        let outcome = compare(pair, random).map(|numbers| {
            // A pair that does not differ shows nothing.
            let dwords = pair.differing();
            if dwords > 0 {
                tallies.count(pair, numbers);
                differing.pairs += 1;
                differing.dwords += dwords;
            }
        });
        report.case(outcome.map_err(|found| describe(plan, index, pair, &found)));
    });
    if plan.only.is_none() {
        let Differing { pairs, dwords } = differing;
        println!("pairs of batches that differ: {pairs}, in {dwords} dwords");
        tallies.print(report);
    }
    recordings::run(plan, report);
}

/// What differs in the pairs compared.
#[derive(Default)]
struct Differing {
    pairs: usize,
    dwords: usize,
}

/// The numbers that the four entries answered.
struct Numbers {
    batch_dwords: u64,
    batch_bytes: u64,
    order_dwords: u64,
    order_bytes: u64,
}

/// How often pairs that differ got each number; each must be reached.
struct Tallies {
    batch_dwords: Chips,
    batch_bytes: Chips,
    order_dwords: Chips,
    order_bytes: Chips,
}

impl Tallies {
    fn new() -> Self {
        let of_run = (0..=10).chain(20..=25);
        Tallies {
            batch_dwords: Chips::new("batch check over dwords, differing pairs", 0..=10)
                .and(0, CHANGED),
            batch_bytes: Chips::new(
                "batch check over bytes, differing pairs",
                (0..=10).chain([17]),
            )
            .and(0, CHANGED),
            order_dwords: Chips::new("order check over dwords, differing pairs", of_run.clone())
                .and(0, CHANGED),
            order_bytes: Chips::new("order check over bytes, differing pairs", of_run)
                .and(0, CHANGED)
                .and(17, "of the batch")
                .and(17, "of the run"),
        }
    }

    fn count(&mut self, pair: &Pair, numbers: Numbers) {
        let batch::Case { chip, batch, .. } = &pair.first.batch;
        let row = |number| scoreboards::row(batch, number);
        for (tallies, number) in [
            (&mut self.batch_dwords, numbers.batch_dwords),
            (&mut self.batch_bytes, numbers.batch_bytes),
            (&mut self.order_dwords, numbers.order_dwords),
        ] {
            tallies.of(*chip).count_of(number, row(number));
        }
        let of = match (numbers.order_bytes, pair.first.batch.tail.len()) {
            (17, 0) => "of the run",
            (17, _) => "of the batch",
            (number, _) => row(number),
        };
        let tally = self.order_bytes.of(*chip);
        tally.count_of(numbers.order_bytes, of);
    }

    fn print(&self, report: &mut Report) {
        self.batch_dwords.print(report);
        self.batch_bytes.print(report);
        self.order_dwords.print(report);
        self.order_bytes.print(report);
    }
}

/// Both batches through every entry.
fn compare(pair: &Pair, random: &mut Random) -> Result<Numbers, String> {
    let capacity = pair.first.batch.capacity;
    let chip = pair.first.batch.chip;

    let lent = Both::new(Lent::dwords(&pair.first, random), &pair.second);
    let batch_dwords = lent.alike("batch check over dwords", |lent| {
        ffi::check_batch_dwords(chip, lent.batch.lent(), capacity, lent.records.lent_mut())
    })?;
    let order_dwords = lent.alike("order check over dwords", |lent| {
        ffi::check_order_dwords(
            chip,
            lent.batch.lent(),
            capacity,
            lent.run.lent(),
            lent.records.lent_mut(),
            lent.states.lent_mut(),
        )
    })?;

    let lent = Both::new(Lent::bytes(&pair.first, random), &pair.second_bytes());
    let batch_bytes = lent.alike("batch check over bytes", |lent| {
        ffi::check_batch(chip, lent.batch.lent(), capacity, lent.records.lent_mut())
    })?;
    let order_bytes = lent.alike("order check over bytes", |lent| {
        ffi::check_order(
            chip,
            lent.batch.lent(),
            capacity,
            lent.run.lent(),
            lent.records.lent_mut(),
            lent.states.lent_mut(),
        )
    })?;

    Ok(Numbers {
        batch_dwords: batch_dwords.number,
        batch_bytes: batch_bytes.number,
        order_dwords: order_dwords.number,
        order_bytes: order_bytes.number,
    })
}

/// What is lent with the first batch and with the second: the batch apart the
/// same, guards included.
struct Both<T> {
    first: Lent<T>,
    second: Lent<T>,
}

impl<T: Cell> Both<T> {
    fn new(first: Lent<T>, batch: &[T]) -> Self {
        let mut second = first.clone();
        second.batch.lent_mut().copy_from_slice(batch);
        Both { first, second }
    }

    /// One entry over copies of both; gives the common answer.
    fn alike<A: PartialEq + Debug>(
        &self,
        entry: &str,
        check: impl Fn(&mut Lent<T>) -> A,
    ) -> Result<A, String> {
        let (mut first, mut second) = (self.first.clone(), self.second.clone());
        let answers = (check(&mut first), check(&mut second));
        let mut faults = Faults::default();
        if answers.0 != answers.1 {
            faults.add(
                "answers",
                &format!("{:?} against {:?}", answers.0, answers.1),
            );
        }
        faults.difference("records", first.records.difference(&second.records));
        faults.difference("states", first.states.difference(&second.states));
        faults.difference("runs", first.run.difference(&second.run));
        faults.difference(
            "the first batch changed at",
            first.batch.difference(&self.first.batch),
        );
        faults.difference(
            "the second batch changed at",
            second.batch.difference(&self.second.batch),
        );
        // What both sides write alike outside would not show as a difference.
        if !first.records.same_guards(&self.first.records)
            || !first.states.same_guards(&self.first.states)
        {
            faults.add("guards", "were written");
        }
        match faults.0.is_empty() {
            true => Ok(answers.0),
            false => Err(format!("{entry}, first against second:{}", faults.0)),
        }
    }
}

fn describe(plan: &Plan, index: u64, pair: &Pair, difference: &str) -> String {
    let first = &pair.first.batch;
    let mut text = format!(
        "{}: chip {}, {} dwords, {} bytes more, capacity {}, {} differ\n  {difference}",
        plan.again(index),
        first.chip,
        first.batch.len(),
        first.tail.len(),
        first.capacity,
        pair.differing(),
    );
    print_input(&mut text, "first", &first.batch);
    print_input(&mut text, "second", &pair.second);
    text
}
