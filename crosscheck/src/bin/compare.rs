//! Compares the library with the second implementation on seeded cases.
//!
//! `compare [subject] [cases [seed [index]]]`: one subject alone; random cases per
//! subject on top of the fixed ones, the seed, and one case to compare alone. MPL_LIST and
//! MPL_LIST6 name the listing programs, Gen7's and Gen6's.

use crosscheck::compare::{self, Plan, Report};
use std::process::ExitCode;

/// A subject's name, its random cases where none are asked for, and what compares it.
type Subject = (&'static str, u64, fn(&Plan, &mut Report));

const SUBJECTS: &[Subject] = &[
    ("batch", 175_000, compare::batch::run),
    ("chunks", 150_000, compare::chunks::run),
    ("in_play", 0, compare::in_play::run),
    ("order", 175_000, compare::order::run),
    ("isolation", 40_000, compare::isolation::run),
    ("replay", 175_000, compare::replay::run),
    ("fuzz", 50_000, compare::fuzz::run),
    // A process each.
    ("listing", 250, compare::listing::run),
];

fn main() -> ExitCode {
    let mut arguments: Vec<String> = std::env::args().skip(1).collect();
    let mut subjects = SUBJECTS;
    if let Some(first) = arguments.first() {
        if let Some(at) = SUBJECTS.iter().position(|(name, ..)| name == first) {
            subjects = &SUBJECTS[at..=at];
            arguments.remove(0);
        }
    }
    let numbers: Result<Vec<u64>, _> = arguments.iter().map(|number| number.parse()).collect();
    let Ok(numbers @ ([] | [_] | [_, _] | [_, _, _])) = numbers.as_deref() else {
        let names: Vec<&str> = SUBJECTS.iter().map(|(name, ..)| *name).collect();
        eprintln!(
            "usage: compare [{}] [cases [seed [index]]]",
            names.join("|")
        );
        return ExitCode::from(2);
    };
    let mut report = Report::default();
    for (subject, cases, run) in subjects {
        let plan = Plan {
            subject,
            cases: numbers.first().copied().unwrap_or(*cases),
            seed: numbers.get(1).copied().unwrap_or(7),
            only: numbers.get(2).copied(),
        };
        run(&plan, &mut report);
    }
    println!("{} passed, {} failed", report.passed, report.failed);
    // A run that compared nothing proves nothing.
    match (report.passed, report.failed) {
        (1.., 0) => ExitCode::SUCCESS,
        _ => ExitCode::FAILURE,
    }
}
