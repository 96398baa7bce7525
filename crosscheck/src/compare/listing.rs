//! The listing programs, Gen7's that MPL_LIST names and Gen6's that MPL_LIST6 names,
//! against the second implementation's listing: all that they print, byte by byte. And
//! their isolation: they print the same for an input that differs only in inline data
//! passed.

use super::scoreboards::{self, CHANGED};
use super::{Plan, Report, Tally};
use crate::generate::dwords;
use crate::generate::isolation::other_input;
use crate::generate::listing::{random_case, sweep};
use crate::listing::{listing, NAMES};
use std::ffi::OsString;
use std::io::{ErrorKind, Write};
use std::process::{Command, Output, Stdio};

pub fn run(plan: &Plan, report: &mut Report) {
    for (chip, variable) in [(7, "MPL_LIST"), (6, "MPL_LIST6")] {
        match std::env::var_os(variable) {
            Some(path) => Program { chip, path }.run(plan, report),
            None => report.case(Err(format!("{variable} names no listing program"))),
        }
    }
}

/// A chip's listing program.
struct Program {
    chip: u32,
    path: OsString,
}

impl Program {
    fn run(&self, plan: &Plan, report: &mut Report) {
        let chip = self.chip;
        // The program lends room for every record, so that 10 never occurs.
        let reachable = || (0..=9).chain([17]);
        let name = format!("listing program, Gen{chip}");
        let mut numbers = Tally::new(name.clone(), reachable()).and(0, CHANGED);
        let mut kinds = Tally::new(format!("commands listed, Gen{chip}"), []);
        for (kind, name) in (0..).zip(names(chip)) {
            kinds = kinds.and(kind, name);
        }
        let mut pairs = Tally::new(format!("{name}, differing pairs"), reachable()).and(0, CHANGED);
        let fixed = sweep(plan.seed, chip);
        let random_case = |random: &mut _| random_case(random, chip);
        plan.each(&fixed, random_case, |index, input, random| {
            let outcome = self.compare(input).and_then(|text| {
                count_names(&text, &mut kinds);
                let number = number(&text);
                let (batch, _) = dwords(input);
                let row = scoreboards::row(&batch, number);
                numbers.count_of(number, row);
                let other = other_input(random, chip, input);
                if other != *input {
                    pairs.count_of(number, row);
                    self.alike(&text, &other)?;
                }
                Ok(())
            });
            report.case(outcome.map_err(|found| self.describe(plan, index, input, &found)));
        });
        if plan.only.is_none() {
            numbers.print(report);
            kinds.print(report);
            pairs.print(report);
        }
    }

    /// Gives the common text.
    fn compare(&self, input: &[u8]) -> Result<String, String> {
        let by_program = print(&self.path, input)?;
        let by_second = listing(self.chip, input);
        if by_program == by_second {
            return Ok(String::from_utf8_lossy(&by_second).into_owned());
        }
        Err(format!(
            "program prints {:?}\n  second prints  {:?}",
            String::from_utf8_lossy(&by_program),
            String::from_utf8_lossy(&by_second),
        ))
    }

    /// The program prints the same text for the other input of a pair.
    fn alike(&self, text: &str, other: &[u8]) -> Result<(), String> {
        let printed = print(&self.path, other)?;
        if printed == text.as_bytes() {
            return Ok(());
        }
        let printed = String::from_utf8_lossy(&printed);
        let mut found = format!("program prints {text:?}\n  and {printed:?} for other inline data");
        super::print_input(&mut found, "other", other);
        Err(found)
    }

    fn describe(&self, plan: &Plan, index: u64, input: &[u8], difference: &str) -> String {
        let mut text = format!(
            "{}: Gen{}, {} bytes\n  {difference}",
            plan.again(index),
            self.chip,
            input.len()
        );
        super::print_input(&mut text, "input", input);
        text
    }
}

/// The names of the chip's kinds; the last is Gen6's own.
fn names(chip: u32) -> &'static [&'static str] {
    match chip {
        6 => &NAMES,
        _ => &NAMES[..NAMES.len() - 1],
    }
}

/// What the program prints. The text is shorter than a pipe, so it never waits
/// for a reader.
fn print(program: &OsString, input: &[u8]) -> Result<Vec<u8>, String> {
    let output = output(program, input).map_err(|error| error.to_string());
    let output = output.and_then(|output| match output.status.code() {
        Some(_) => Ok(output.stdout),
        None => Err(output.status.to_string()),
    });
    output.map_err(|error| format!("{} fails: {error}", program.to_string_lossy()))
}

fn output(program: &OsString, input: &[u8]) -> std::io::Result<Output> {
    let mut child = Command::new(program)
        .stdin(Stdio::piped())
        .stdout(Stdio::piped())
        .spawn()?;
    let mut stdin = child.stdin.take().expect("a pipe");
    // Past its limit the program need not read on.
    match stdin.write_all(input) {
        Err(error) if error.kind() != ErrorKind::BrokenPipe => return Err(error),
        _ => drop(stdin),
    }
    child.wait_with_output()
}

/// Counts the names listed.
fn count_names(text: &str, kinds: &mut Tally) {
    let names = text.lines().filter_map(|line| line.split(' ').nth(1));
    for name in names {
        if let Some(kind) = NAMES.iter().position(|&known| known == name) {
            kinds.count_of(kind as u64, NAMES[kind]);
        }
    }
}

/// The number in a text of the second implementation.
fn number(text: &str) -> u64 {
    let mut words = text.lines().last().expect("a line").split(' ');
    match (words.next(), words.next()) {
        (Some("refused"), Some(number)) => number.parse().expect("a number"),
        _ => 0,
    }
}
