//! Library and second implementation side by side. One module per subject; the
//! tallies and the report are shared.

use crate::random::Random;
use std::fmt::Write;

pub mod batch;
mod chips;
pub mod chunks;
mod commands;
pub mod fuzz;
pub mod in_play;
pub mod isolation;
pub mod listing;
mod masks;
pub mod order;
pub mod replay;
mod scoreboards;

/// How many disagreements are printed in full.
const PRINTED: usize = 3;

/// Inputs of more bytes are not printed.
const SHORT: usize = 384;

/// What a run of the comparison is asked for.
pub struct Plan {
    pub subject: &'static str,
    /// Random cases per subject, on top of the fixed ones.
    pub cases: u64,
    pub seed: u64,
    /// Compare this case alone.
    pub only: Option<u64>,
}

impl Plan {
    /// The command that compares one case alone.
    fn again(&self, index: u64) -> String {
        format!(
            "compare {} {} {} {index}",
            self.subject, self.cases, self.seed
        )
    }

    /// The fixed cases, then the random ones. Each has its own stream of random
    /// numbers, so that it can be compared alone.
    fn each<C>(
        &self,
        fixed: &[C],
        random_case: impl Fn(&mut Random) -> C,
        mut compare: impl FnMut(u64, &C, &mut Random),
    ) {
        let total = fixed.len() as u64 + self.cases;
        let wanted = match self.only {
            Some(index) => index..total.min(index + 1),
            None => 0..total,
        };
        for index in wanted {
            let mut random = Random::for_case(self.seed, index);
            match fixed.get(index as usize) {
                Some(case) => compare(index, case, &mut random),
                None => compare(index, &random_case(&mut random), &mut random),
            }
        }
    }
}

#[derive(Default)]
pub struct Report {
    pub passed: usize,
    pub failed: usize,
}

impl Report {
    /// Counts one case; `outcome` says what differed.
    pub fn case(&mut self, outcome: Result<(), String>) {
        match outcome {
            Ok(()) => self.passed += 1,
            Err(difference) => {
                self.failed += 1;
                if self.failed <= PRINTED {
                    println!("{difference}\n");
                }
            }
        }
    }
}

/// How often each number was answered through one entry.
pub struct Tally {
    entry: String,
    rows: Vec<Row>,
}

struct Row {
    number: u64,
    /// Tells rows of one number apart.
    of: &'static str,
    count: usize,
}

impl Tally {
    /// `reachable` are the numbers that the entry can answer.
    pub fn new(entry: impl Into<String>, reachable: impl IntoIterator<Item = u64>) -> Self {
        let mut tally = Tally {
            entry: entry.into(),
            rows: Vec::new(),
        };
        for number in reachable {
            *tally.row(number, "") = 0;
        }
        tally
    }

    /// One more row to be reached.
    fn and(mut self, number: u64, of: &'static str) -> Self {
        *self.row(number, of) = 0;
        self
    }

    pub fn count(&mut self, number: u64) {
        self.add(number, 1);
    }

    pub fn add(&mut self, number: u64, count: usize) {
        *self.row(number, "") += count;
    }

    pub fn count_of(&mut self, number: u64, of: &'static str) {
        *self.row(number, of) += 1;
    }

    fn row(&mut self, number: u64, of: &'static str) -> &mut usize {
        let mut rows = self.rows.iter();
        let known = rows.position(|row| row.number == number && row.of == of);
        let at = known.unwrap_or(self.rows.len());
        if at == self.rows.len() {
            let count = 0;
            self.rows.push(Row { number, of, count });
        }
        &mut self.rows[at].count
    }

    /// Prints the table. A number never reached counts as a failure.
    pub fn print(&self, report: &mut Report) {
        println!("{}\nnumber count", self.entry);
        for Row { number, of, count } in &self.rows {
            println!("{number:6} {count} {of}");
            if *count == 0 {
                println!("number {number} {of} was never reached");
                report.failed += 1;
            }
        }
    }
}

/// What differed in one call, a line each.
#[derive(Default)]
struct Faults(String);

impl Faults {
    fn add(&mut self, what: &str, detail: &str) {
        let _ = write!(self.0, "\n  {what} {detail}");
    }

    /// What a buffer's `difference` found, if anything.
    fn difference(&mut self, what: &str, found: Option<String>) {
        if let Some(at) = found {
            self.add(what, &at);
        }
    }
}

/// The input in hexadecimal, if it is short.
fn print_input<T: std::fmt::LowerHex>(text: &mut String, name: &str, input: &[T]) {
    if size_of_val(input) <= SHORT {
        let _ = write!(text, "\n  {name}");
        for word in input {
            let _ = write!(text, " {word:x}");
        }
    }
}
