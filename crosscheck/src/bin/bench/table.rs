//! A Markdown table per subject.

use crate::timing::{turns, Side, Times, SIDES};

/// What a row measures.
#[derive(Clone)]
pub struct Input {
    pub name: String,
    /// What the entry takes: dwords or bytes; of a batch in parts, dwords of a chunk.
    pub entry: &'static str,
    /// Dwords of the batch, objects or events.
    pub size: usize,
    /// What the time is divided by.
    pub units: usize,
}

/// How a table shows its rows.
#[derive(Clone, Copy)]
pub enum Shape {
    /// Nanoseconds a unit, and the ratio.
    PerUnit {
        size: &'static str,
        unit: &'static str,
    },
    /// The same of a batch in parts, and how many times what the row of the batch at once
    /// takes; that one comes first.
    Parts {
        size: &'static str,
        unit: &'static str,
    },
    /// Microseconds a call, and how they grow from row to row.
    Growth { size: &'static str },
}

struct Table {
    subject: &'static str,
    shape: Shape,
    rows: Vec<(Input, Times)>,
}

/// The tables under way. Every pass makes the same rows in the same order; the best time
/// of all passes counts.
#[derive(Default)]
pub struct Tables {
    tables: Vec<Table>,
    table: usize,
    row: usize,
}

impl Tables {
    /// Begins a pass.
    pub fn pass(&mut self) {
        self.table = 0;
    }

    /// Begins a subject's table.
    pub fn head(&mut self, subject: &'static str, shape: Shape) {
        if self.table == self.tables.len() {
            self.tables.push(Table {
                subject,
                shape,
                rows: Vec::new(),
            });
        }
        self.table += 1;
        self.row = 0;
    }

    /// Times the sides. `call` lends the input and its buffers to one.
    pub fn row(&mut self, input: Input, call: impl FnMut(Side)) {
        let times = turns(call);
        let rows = &mut self.tables[self.table - 1].rows;
        match rows.get_mut(self.row) {
            None => rows.push((input, times)),
            Some((_, best)) => {
                for (best, time) in best.iter_mut().zip(times) {
                    *best = best.min(time);
                }
            }
        }
        self.row += 1;
    }

    pub fn print(&self) {
        for table in &self.tables {
            println!("\n### {}\n", table.subject);
            match table.shape {
                Shape::PerUnit { size, unit } => {
                    let sides = ["library", "second", "limit"];
                    let [library, second, limit] = sides.map(|side| format!("{side} ns/{unit}"));
                    line(["input", "entry", size, &library, &second, &limit, "ratio"]);
                    line(["---", "---", "--:", "--:", "--:", "--:", "--:"]);
                    table
                        .rows
                        .iter()
                        .for_each(|(input, times)| per_unit(input, times));
                }
                Shape::Parts { size, unit } => {
                    let sides = ["library", "second", "limit"];
                    let [library, second, limit] = sides.map(|side| format!("{side} ns/{unit}"));
                    in_parts([
                        "input", "chunk", size, &library, "times", &second, "times", &limit,
                        "ratio",
                    ]);
                    in_parts([
                        "---", "--:", "--:", "--:", "--:", "--:", "--:", "--:", "--:",
                    ]);
                    let mut at_once = &table.rows[0];
                    for row in &table.rows {
                        if (&row.0.name, row.0.size) != (&at_once.0.name, at_once.0.size) {
                            at_once = row;
                        }
                        parts(row, &at_once.1);
                    }
                }
                Shape::Growth { size } => {
                    grown(["run", size, "library us", "grows", "second us", "grows"]);
                    grown(["---", "--:", "--:", "--:", "--:", "--:"]);
                    let mut before: Option<&(Input, Times)> = None;
                    for row in &table.rows {
                        growth(row, before.filter(|before| before.0.name == row.0.name));
                        before = Some(row);
                    }
                }
            }
        }
    }
}

/// The time of a side.
fn of(times: &Times, side: Side) -> f64 {
    let at = SIDES.iter().position(|&other| other == side);
    times[at.expect("a side")]
}

fn per_unit(input: &Input, times: &Times) {
    let per_unit = |side| nanoseconds(1e9 * of(times, side) / input.units as f64);
    let ratio = of(times, Side::Second) / of(times, Side::Library);
    line([
        &input.name,
        input.entry,
        &input.size.to_string(),
        &per_unit(Side::Library),
        &per_unit(Side::Second),
        &per_unit(Side::Limit),
        &format!("{ratio:.2}"),
    ]);
}

fn parts((input, times): &(Input, Times), at_once: &Times) {
    let per_unit = |side| nanoseconds(1e9 * of(times, side) / input.units as f64);
    let times_at_once = |side| format!("{:.2}", of(times, side) / of(at_once, side));
    let ratio = of(times, Side::Second) / of(times, Side::Library);
    in_parts([
        &input.name,
        input.entry,
        &input.size.to_string(),
        &per_unit(Side::Library),
        &times_at_once(Side::Library),
        &per_unit(Side::Second),
        &times_at_once(Side::Second),
        &per_unit(Side::Limit),
        &format!("{ratio:.2}"),
    ]);
}

fn growth((input, times): &(Input, Times), before: Option<&(Input, Times)>) {
    let side = |side| {
        let grows = before.map(|(_, before)| of(times, side) / of(before, side));
        let grows = grows.map_or(String::new(), |grows| format!("x {grows:.1}"));
        (format!("{:.1}", 1e6 * of(times, side)), grows)
    };
    let (library, library_grows) = side(Side::Library);
    let (second, second_grows) = side(Side::Second);
    grown([
        &input.name,
        &input.size.to_string(),
        &library,
        &library_grows,
        &second,
        &second_grows,
    ]);
}

/// With two digits at least that mean something.
fn nanoseconds(time: f64) -> String {
    let decimals = if time < 1.0 { 4 } else { 2 };
    format!("{time:.decimals$}")
}

/// A line of a table, in columns that also stand below each other on a screen.
fn line([name, entry, size, library, second, limit, ratio]: [&str; 7]) {
    println!(
        "| {name:<40} | {entry:<6} | {size:>6} | {library:>16} | {second:>15} | {limit:>14} | {ratio:>5} |"
    );
}

fn in_parts([name, cells @ ..]: [&str; 9]) {
    print!("| {name:<38} |");
    for (cell, width) in cells.iter().zip([7, 6, 16, 5, 15, 5, 14, 5]) {
        print!(" {cell:>width$} |");
    }
    println!();
}

fn grown([name, size, library, library_grows, second, second_grows]: [&str; 6]) {
    println!(
        "| {name:<40} | {size:>7} | {library:>10} | {library_grows:>6} | {second:>10} | {second_grows:>6} |"
    );
}
