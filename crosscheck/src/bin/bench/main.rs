//! Time of the library and of the second implementation on the same inputs, as
//! Markdown tables.
//!
//! `bench [batch|chunks|order|growth|replay [passes]]`: all subjects, or one, at times for a
//! quick look with fewer passes.

mod batch;
mod chunks;
mod growth;
mod limit;
mod order;
mod replay;
mod table;
mod timing;

use std::process::ExitCode;
use table::Tables;

/// What measures one subject.
type Subject = (&'static str, fn(&mut Tables));

const SUBJECTS: &[Subject] = &[
    ("batch", batch::run),
    ("chunks", chunks::run),
    ("order", order::run),
    ("growth", growth::run),
    ("replay", replay::run),
];

/// Every row is visited so often, each time with new buffers, so that what disturbs
/// the machine for some seconds spoils no row.
const PASSES: usize = 4;

fn main() -> ExitCode {
    let wanted = std::env::args().nth(1);
    let passes = std::env::args()
        .nth(2)
        .and_then(|passes| passes.parse().ok());
    let chosen = |name: &str| wanted.as_deref().is_none_or(|wanted| wanted == name);
    if !SUBJECTS.iter().any(|(name, _)| chosen(name)) {
        let names: Vec<&str> = SUBJECTS.iter().map(|(name, _)| *name).collect();
        eprintln!("usage: bench [{} [passes]]", names.join("|"));
        return ExitCode::from(2);
    }
    let mut tables = Tables::default();
    for _ in 0..passes.unwrap_or(PASSES) {
        tables.pass();
        for (_, run) in SUBJECTS.iter().filter(|(name, _)| chosen(name)) {
            run(&mut tables);
        }
    }
    println!("Measured on one core of this processor: {}.\n", processor());
    println!(
        "Ratio: the second's time / the library's time; at 1.0 or more the library is as fast."
    );
    println!("Times: of a batch in parts, the time / the same side's for the batch at once.");
    tables.print();
    ExitCode::SUCCESS
}

/// As the kernel names it.
fn processor() -> String {
    let cpuinfo = std::fs::read_to_string("/proc/cpuinfo").unwrap_or_default();
    let field = |name| {
        let line = cpuinfo.lines().find(|line| line.starts_with(name))?;
        Some(line.split_once(':')?.1.trim().to_string())
    };
    field("model name").unwrap_or_else(|| "a processor without a name".into())
}
