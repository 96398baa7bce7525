//! The gateway replay, by kind of event, up to recordings as long as they can be: time
//! per event.

use crate::limit;
use crate::order::input;
use crate::table::{Shape, Tables};
use crate::timing::{Lent, Side};
use crosscheck::ffi;
use crosscheck::generate::replay::kinds::{Kind, Route};
use crosscheck::generate::replay::MOST;
use crosscheck::replay::{self, Replayed, EVENT, HEADER};
use std::hint::black_box;

const SIZES: [usize; 3] = [1_000, 30_000, MOST];

pub fn run(tables: &mut Tables) {
    let shape = Shape::PerUnit {
        size: "events",
        unit: "event",
    };
    tables.head("replay", shape);
    let mut sizes = |name: &str, kind: Kind| {
        for size in SIZES {
            row(tables, name, kind, size);
        }
    };
    sizes("opens", Kind::Opens);
    sizes("closes", Kind::Closes);
    for (name, route) in [("bypass", Route::Bypass), ("gateways", Route::Gateways)] {
        for code in 0..6 {
            let bytes = 1 << code;
            let plural = if bytes == 1 { "" } else { "s" };
            let name = format!("forwards of {bytes} byte{plural}, {name}");
            sizes(&name, Kind::Forwards(route, code));
        }
        sizes(
            &format!("forwards of all lengths, {name}"),
            Kind::AnyForwards(route),
        );
        sizes(
            &format!("forwards acknowledged, {name}"),
            Kind::AckedForwards(route),
        );
    }
    sizes("forwards to a thread's last bytes", Kind::LastBytes);
    sizes("forwards into one register of a thread", Kind::OneRegister);
    sizes("forwards refused, 34 to 37", Kind::RefusedForwards);
    sizes("timestamps", Kind::Timestamps);
    sizes("barriers of 1 thread", Kind::Barriers(1));
    sizes("barriers of 4 threads", Kind::Barriers(4));
    sizes("barriers of 16 threads", Kind::Barriers(16));
    sizes("updates", Kind::Updates);
    sizes("mixed", Kind::Mixed);
    sizes("malformed", Kind::Malformed);
}

type Replay = fn(&[u8], &mut [u8], &mut [u32], &mut [u8]) -> Replayed;

fn row(tables: &mut Tables, name: &str, kind: Kind, size: usize) {
    let case = kind.recording(size);
    // Unknown to the compiler, as in the batch's rows.
    let entries: [Replay; 2] = black_box([ffi::replay, replay::replay]);
    let mut recording = Lent::holding(&case.recording, 0);
    let mut registers = Lent::new(case.registers, 0);
    let mut counts = Lent::new(case.counts, 1024);
    let mut outcomes = Lent::new(case.outcomes, 2048);
    let recording = &*recording.get();
    let (registers, counts, outcomes) = (registers.get(), counts.get(), outcomes.get());

    let expected = entries[1](recording, registers, counts, outcomes);
    assert_eq!(expected.number, 0);
    if let Some(outcome) = kind.outcome() {
        assert!(outcomes.iter().all(|&other| other == outcome));
    }
    let written = written(recording, outcomes);
    let left = (registers.to_vec(), counts.to_vec(), outcomes.to_vec());
    registers.fill(0);
    assert_eq!(entries[0](recording, registers, counts, outcomes), expected);
    assert!(*registers == left.0 && *counts == left.1 && *outcomes == left.2);

    tables.row(input(name, "bytes", size), |side| {
        let answer = match side {
            Side::Library => entries[0](recording, registers, counts, outcomes),
            Side::Second => entries[1](recording, registers, counts, outcomes),
            Side::Limit => {
                limit::read(recording);
                for _ in 0..written / registers.len() {
                    limit::store(registers);
                }
                let rest = written % registers.len();
                limit::store(&mut registers[..rest]);
                limit::store(counts);
                limit::store(outcomes);
                expected
            }
        };
        assert_eq!(answer.number, 0);
    });
}

/// Bytes that the accepted forwards and the acknowledgements write.
fn written(recording: &[u8], outcomes: &[u8]) -> usize {
    let events = &recording[HEADER + usize::from(recording[5])..];
    let events = events.as_chunks::<EVENT>().0.iter();
    events
        .zip(outcomes)
        .map(|(event, outcome)| {
            let [kind, _, flags, _, _, code, ..] = *event;
            let acknowledged = matches!(kind, 0 | 1 | 2 | 4) && flags & 1 == 1;
            let forward = if kind == 2 && *outcome == 0 {
                1 << code
            } else {
                0
            };
            let acknowledgement = if acknowledged && !matches!(outcome, 31 | 32) {
                4
            } else {
                0
            };
            forward + acknowledgement
        })
        .sum()
}
