//! The order check, by kind of run: time per event, the check of the batch included, on
//! Gen7 where the row names no chip.

use crate::batch::looked_at;
use crate::limit::{self, Plain};
use crate::table::{Input, Shape, Tables};
use crate::timing::{Lent, Side};
use crosscheck::batch::RECORD;
use crosscheck::ffi;
use crosscheck::generate;
use crosscheck::generate::order::{field, passes, picture, Layout, Object, Scene, Vfe, PICTURE};
use crosscheck::order::{self, Answer};
use std::hint::black_box;

pub fn run(tables: &mut Tables) {
    let shape = Shape::PerUnit {
        size: "events",
        unit: "event",
    };
    tables.head("order", shape);
    let (width, height) = PICTURE;
    let parts = [height / 4, height / 2, height];
    let pictures = [
        (7, "wave by wave, stalling", Layout::Waves),
        (6, "wave by wave, stalling, Gen6", Layout::Waves),
        (7, "block by block, stalling", Layout::Raster),
        (6, "block by block, stalling, Gen6", Layout::Raster),
    ];
    for (chip, name, layout) in pictures {
        for part in parts {
            let (scene, run) = picture(chip, (width, part), layout, true);
            both_entries(tables, name, &scene, &run);
        }
    }
    let in_passes = [
        ("three passes, wave by wave, stalling", Layout::Waves),
        ("three passes, block by block, stalling", Layout::Raster),
    ];
    for (name, layout) in in_passes {
        for part in parts {
            let (scene, run) = passes(7, (width, part / 3), layout, true);
            both_entries(tables, name, &scene, &run);
        }
    }
    let mut fields = |name, vfe, object: fn(usize) -> Object, run: fn(u32) -> Vec<u32>| {
        for part in parts {
            let objects = width * part;
            let scene = field(objects as usize, vfe, object);
            both_entries(tables, name, &scene, &run(objects as u32));
        }
    };
    let stalling = Vfe {
        stalling: true,
        ..FREE
    };
    let off = Vfe {
        enable: false,
        ..FREE
    };
    fields("all at once, stalling", stalling, far, at_once);
    fields("all at once, not stalling", FREE, far, at_once);
    fields("all at once, near each other", FREE, near, at_once);
    fields("all at once, no delta in play", FREE, masked, at_once);
    fields("all at once, off by the VFE", off, far, at_once);
    fields("all at once, off by their own bit", FREE, unused, at_once);
    fields("object 0 runs on", stalling, far, first_runs_on);
    fields("reversed, all at once", FREE, far, reversed_at_once);
    fields("reversed, one by one", FREE, far, reversed);
    fields("reversed, one by one, off by the VFE", off, far, reversed);
}

/// Not stalling; nobody is at its deltas among `far` or `near` objects.
pub const FREE: Vfe = Vfe {
    enable: true,
    stalling: false,
    mask: 255,
    deltas: [(-8, -8); 8],
};

/// Nine apart, so that no delta reaches from one to another.
pub fn far(number: usize) -> Object {
    let number = number as i32;
    Object {
        own_use: true,
        x: 9 * (number % 57),
        y: 9 * (number / 57),
        colour: 0,
        mask: 255,
    }
}

/// All in one place, so that each is within a delta's reach.
pub fn near(_: usize) -> Object {
    Object {
        x: 100,
        y: 100,
        ..far(0)
    }
}

fn masked(number: usize) -> Object {
    Object {
        mask: 0,
        ..far(number)
    }
}

fn unused(number: usize) -> Object {
    Object {
        own_use: false,
        ..far(number)
    }
}

/// All start before one finishes.
pub fn at_once(objects: u32) -> Vec<u32> {
    let events = 2 * objects;
    (0..events)
        .step_by(2)
        .chain((1..events).step_by(2))
        .collect()
}

/// The same from the last object to the first.
pub fn reversed_at_once(objects: u32) -> Vec<u32> {
    let starts = (0..objects).rev().map(|object| 2 * object);
    let finishes = (0..objects).rev().map(|object| 2 * object + 1);
    starts.chain(finishes).collect()
}

/// One after the other, from the last to the first.
pub fn reversed(objects: u32) -> Vec<u32> {
    let objects = (0..objects).rev();
    objects
        .flat_map(|object| [2 * object, 2 * object + 1])
        .collect()
}

/// Object 0 starts first and finishes last; between, the others run one after the other.
pub fn first_runs_on(objects: u32) -> Vec<u32> {
    let others = 2..2 * objects;
    [0].into_iter().chain(others).chain([1]).collect()
}

fn both_entries(tables: &mut Tables, name: &str, scene: &Scene, run: &[u32]) {
    let (batch, commands, rows) = scene.batch();
    let chip = scene.chip();
    let lent = Course {
        chip,
        looked_at: &looked_at(&batch),
        batch: &batch,
        rows,
        run,
        records: RECORD * commands,
        states: scene.objects(),
    };
    dwords(tables, input(name, "dwords", run.len()), &lent);
    let entries = [ffi::check_order, order::check_bytes];
    let [batch, looked_at, run] = [lent.batch, lent.looked_at, run].map(generate::bytes);
    let lent = Course {
        chip,
        batch: &batch,
        looked_at: &looked_at,
        rows,
        run: &run,
        records: 4 * lent.records,
        states: lent.states,
    };
    row(tables, input(name, "bytes", run.len() / 4), entries, &lent);
}

/// A row of the entries over dwords.
pub fn dwords(tables: &mut Tables, input: Input, lent: &Course<u32>) {
    let entries = [ffi::check_order_dwords, order::check];
    row(tables, input, entries, lent);
}

pub fn input(name: &str, entry: &'static str, size: usize) -> Input {
    Input {
        name: name.into(),
        entry,
        size,
        units: size,
    }
}

type Check<T> = fn(u32, &[T], u32, &[T], &mut [T], &mut [u8]) -> Answer;

/// What is lent to an entry: what it reads, and the lengths of what it writes.
pub struct Course<'a, T> {
    pub chip: u32,
    pub batch: &'a [T],
    /// The batch without inline data.
    pub looked_at: &'a [T],
    pub rows: u32,
    pub run: &'a [T],
    pub records: usize,
    pub states: usize,
}

fn row<T: Plain>(tables: &mut Tables, input: Input, entries: [Check<T>; 2], lent: &Course<T>) {
    // Unknown to the compiler, as in the batch's rows.
    let entries = black_box(entries);
    let (chip, rows) = (lent.chip, lent.rows);
    let mut batch = Lent::holding(lent.batch, 0);
    let mut looked_at = Lent::holding(lent.looked_at, 0);
    let mut run = Lent::holding(lent.run, 2048);
    let mut records = Lent::new(lent.records, 1024);
    let mut states = Lent::new(lent.states, 3072);
    let (batch, looked_at, run) = (batch.get(), looked_at.get(), run.get());
    let (records, states) = (records.get(), states.get());

    let expected = entries[1](chip, batch, rows, run, records, states);
    assert_eq!(expected.number, 0);
    let left = (records.to_vec(), states.to_vec());
    records.fill(T::default());
    states.fill(0);
    assert_eq!(
        entries[0](chip, batch, rows, run, records, states),
        expected
    );
    assert!(*records == left.0 && *states == left.1);

    tables.row(input, |side| {
        let answer = match side {
            Side::Library => entries[0](chip, batch, rows, run, records, states),
            Side::Second => entries[1](chip, batch, rows, run, records, states),
            Side::Limit => {
                limit::read(looked_at);
                limit::read(run);
                limit::store(records);
                limit::store(states);
                expected
            }
        };
        assert_eq!(answer, expected);
    });
}
