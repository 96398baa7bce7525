//! A batch that comes in parts, on Gen7: time per dword, and how much more than the batch
//! check over dwords takes for the same batch at once.

use crate::batch::{looked_at, objects, repeat, CAPACITY};
use crate::limit;
use crate::table::{Input, Shape, Tables};
use crate::timing::{Lent, Side};
use crosscheck::batch::{self, Answer, NOOP, RECORD};
use crosscheck::chunks::{self, Carried};
use crosscheck::ffi;
use std::hint::black_box;

/// About how many dwords a batch has.
const SIZES: [usize; 2] = [4_000, 16_000];

const CHIP: u32 = 7;

pub fn run(tables: &mut Tables) {
    let shape = Shape::Parts {
        size: "dwords",
        unit: "dword",
    };
    tables.head("chunks", shape);
    for size in SIZES {
        rows(tables, "picture, OBJECTs of 9 dwords", &objects(size, 3));
    }
    for size in SIZES {
        let batch = objects(size, 500);
        rows(tables, "OBJECTs with 500 inline dwords", &batch);
    }
    for size in SIZES {
        rows(tables, "no-ops", &repeat(size, &[], &[NOOP]));
    }
}

/// The batch at once, then in chunks.
fn rows(tables: &mut Tables, name: &str, batch: &[u32]) {
    row(tables, name, "at once", batch, None);
    let ways = [("1 chunk", batch.len()), ("1024", 1024), ("64", 64)];
    for (entry, chunk) in ways {
        row(tables, name, entry, batch, Some(chunk));
    }
}

fn row(tables: &mut Tables, name: &str, entry: &'static str, batch: &[u32], chunk: Option<usize>) {
    let looked_at = looked_at(batch);
    let mut lent = Lent::holding(batch, 0);
    let mut looked_at = Lent::holding(&looked_at, 0);
    let mut records = Lent::new(RECORD * batch.len(), 1024);
    let (batch, looked_at, records) = (lent.get(), looked_at.get(), records.get());

    let expected = batch::check(CHIP, batch, CAPACITY, records);
    assert_eq!(expected.number, 0);
    let filled = RECORD * expected.commands as usize;
    let left = records.to_vec();
    for hand_over in [by_library, by_second] {
        records.fill(0);
        assert_eq!(hand_over(batch, chunk, records), expected);
        assert!(*records == left);
    }

    let input = Input {
        name: name.into(),
        entry,
        size: batch.len(),
        units: expected.dwords as usize,
    };
    tables.row(input, |side| {
        let answer = match side {
            Side::Library => by_library(batch, chunk, records),
            Side::Second => by_second(batch, chunk, records),
            Side::Limit => {
                limit::read(looked_at);
                limit::store(&mut records[..filled]);
                expected
            }
        };
        assert_eq!(answer, expected);
    });
}

/// At once, where no chunk's size is given.
fn by_library(batch: &[u32], chunk: Option<usize>, records: &mut [u32]) -> Answer {
    let Some(chunk) = chunk else {
        return black_box(ffi::check_batch_dwords)(CHIP, batch, CAPACITY, records);
    };
    let mut carried = ffi::chunks::Carried::default();
    let mut rest = batch;
    loop {
        let (chunk, next) = rest.split_at(chunk.min(rest.len()));
        let last = u32::from(next.is_empty());
        let fed = ffi::chunks::feed(CHIP, &carried, chunk, last, CAPACITY, records);
        if fed.more == 0 {
            return fed.answer;
        }
        (carried, rest) = (fed.carried, next);
    }
}

fn by_second(batch: &[u32], chunk: Option<usize>, records: &mut [u32]) -> Answer {
    let Some(chunk) = chunk else {
        return black_box(batch::check as Check)(CHIP, batch, CAPACITY, records);
    };
    // Unknown to the compiler, as the library's code is anyway.
    let feed = black_box(chunks::feed as Feed);
    let mut carried = Carried::START;
    let mut rest = batch;
    loop {
        let (chunk, next) = rest.split_at(chunk.min(rest.len()));
        let fed = feed(CHIP, carried, chunk, next.is_empty(), CAPACITY, records);
        if let Some(answer) = fed.answer {
            return answer;
        }
        (carried, rest) = (fed.carried, next);
    }
}

type Check = fn(u32, &[u32], u32, &mut [u32]) -> Answer;
type Feed = fn(u32, Carried, &[u32], bool, u32, &mut [u32]) -> chunks::Fed;
