//! The batch check, by kind of command: time per dword, on Gen7 where the row names no
//! chip. Buffers are not cleared between calls: each call overwrites every record that it
//! fills.

use crate::limit::{self, Plain};
use crate::table::{Input, Shape, Tables};
use crate::timing::{Lent, Side};
use crosscheck::batch::{
    self, Answer, CURBE, DESCRIPTOR, END, FLUSH, GATEWAY, NOOP, OBJECT, RECORD, STATE_FLUSH, VFE,
};
use crosscheck::ffi;
use crosscheck::generate;
use crosscheck::masks::FIXED_DWORDS;
use std::hint::black_box;

pub const CAPACITY: u32 = 2048;

/// About how many dwords a batch has.
const SIZES: [usize; 3] = [1_000, 4_000, 16_000];

const VFE_STATE: [u32; 8] = [VFE << 16 | 6, 0, 0x0007_4000, 0, 0x0002_0004, 0, 0, 0];
const CURBE_LOAD: [u32; 4] = [CURBE << 16 | 2, 0, 96, 0x2000];
const DESCRIPTOR_LOAD: [u32; 4] = [DESCRIPTOR << 16 | 2, 0, 32, 0x1000];
const GATEWAY_STATE: [u32; 2] = [GATEWAY << 16, 0x0003_0208];

pub fn run(tables: &mut Tables) {
    let shape = Shape::PerUnit {
        size: "dwords",
        unit: "dword",
    };
    tables.head("batch", shape);
    let mut sizes = |chip, name, batch: &dyn Fn(usize) -> Vec<u32>| {
        for size in SIZES {
            both_entries(tables, chip, name, &batch(size));
        }
    };
    let picture = |size| objects(size, 3);
    sizes(7, "picture, OBJECTs of 9 dwords", &picture);
    sizes(6, "picture, OBJECTs of 9 dwords, Gen6", &picture);
    sizes(7, "OBJECTs without inline data", &|size| objects(size, 0));
    sizes(7, "OBJECTs with 500 inline dwords", &|size| {
        objects(size, 500)
    });
    sizes(7, "VFE and MI_FLUSH in turn", &|size| {
        let mut pair = VFE_STATE.to_vec();
        pair.push(FLUSH);
        repeat(size, &[], &pair)
    });
    sizes(7, "VFE and state flush in turn", &|size| {
        // From one VFE to the next a delta changes, and nothing else.
        let flush = [STATE_FLUSH << 16, 0];
        let mut other = VFE_STATE;
        other[6] = 0xff;
        let pairs = [&VFE_STATE[..], &flush, &other, &flush].concat();
        repeat(size, &[], &pairs)
    });
    sizes(7, "CURBE loads", &|size| {
        repeat(size, &VFE_STATE, &CURBE_LOAD)
    });
    sizes(7, "descriptor loads", &|size| {
        repeat(size, &VFE_STATE, &DESCRIPTOR_LOAD)
    });
    sizes(7, "state flushes", &|size| {
        repeat(size, &[], &[STATE_FLUSH << 16, 1])
    });
    sizes(6, "gateway states, Gen6", &|size| {
        repeat(size, &VFE_STATE, &GATEWAY_STATE)
    });
    sizes(7, "MI_FLUSH", &|size| repeat(size, &[], &[FLUSH]));
    sizes(7, "no-ops", &|size| repeat(size, &[], &[NOOP]));
    for (chip, name) in [(7, "all kinds mixed"), (6, "all kinds mixed, Gen6")] {
        sizes(chip, name, &|size| {
            generate::batch::mixed(chip, size, CAPACITY)
        });
    }
    // Nothing after it is read, so the time is that of a call.
    for size in [1, SIZES[0], SIZES[2]] {
        let mut batch = vec![NOOP; size];
        batch[0] = END;
        both_entries(tables, 7, "END alone, others after it", &batch);
    }
}

/// As many OBJECTs as come nearest to the size.
pub fn objects(size: usize, inline: u32) -> Vec<u32> {
    let total = 6 + inline as usize;
    let start = [&VFE_STATE[..], &DESCRIPTOR_LOAD].concat();
    let count = (size - start.len() - 1 + total / 2) / total;
    let mut batch = start;
    for object in 0..count as u32 {
        let (x, y) = (object % 45, object / 45);
        batch.extend([
            OBJECT << 16 | (4 + inline),
            0,
            1 << 21,
            0,
            y << 16 | x,
            0xff,
        ]);
        batch.extend((0..inline).map(|word| word ^ CURBE << 16));
    }
    batch.push(END);
    batch
}

/// A start, a command or two again and again, and END, in no more dwords than the size.
pub fn repeat(size: usize, start: &[u32], again: &[u32]) -> Vec<u32> {
    let count = (size - start.len() - 1) / again.len();
    [start, &again.repeat(count), &[END]].concat()
}

/// What must be read of a batch: its commands without inline data.
pub fn looked_at(batch: &[u32]) -> Vec<u32> {
    let mut looked_at = Vec::new();
    let mut rest = batch;
    loop {
        let total = match rest[0] >> 16 {
            0x7000..=0x7100 => (rest[0] & 0xffff) as usize + 2,
            _ => 1,
        };
        let fixed = if rest[0] >> 16 == OBJECT { 6 } else { total };
        assert!(fixed <= FIXED_DWORDS);
        looked_at.extend(&rest[..fixed]);
        if rest[0] == END {
            return looked_at;
        }
        rest = &rest[total..];
    }
}

fn both_entries(tables: &mut Tables, chip: u32, name: &str, batch: &[u32]) {
    let looked_at = looked_at(batch);
    let lent = Pieces {
        chip,
        batch,
        looked_at: &looked_at,
        record: RECORD,
    };
    let entries = [ffi::check_batch_dwords, batch::check];
    row(tables, name, "dwords", entries, &lent);
    let [batch, looked_at] = [batch, &looked_at].map(generate::bytes);
    let lent = Pieces {
        chip,
        batch: &batch,
        looked_at: &looked_at,
        record: 4 * RECORD,
    };
    let entries = [ffi::check_batch, batch::check_bytes];
    row(tables, name, "bytes", entries, &lent);
}

type Check<T> = fn(u32, &[T], u32, &mut [T]) -> Answer;

/// What is lent to an entry.
struct Pieces<'a, T> {
    chip: u32,
    batch: &'a [T],
    /// The batch without inline data.
    looked_at: &'a [T],
    /// Cells in a record.
    record: usize,
}

fn row<T: Plain>(
    tables: &mut Tables,
    name: &str,
    entry: &'static str,
    entries: [Check<T>; 2],
    lent: &Pieces<T>,
) {
    // Unknown to the compiler, as the library's code is anyway: neither entry is
    // inlined into the loop or fitted to its arguments.
    let entries = black_box(entries);
    let chip = lent.chip;
    // Room for a record per dword is enough for any batch.
    let size = size_of_val(lent.batch) / 4;
    let mut batch = Lent::holding(lent.batch, 0);
    let mut looked_at = Lent::holding(lent.looked_at, 0);
    let mut records = Lent::new(lent.record * size, 1024);
    let (batch, looked_at, records) = (batch.get(), looked_at.get(), records.get());

    let expected = entries[1](chip, batch, CAPACITY, records);
    assert_eq!(expected.number, 0);
    let filled = lent.record * expected.commands as usize;
    let left = records.to_vec();
    records.fill(T::default());
    assert_eq!(entries[0](chip, batch, CAPACITY, records), expected);
    assert!(records == left);

    let input = Input {
        name: name.into(),
        entry,
        size,
        units: expected.dwords as usize,
    };
    tables.row(input, |side| {
        let answer = match side {
            Side::Library => entries[0](chip, batch, CAPACITY, records),
            Side::Second => entries[1](chip, batch, CAPACITY, records),
            Side::Limit => {
                limit::read(looked_at);
                limit::store(&mut records[..filled]);
                expected
            }
        };
        assert_eq!(answer, expected);
    });
}
