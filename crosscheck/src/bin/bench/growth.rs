//! What a run costs at worst: runs that make the order check look at many objects for
//! each start, over n, 2n and 4n objects, the last as many as a batch can hold.

use crate::order::{at_once, dwords, far, first_runs_on, near, reversed, reversed_at_once};
use crate::order::{Course, FREE};
use crate::table::{Input, Shape, Tables};
use crosscheck::batch::RECORD;
use crosscheck::generate::order::{field, field_with_gaps, Scene};

/// Four times this many OBJECTs of 6 dwords, with VFE, descriptor load and END, fill a
/// batch.
const OBJECTS: usize = 682;

pub fn run(tables: &mut Tables) {
    let shape = Shape::Growth { size: "objects" };
    tables.head("growth of the order check", shape);
    let mut grow = |name: &str, scene: fn(usize) -> Scene, run: fn(u32) -> Vec<u32>| {
        for times in [1, 2, 4] {
            let scene = scene(times * OBJECTS);
            let (batch, commands, rows) = scene.batch();
            let objects = scene.objects();
            let lent = Course {
                chip: scene.chip(),
                batch: &batch,
                looked_at: &batch,
                rows,
                run: &run(objects as u32),
                records: RECORD * commands,
                states: objects,
            };
            let input = Input {
                name: name.into(),
                entry: "dwords",
                size: objects,
                units: 1,
            };
            dwords(tables, input, &lent);
        }
    };
    let apart = |objects| field(objects, FREE, far);
    let together = |objects| field(objects, FREE, near);
    // Half of the batch is no-ops, between the first objects and the others.
    let gap = |objects| field_with_gaps(objects / 2, &[3 * objects], FREE, far);
    let gaps = |objects| field_with_gaps(objects / 2, &[objects, objects, objects], FREE, far);
    grow("all at once, far apart", apart, at_once);
    grow("all at once, near each other", together, at_once);
    let name = "reversed, all at once, near each other";
    grow(name, together, reversed_at_once);
    let name = "reversed, one by one, near each other";
    grow(name, together, reversed);
    grow("object 0 runs on", apart, first_runs_on);
    grow("object 0 runs on, no-ops after it", gap, first_runs_on);
    grow("all at once, no-ops after object 0", gap, at_once);
    grow("all at once, no-ops after 0, 1 and 2", gaps, at_once);
    grow("reversed, one by one, no-ops after 0", gap, reversed);
}
