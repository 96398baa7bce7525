//! The deltas in play: library against second implementation.

use super::{Plan, Report};
use crate::ffi;
use crate::order;
use crate::random::Random;

/// The dwords in which the rule looks at bits: own use, enable, masks.
const OWN_USE: u32 = 1 << 21;
const ENABLE: u32 = 1 << 31;

/// Random triples in one case.
const TRIPLES: usize = 256;

/// Every pair of masks, for users and others, in dwords of any content; then
/// random dwords.
pub fn run(plan: &Plan, report: &mut Report) {
    if plan.only.is_some() {
        return;
    }
    let mut random = Random::new(plan.seed);
    for own_mask in 0..256 {
        report.case(agree((0..1024).map(|number| {
            let vfe_mask = number & 0xff;
            let own_use = if number >> 8 & 1 == 1 { OWN_USE } else { 0 };
            let enable = if number >> 9 & 1 == 1 { ENABLE } else { 0 };
            [
                random.word() & !OWN_USE | own_use,
                random.word() & !(ENABLE | 0xff) | enable | vfe_mask,
                random.word() & !0xff | own_mask,
            ]
        })));
    }
    for _ in 0..256 {
        report.case(agree((0..TRIPLES).map(|_| {
            // At times all bits but one, or one alone.
            [(); 3].map(|()| match random.below(4) {
                0 => 1 << random.below(32),
                1 => !(1 << random.below(32)),
                _ => random.word(),
            })
        })));
    }
}

/// Both implementations on each triple.
fn agree(mut triples: impl Iterator<Item = [u32; 3]>) -> Result<(), String> {
    let differ = triples.find_map(|[object_2, vfe_5, object_5]| {
        let library = ffi::deltas_in_play(object_2, vfe_5, object_5);
        let second = order::deltas_in_play(object_2, vfe_5, object_5);
        (library != second).then(|| {
            format!(
                "deltas in play of {object_2:x}, {vfe_5:x}, {object_5:x}: \
                 library {library:?}, second {second:?}"
            )
        })
    });
    differ.map_or(Ok(()), Err)
}
