use super::*;
use std::collections::BTreeMap;

/// Chunks stand one after the other and end with the batch; one of them is the last.
#[test]
fn chunks_make_up_the_batch() {
    let random = (0..3_000).map(|index| random_case(&mut Random::for_case(12, index)));
    for case in random.chain(sweep(2)) {
        let answers = case.answers();
        let mut end = 0;
        for call in &case.calls[..=answers] {
            assert_eq!(call.chunk.start, end, "{}", case.sort);
            assert!(call.chunk.end >= end, "{}", case.sort);
            end = call.chunk.end;
        }
        assert_eq!(end, case.batch.len(), "{}", case.sort);
        for call in &case.calls[answers + 1..] {
            assert!(call.chunk.end <= case.batch.len());
        }
    }
}

/// All cuts of the shortest batches are there, and each sort on both chips.
#[test]
fn sweep_has_every_sort() {
    let mut counts: BTreeMap<(&str, u32), usize> = BTreeMap::new();
    for case in sweep(1) {
        let known = case.calls.iter().find(|call| known(call.chip));
        if let Some(call) = known {
            *counts.entry((case.sort, call.chip)).or_default() += 1;
        }
    }
    let sorts: Vec<&str> = counts.keys().map(|&(sort, _)| sort).collect();
    for sort in sorts {
        for chip in CHIPS {
            assert!(counts[&(sort, chip)] > 0, "{sort}, chip {chip}");
        }
    }
}
