use super::*;
use crate::order::{check, check_bytes};

/// The number that the order check over dwords gives to a batch of the pair.
fn number(case: &Case, batch: &[u32]) -> u64 {
    let mut records = vec![0; case.batch.records];
    let mut states = vec![9; case.states];
    let batch::Case { chip, capacity, .. } = case.batch;
    check(chip, batch, capacity, &case.run, &mut records, &mut states).number
}

/// The same over bytes.
fn number_of_bytes(case: &Case) -> u64 {
    let mut records = vec![0; case.batch.record_bytes()];
    let mut states = vec![9; case.states];
    let (batch, run) = (case.batch.bytes(), case.run_bytes());
    let batch::Case { chip, capacity, .. } = case.batch;
    check_bytes(chip, &batch, capacity, &run, &mut records, &mut states).number
}

/// The fixed pairs alone reach every number on both chips, and every one of them differs.
#[test]
fn sweep_reaches_every_number() {
    let mut dwords = [[0; 26]; 3];
    let mut bytes = [[0; 26]; 3];
    for pair in sweep(1) {
        let first = &pair.first;
        assert!(pair.differing() > 0);
        let named = |&chip: &u32| chip == first.batch.chip;
        let chip = CHIPS.iter().position(named).unwrap_or(2);
        dwords[chip][number(first, &first.batch.batch) as usize] += 1;
        bytes[chip][number_of_bytes(first) as usize] += 1;
    }
    for chip in 0..2 {
        for number in (0..=10).chain(20..=25) {
            assert!(
                dwords[chip][number] > 0 && bytes[chip][number] > 0,
                "{number}"
            );
        }
        assert!(bytes[chip][17] > 0);
    }
    assert!(dwords[2][18] > 0 && bytes[2][18] > 0);
}

/// Nothing but inline data of OBJECTs passed in the first differs, and both pass the same.
#[test]
fn pairs_differ_as_allowed() {
    let random = (0..2000).map(|index| random_case(&mut Random::for_case(2, index)));
    for pair in random.chain(sweep(2)) {
        let (first, second) = (&pair.first.batch.batch, &pair.second);
        let batch::Case { chip, capacity, .. } = pair.first.batch;
        assert_eq!(first.len(), second.len());
        if !known(chip) {
            assert_eq!(number(&pair.first, second), 18);
            continue;
        }
        let passed = passed_inline_data(chip, first, capacity);
        assert_eq!(passed_inline_data(chip, second, capacity), passed);
        let mut inline = vec![false; first.len()];
        for at in passed.into_iter().flatten() {
            inline[at] = true;
        }
        assert!((0..first.len()).all(|at| inline[at] || first[at] == second[at]));
        assert_eq!(number(&pair.first, first), number(&pair.first, second));
    }
}
