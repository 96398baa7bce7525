use super::*;
use crate::{batch as checked, order as run, replay as replayed};

const CASES: u64 = 6_000;

/// How often each number is answered to these cases.
fn reached<C>(make: fn(&mut Random) -> C, number: fn(&C) -> usize) -> [usize; 40] {
    let mut reached = [0; 40];
    for index in 0..CASES {
        reached[number(&make(&mut Random::for_case(8, index)))] += 1;
    }
    reached
}

/// Neither all junk nor all sound: each number is met, but for 1, which takes a long batch.
#[test]
fn every_number_is_met() {
    let batches = reached(batch, |case| {
        let mut records = vec![0; case.record_bytes()];
        let batch = case.bytes();
        checked::check_bytes(case.chip, &batch, case.capacity, &mut records).number as usize
    });
    for number in [0].into_iter().chain(2..=10).chain([17, 18]) {
        assert!(batches[number] > 8, "{number}: {}", batches[number]);
    }
    let orders = reached(order, |case| {
        let mut records = vec![0; case.batch.record_bytes()];
        let mut states = vec![0; case.states];
        let crate::generate::batch::Case { chip, capacity, .. } = case.batch;
        let (batch, run) = (case.batch.bytes(), case.run_bytes());
        let answer = run::check_bytes(chip, &batch, capacity, &run, &mut records, &mut states);
        answer.number as usize
    });
    let numbers = [0].into_iter().chain(2..=10).chain([17, 18]).chain(20..=25);
    for number in numbers {
        assert!(orders[number] > 8, "{number}: {}", orders[number]);
    }
    let recordings = reached(recording, |case| {
        let mut registers = vec![0; case.registers];
        let mut counts = vec![0; case.counts];
        let mut outcomes = vec![0; case.outcomes];
        replayed::replay(&case.recording, &mut registers, &mut counts, &mut outcomes).number
            as usize
    });
    for number in [0].into_iter().chain(11..=16) {
        assert!(recordings[number] > 8, "{number}: {}", recordings[number]);
    }
}
