use super::*;
use crate::batch::{check, decode, known};
use crate::generate::chunks::{random_case, sweep, Call, Case};
use crate::random::Random;

/// The worked example of document 01.
const EXAMPLE: [u32; 19] = [
    0x7000_0006,
    0,
    0x0007_0100,
    0,
    0x0002_0004,
    0,
    0,
    0,
    0x7002_0002,
    0,
    0x20,
    0x1000,
    0x7100_0004,
    0,
    0,
    0,
    0,
    0,
    0x0500_0000,
];

const UNTOUCHED: u32 = 0xa5a5_a5a5;

const CHIPS: [u32; 2] = [6, 7];

/// The rule said once more, as simply as can be: it keeps all dwords, asks the batch check
/// and makes all records anew in each call.
#[derive(Default)]
struct Oracle {
    dwords: Vec<u32>,
    no_chip: bool,
    answered: bool,
}

impl Oracle {
    fn feed(&mut self, call: &Call, chunk: &[u32], records: &mut [u32]) -> Option<Answer> {
        if self.answered {
            return Some(Answer::refused(19, 0));
        }
        self.dwords.extend(chunk);
        self.no_chip |= !known(call.chip);
        if !self.no_chip {
            let passed = passed(call.chip, &self.dwords, call.capacity);
            for (record, passed) in records.chunks_exact_mut(RECORD).zip(passed) {
                record.copy_from_slice(&passed);
            }
        }
        self.answered = call.last != 0;
        let mut records = vec![0; records.len()];
        match (self.answered, self.no_chip) {
            (false, _) => None,
            (true, true) => Some(Answer::refused(18, 0)),
            (true, false) => Some(check(call.chip, &self.dwords, call.capacity, &mut records)),
        }
    }
}

/// The records of the commands that have passed and end within the limit.
fn passed(chip: u32, dwords: &[u32], capacity: u32) -> Vec<[u32; RECORD]> {
    let within = &dwords[..dwords.len().min(LIMIT)];
    let mut room = vec![0; RECORD * within.len()];
    let answer = check(chip, within, capacity, &mut room);
    let place = answer.place as usize;
    let end = match answer.number {
        0 => answer.dwords as usize - 1,
        // A dword of the command.
        6 | 7 => starts(&within[..=place]).pop().expect("a command"),
        _ => place,
    };
    // END stands for what has not passed.
    let batch = [&within[..end], &[END]].concat();
    let mut records = vec![[0; RECORD]; starts(&batch).len()];
    match chip {
        6 => decode::<Gen6, u32>(&batch, &mut records),
        _ => decode::<Gen7, u32>(&batch, &mut records),
    }
    if answer.number != 0 {
        records.pop();
    }
    records
}

/// Where commands begin. All but the last have passed.
fn starts(batch: &[u32]) -> Vec<usize> {
    let mut starts = vec![0];
    loop {
        let place = starts[starts.len() - 1];
        let next = match batch.get(place) {
            Some(&header) if header >> 28 == 7 => place + batch::total(header),
            _ => place + 1,
        };
        if next >= batch.len() {
            return starts;
        }
        starts.push(next);
    }
}

/// Every call of a case, against the oracle; gives the number answered.
fn agree(case: &Case) -> u64 {
    let mut oracle = Oracle::default();
    let mut carried = Carried::START;
    let mut records = vec![UNTOUCHED; case.records()];
    let mut expected = records.clone();
    let mut number = None;
    for (at, call) in case.calls.iter().enumerate() {
        let chunk = &case.batch[call.chunk.clone()];
        let lent = &mut records[..call.records];
        let last = call.last != 0;
        let fed = feed(call.chip, carried, chunk, last, call.capacity, lent);
        let answer = oracle.feed(call, chunk, &mut expected[..call.records]);
        let about = || {
            let ends: Vec<usize> = case.calls.iter().map(|call| call.chunk.end).collect();
            format!(
                "{}, chip {}, call {at}, chunks end at {ends:?}",
                case.sort, call.chip
            )
        };
        assert_eq!(fed.answer, answer, "{}", about());
        assert!(records == expected, "records, {}", about());
        if answer == Some(Answer::refused(19, 0)) {
            assert_eq!(fed.carried, carried);
        }
        number = number.or(answer);
        carried = fed.carried;
    }
    number.expect("a last chunk").number
}

/// One chip, capacity and buffer, but for calls that name no chip.
fn is_for_the_oracle(case: &Case) -> bool {
    let unknown = |call: &Call| !known(call.chip);
    case.is_one() || case.calls.iter().any(unknown)
}

#[test]
fn cases_of_the_sweep_agree() {
    let mut reached = [0; 19];
    for (at, case) in sweep(1).iter().enumerate() {
        // Long ones take long here.
        let step = if case.batch.len() > 1_000 { 29 } else { 3 };
        if at % step == 0 && is_for_the_oracle(case) {
            reached[agree(case) as usize] += 1;
        }
    }
    for number in (0..=10).chain([18]) {
        assert!(reached[number] > 0, "{number}");
    }
}

#[test]
fn random_cases_agree() {
    let mut reached = [0; 19];
    for index in 0..10_000 {
        let case = random_case(&mut Random::for_case(11, index));
        if case.batch.len() < 1_000 {
            reached[agree(&case) as usize] += 1;
        }
    }
    for number in (0..=10).chain([18]) {
        assert!(reached[number] > 0 || number == 1, "{number}");
    }
}

/// Hands a batch over in chunks that end at these dwords, the last with its end; gives the
/// answer and the records.
fn in_chunks(
    chip: u32,
    batch: &[u32],
    cuts: &[usize],
    capacity: u32,
    words: usize,
) -> (Answer, Vec<u32>) {
    let mut carried = Carried::START;
    let mut records = vec![UNTOUCHED; words];
    let mut start = 0;
    for &cut in cuts {
        let chunk = &batch[start..cut];
        let fed = feed(chip, carried, chunk, false, capacity, &mut records);
        assert_eq!(fed.answer, None);
        (carried, start) = (fed.carried, cut);
    }
    let fed = feed(chip, carried, &batch[start..], true, capacity, &mut records);
    (fed.answer.expect("the last chunk answers"), records)
}

#[test]
fn worked_example() {
    let mut whole = vec![UNTOUCHED; 70];
    let accepted = check(7, &EXAMPLE, 6, &mut whole);
    for first in 0..=19 {
        for second in first..=19 {
            for chip in CHIPS {
                let given = in_chunks(chip, &EXAMPLE, &[first, second], 6, 70);
                assert_eq!(given, (accepted, whole.clone()));
                let (answer, records) = in_chunks(chip, &EXAMPLE, &[first, second], 5, 70);
                assert_eq!(answer, Answer::refused(9, 0));
                assert!(records.iter().all(|&word| word == UNTOUCHED));
            }
        }
    }
    let single: Vec<usize> = (1..19).collect();
    assert_eq!(
        in_chunks(7, &EXAMPLE, &single, 6, 70),
        (accepted, whole.clone())
    );
}

/// How many records were written.
fn written(records: &[u32]) -> usize {
    let written = records.iter().position(|&word| word == UNTOUCHED);
    let written = written.unwrap_or(records.len());
    assert!(records[written..].iter().all(|&word| word == UNTOUCHED));
    assert_eq!(written % RECORD, 0);
    written / RECORD
}

/// A command is judged when its last dword has come: 5 stands before 6 to 9, not before 4.
#[test]
fn a_command_cut_by_the_end() {
    let mut batch = EXAMPLE[..12].to_vec();
    batch.extend([0x7100_0008, 0x40, 0, 0, 0, 0, END, END, END, END]);
    for cut in 12..batch.len() {
        for end in cut..batch.len() {
            let (answer, records) = in_chunks(7, &batch[..end], &[cut], 6, 160);
            let expected = match end {
                12 => Answer::refused(2, 12),
                _ => Answer::refused(5, 12),
            };
            assert_eq!(answer, expected);
            assert_eq!(written(&records), 2);
        }
        let (answer, _) = in_chunks(7, &batch, &[cut], 6, 160);
        assert_eq!(answer, Answer::refused(6, 13));
    }
    batch[12] = 0x7100_0003;
    let (answer, _) = in_chunks(7, &batch[..13], &[13], 6, 160);
    assert_eq!(answer, Answer::refused(4, 12));
}

/// Records are written as commands pass.
#[test]
fn records_come_with_the_last_dword() {
    let mut carried = Carried::START;
    let mut records = vec![UNTOUCHED; 64];
    let mut counts = Vec::new();
    for dword in EXAMPLE.chunks(1) {
        let fed = feed(7, carried, dword, false, 6, &mut records);
        carried = fed.carried;
        counts.push(written(&records));
    }
    let expected = [[0; 7].as_slice(), &[1; 4], &[2; 6], &[3; 1], &[4; 1]].concat();
    assert_eq!(counts, expected);
    // Nothing after END is read, and an empty chunk may be the last.
    let fed = feed(7, carried, &[1, 1], false, 6, &mut records);
    let fed = feed(7, fed.carried, &[], true, 6, &mut records);
    assert_eq!(fed.answer, Some(Answer::accepted(4, 19)));
}

#[test]
fn refusal_1_goes_by_the_sum() {
    // END, then too many dwords, in one chunk or in many; the records stay.
    for cuts in [&[][..], &[1], &[0, 19, 19, LIMIT], &[LIMIT], &[LIMIT + 1]] {
        let mut batch = EXAMPLE.to_vec();
        batch.resize(LIMIT, 1);
        assert_eq!(in_chunks(7, &batch, &[], 6, 80).0, Answer::accepted(4, 19));
        batch.push(1);
        let (answer, records) = in_chunks(7, &batch, cuts, 6, 80);
        assert_eq!(answer, Answer::refused(1, 0));
        assert_eq!(written(&records), 4);
    }
    // A command that ends at the limit has its record, one that crosses it has none.
    let mut batch = EXAMPLE[..12].to_vec();
    for (total, count) in [(LIMIT - 12, 3), (LIMIT - 11, 2)] {
        batch.truncate(12);
        batch.push(0x7100_0000 | (total as u32 - 2));
        batch.resize(12 + total, 0);
        batch.extend([NOOP, END]);
        for cuts in [
            &[][..],
            &[13],
            &[14, 15_000, LIMIT - 1],
            &[LIMIT],
            &[LIMIT + 1],
        ] {
            let (answer, records) = in_chunks(7, &batch, cuts, 6, 160);
            assert_eq!(answer, Answer::refused(1, 0));
            assert_eq!(written(&records), count);
        }
    }
}

#[test]
fn refusal_10_keeps_those_that_fit() {
    for words in 0..=70 {
        for cut in 0..=19 {
            let (answer, records) = in_chunks(7, &EXAMPLE, &[cut], 6, words);
            let expected = match words {
                ..64 => Answer::refused(10, 19),
                _ => Answer::accepted(4, 19),
            };
            assert_eq!(answer, expected);
            assert_eq!(written(&records), (words / RECORD).min(4));
        }
    }
}

/// 18 comes from the last call alone, whichever call named no chip.
#[test]
fn refusal_18_unknown_chip() {
    for unknown in 0..3 {
        let mut carried = Carried::START;
        let mut records = vec![UNTOUCHED; 64];
        for (at, chunk) in [&EXAMPLE[..4], &EXAMPLE[4..12], &EXAMPLE[12..]]
            .iter()
            .enumerate()
        {
            let chip = if at == unknown { 8 } else { 7 };
            let fed = feed(chip, carried, chunk, at == 2, 6, &mut records);
            carried = fed.carried;
            let expected = (at == 2).then_some(Answer::refused(18, 0));
            assert_eq!(fed.answer, expected);
        }
        assert_eq!(written(&records), [0, 0, 2][unknown]);
    }
    // Before every other refusal.
    for batch in [&[][..], &[1], &vec![END; LIMIT + 1]] {
        let (answer, _) = in_chunks(0, batch, &[batch.len() / 2], 6, 64);
        assert_eq!(answer, Answer::refused(18, 0));
    }
}

/// 19 comes before 18, and changes nothing.
#[test]
fn refusal_19_after_an_answer() {
    let answered = Some(Answer::refused(19, 0));
    for (chip, batch) in [(7, &EXAMPLE[..]), (7, &EXAMPLE[..5]), (7, &[1]), (9, &[])] {
        let mut records = vec![UNTOUCHED; 64];
        let first = feed(chip, Carried::START, batch, true, 6, &mut records);
        assert_ne!(first.answer, answered);
        let left = records.clone();
        for (chip, chunk, last) in [
            (7, &EXAMPLE[..], true),
            (7, &[], false),
            (6, &[END], false),
            (9, &[END], true),
            (0, &[], false),
        ] {
            let fed = feed(chip, first.carried, chunk, last, 6, &mut records);
            assert_eq!((fed.carried, fed.answer), (first.carried, answered));
            assert_eq!(records, left);
        }
    }
}

/// Each call goes by the capacity, the chip and the record buffer that it is given.
#[test]
fn other_lendings() {
    let feed_both = |cut: usize, capacities: [u32; 2], rooms: [usize; 2]| {
        let mut records = vec![UNTOUCHED; 80];
        let [first, second] = [&EXAMPLE[..cut], &EXAMPLE[cut..]];
        let lent = &mut records[..rooms[0]];
        let fed = feed(7, Carried::START, first, false, capacities[0], lent);
        let lent = &mut records[..rooms[1]];
        let fed = feed(7, fed.carried, second, true, capacities[1], lent);
        (fed.answer.expect("last"), records)
    };
    // The VFE's last dword is the eighth.
    assert_eq!(feed_both(7, [5, 6], [80; 2]).0, Answer::accepted(4, 19));
    assert_eq!(feed_both(8, [5, 6], [80; 2]).0, Answer::refused(9, 0));
    assert_eq!(feed_both(8, [6, 5], [80; 2]).0, Answer::accepted(4, 19));
    // No room at first, then for all; or first for all, then for two.
    let (answer, records) = feed_both(12, [6; 2], [0, 64]);
    assert_eq!(answer, Answer::accepted(4, 19));
    assert!(records[..32].iter().all(|&word| word == UNTOUCHED));
    assert_eq!(written(&records[32..]), 2);
    let (answer, records) = feed_both(18, [6; 2], [64, 32]);
    assert_eq!(answer, Answer::refused(10, 19));
    assert_eq!(written(&records), 3);
    let (answer, records) = feed_both(18, [6; 2], [64, 16]);
    assert_eq!(answer, Answer::refused(10, 19));
    assert_eq!(written(&records), 3);
    // A gateway state passes on Gen6 alone.
    let batch = [&EXAMPLE[..12], &[0x7003_0000, 0, END]].concat();
    for (chips, number) in [([7, 6], 0), ([6, 6], 0), ([6, 7], 3), ([7, 7], 3)] {
        let mut records = vec![UNTOUCHED; 80];
        let fed = feed(
            chips[0],
            Carried::START,
            &batch[..12],
            false,
            6,
            &mut records,
        );
        let fed = feed(chips[1], fed.carried, &batch[12..], true, 6, &mut records);
        assert_eq!(fed.answer.expect("last").number, number);
    }
}

/// Where reading stands after each dword.
#[test]
fn progress_by_dwords() {
    let batch = [&EXAMPLE[..12], &[0x7100_0006, 0, 0, 0, 0, 0, 7, 8, END, 9]].concat();
    let mut carried = Carried::START;
    for (dword, word) in (0..).zip(&batch) {
        let place = [0, 8, 12, 20].into_iter().rfind(|&place| place <= dword);
        let place = place.expect("a command");
        let own = match place {
            20 => &[],
            _ => &batch[place as usize..dword.min(place + 6) as usize],
        };
        let progress = carried.progress().expect("reading goes on");
        if dword < 21 {
            assert_eq!((progress.stop, progress.place), (0, place));
            assert_eq!(progress.got, dword - place);
            assert_eq!(progress.own[..own.len()], *own);
        } else {
            assert_eq!((progress.stop, progress.place), (255, 21));
        }
        carried = feed(7, carried, &[*word], false, 6, &mut []).carried;
    }
    let refused = feed(7, Carried::START, &[NOOP, 1, 5], false, 6, &mut []);
    let progress = refused.carried.progress().expect("no answer");
    assert_eq!((progress.stop, progress.place), (3, 1));
    let answered = feed(7, carried, &[], true, 6, &mut []);
    assert_eq!(answered.carried.progress(), None);
}

/// The carried state holds no more than this, whatever the chunks held.
#[test]
fn the_carried_state_is_small() {
    assert!(size_of::<Carried>() <= 96);
}
