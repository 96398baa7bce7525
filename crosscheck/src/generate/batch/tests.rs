use super::vfes::changed;
use super::*;
use crate::batch::{check, check_bytes, Answer};

#[test]
fn valid_batches_pass() {
    let mut random = Random::new(1);
    for round in 0..4000 {
        let mix = any_mix(&mut random);
        let dwords = match round % 500 {
            0 => random.between(1000, LIMIT),
            _ => size(&mut random),
        };
        let most_rows = random.pick(&[0, 2048, u32::MAX]);
        let chip = random.pick(&CHIPS);
        let commands = Draft::valid(&mut random, chip, mix, dwords, most_rows).commands;
        assert!(rows(&commands) <= most_rows);
        let mut records = vec![0; RECORD * commands.len()];
        let answer = check(chip, &flat(&commands), rows(&commands), &mut records);
        assert_eq!(answer, Answer::accepted(commands.len(), dwords));
    }
}

/// Every bit that its chip judges stands in the sweep as the only fault of its batch.
#[test]
fn sweep_meets_every_must_be_zero_bit() {
    let cases = sweep(1);
    for chip in CHIPS {
        let of_chip = cases.iter().filter(|case| case.chip == chip);
        assert_eq!(met_alone(chip, of_chip), *masks::of(chip));
    }
}

/// The must-be-zero bits that stand as the only difference to the chip's base.
fn met_alone<'a>(chip: u32, cases: impl Iterator<Item = &'a Case>) -> [masks::Masks; KINDS] {
    let base = base(chip);
    let whole = flat(&base);
    let starts: Vec<usize> = base
        .iter()
        .scan(0, |at, command| {
            let start = *at;
            *at += command.words.len();
            Some(start)
        })
        .collect();
    let mut met = [[0; masks::FIXED_DWORDS]; KINDS];
    for case in cases {
        if case.batch.len() != whole.len() {
            continue;
        }
        let stray: Vec<usize> = (0..whole.len())
            .filter(|&at| case.batch[at] != whole[at])
            .collect();
        let &[place] = stray.as_slice() else { continue };
        let bit = case.batch[place] ^ whole[place];
        let at = starts.partition_point(|&start| start <= place) - 1;
        let (kind, dword) = (base[at].kind, place - starts[at]);
        if bit.count_ones() == 1 && bit & masks::of(chip)[kind][dword] != 0 {
            let mut records = vec![0; case.records];
            let answer = check(chip, &case.batch, case.capacity, &mut records);
            assert_eq!(answer, Answer::refused(6, place));
            met[kind][dword] |= bit;
        }
    }
    met
}

/// Every bit of a second VFE stands in the sweep as its only difference to the first, with
/// nothing but a state flush between.
#[test]
fn sweep_meets_every_bit_of_a_second_vfe() {
    let mut met = [[0; 8]; CHIPS.len()];
    for case in sweep(1) {
        let chip = CHIPS.iter().position(|&chip| chip == case.chip);
        let (Some(chip), Some(words)) = (chip, case.batch.first_chunk::<18>()) else {
            continue;
        };
        let changed: [u32; 8] = std::array::from_fn(|dword| words[dword] ^ words[10 + dword]);
        let bits: u32 = changed.iter().map(|bits| bits.count_ones()).sum();
        if words[0] == HEADERS[3] && words[8] == HEADERS[6] && bits == 1 {
            for (met, bits) in met[chip].iter_mut().zip(changed) {
                *met |= bits;
            }
        }
    }
    assert_eq!(met, [[u32::MAX; 8]; CHIPS.len()]);
}

/// Rule 8 of a VFE in the papers' words, over commands of which nothing else is at fault.
/// What passes by the rule of document 01 alone passes still.
#[test]
fn vfes_are_judged_alike() {
    let mut reached = [0; 3];
    for index in 0..4000 {
        let random = &mut Random::for_case(10, index);
        let chip = random.pick(&CHIPS);
        let dwords = random.between(20, 150);
        let mut commands = Draft::valid(random, chip, Mix::All, dwords, u32::MAX).commands;
        for command in &mut commands {
            match command.kind {
                // One flush for the other.
                1 | 6 if random.one_in(4) => *command = Command::plain(7 - command.kind),
                // Not dword 4: it may turn a CURBE load away.
                3 if random.one_in(6) => {
                    let dword = random.pick(&[1, 2, 3, 5, 6, 7]);
                    *command = changed(random, chip, command, dword);
                }
                _ => {}
            }
        }
        let first_refused = |rule: fn(&[Command], &Command) -> bool| {
            let mut vfes = (0..commands.len()).filter(|&at| commands[at].kind == 3);
            vfes.find(|&at| !rule(&commands[..at], &commands[at]))
        };
        let batch = flat(&commands);
        let expected = match first_refused(passes) {
            Some(at) => Answer::refused(8, flat(&commands[..at]).len()),
            None => Answer::accepted(commands.len(), batch.len()),
        };
        let mut records = vec![0; RECORD * commands.len()];
        let answer = check(chip, &batch, u32::MAX, &mut records);
        assert_eq!(answer, expected, "case {index}");
        let before = first_refused(|before, _| !stands(before, &[1]));
        reached[match (before, answer.number) {
            (None, number) => {
                assert_eq!(number, 0);
                0
            }
            (Some(_), 0) => 1,
            _ => 2,
        }] += 1;
    }
    assert!(reached.iter().all(|&count| count > 400), "{reached:?}");
}

/// Whether a VFE passes 8 after these commands.
fn passes(before: &[Command], vfe: &Command) -> bool {
    let in_force = before.iter().rev().find(|command| command.kind == 3);
    let only_scoreboard = in_force.is_some_and(|other| other.words[..5] == vfe.words[..5]);
    !stands(before, &[1]) || only_scoreboard && !stands(before, &[1, 6])
}

/// Whether a command of kind 3, 4, 5, 7 or 8 stands since the last one of these kinds.
fn stands(before: &[Command], flushes: &[usize]) -> bool {
    let since = before.iter().rev();
    let mut since = since.take_while(|command| !flushes.contains(&command.kind));
    since.any(|command| matches!(command.kind, 3 | 4 | 5 | 7 | 8))
}

/// The numbers that a chip's cases of the sweep get, over dwords and over bytes.
#[test]
fn sweep_reaches_every_number() {
    let mut dwords = [[0; 19]; 3];
    let mut bytes = [[0; 19]; 3];
    for case in sweep(1) {
        let chip = CHIPS
            .iter()
            .position(|&chip| chip == case.chip)
            .unwrap_or(2);
        let mut records = vec![0; case.records];
        let answer = check(case.chip, &case.batch, case.capacity, &mut records);
        dwords[chip][answer.number as usize] += 1;
        let mut records = vec![0; case.record_bytes()];
        let answer = check_bytes(case.chip, &case.bytes(), case.capacity, &mut records);
        bytes[chip][answer.number as usize] += 1;
    }
    for chip in 0..2 {
        for number in 0..=10 {
            assert!(
                dwords[chip][number] > 0 && bytes[chip][number] > 0,
                "{number}"
            );
        }
        assert!(bytes[chip][17] > 0);
        assert_eq!(
            [dwords[chip][17], dwords[chip][18], bytes[chip][18]],
            [0; 3]
        );
    }
    // Where the number names no chip, it is 18 alone.
    for numbers in [dwords[2], bytes[2]] {
        assert!(numbers[18] > 0);
        assert_eq!(numbers.iter().sum::<usize>(), numbers[18]);
    }
}

/// Chips differ in their masks and in kind 8 alone: a batch that one accepts is accepted
/// by the other with the same records, or refused with 6, or with 3 at kind 8.
#[test]
fn accepted_batches_have_one_reading() {
    let mut on_both = 0;
    for index in 0..20_000 {
        let case = random_case(&mut Random::for_case(9, index));
        let [first, second] = CHIPS.map(|chip| {
            let mut records = vec![7; case.records];
            let answer = check(chip, &case.batch, case.capacity, &mut records);
            (answer, records)
        });
        match (first.0.number, second.0.number) {
            (0, 0) => {
                assert_eq!(first, second);
                on_both += 1;
            }
            (0, number) => {
                let header = case.batch[second.0.place as usize] >> 16;
                assert!(number == 6 || number == 3 && header == GATEWAY);
            }
            (number, 0) => assert_eq!(number, 6),
            _ => {}
        }
    }
    assert!(on_both > 500, "{on_both}");
}
