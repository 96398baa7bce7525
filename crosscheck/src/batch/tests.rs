use super::*;

/// The worked example of document 01.
const EXAMPLE: [u32; 19] = [
    0x7000_0006,
    0,
    0x0007_0100,
    0,
    0x0002_0004,
    0,
    0,
    0,
    0x7002_0002,
    0,
    0x20,
    0x1000,
    0x7100_0004,
    0,
    0,
    0,
    0,
    0,
    0x0500_0000,
];

const UNTOUCHED: u32 = 0xa5a5_a5a5;

const CHIPS: [u32; 2] = [6, 7];

/// Runs both entries and demands that they agree; on refusal nothing may change.
fn run_on(chip: u32, batch: &[u32], capacity: u32, words: usize) -> (Answer, Vec<u32>) {
    let mut records = vec![UNTOUCHED; words];
    let answer = check(chip, batch, capacity, &mut records);

    let bytes: Vec<u8> = batch.iter().flat_map(|word| word.to_le_bytes()).collect();
    let mut record_bytes = vec![0xa5; words * 4];
    let over_bytes = check_bytes(chip, &bytes, capacity, &mut record_bytes);
    assert_eq!(over_bytes, answer);
    let same: Vec<u8> = records.iter().flat_map(|word| word.to_le_bytes()).collect();
    assert_eq!(record_bytes, same);

    let written = answer.commands as usize * RECORD;
    assert!(records[written..].iter().all(|&word| word == UNTOUCHED));
    (answer, records)
}

/// On both chips, which must agree.
fn run(batch: &[u32], capacity: u32, words: usize) -> (Answer, Vec<u32>) {
    let [on_6, on_7] = CHIPS.map(|chip| run_on(chip, batch, capacity, words));
    assert_eq!(on_6, on_7);
    on_7
}

fn answer(batch: &[u32]) -> (u64, u64) {
    let (answer, _) = run(batch, 2048, RECORD * 64);
    (answer.number, answer.place)
}

/// On one chip.
fn answer_on(chip: u32, batch: &[u32]) -> (u64, u64) {
    let (answer, _) = run_on(chip, batch, 2048, RECORD * 64);
    (answer.number, answer.place)
}

/// The example with one dword changed.
fn with(place: usize, word: u32) -> Vec<u32> {
    let mut batch = EXAMPLE.to_vec();
    batch[place] = word;
    batch
}

/// The example's commands put together in another order.
fn sequence(commands: &[&[u32]]) -> Vec<u32> {
    commands.concat()
}

const A_VFE: &[u32] = &[0x7000_0006, 0, 0x0007_0100, 0, 0x0002_0004, 0, 0, 0];
/// It differs in the thread field.
const ANOTHER_VFE: &[u32] = &[0x7000_0006, 0, 0x0006_0100, 0, 0x0002_0004, 0, 0, 0];
/// It differs in a delta.
const A_SCOREBOARD: &[u32] = &[0x7000_0006, 0, 0x0007_0100, 0, 0x0002_0004, 0, 0x10, 0];
const A_CURBE: &[u32] = &[0x7001_0002, 0, 128, 0];
const A_LOAD: &[u32] = &[0x7002_0002, 0, 0x20, 0x1000];
const A_STATE_FLUSH: &[u32] = &[0x7004_0000, 0];
const AN_OBJECT: &[u32] = &[0x7100_0004, 0, 0, 0, 0, 0];
const A_GATEWAY: &[u32] = &[0x7003_0000, 0x0003_0208];
const A_FLUSH: &[u32] = &[FLUSH];
const THE_END: &[u32] = &[END];

#[test]
fn worked_example() {
    for capacity in [6, 7, 2048, u32::MAX] {
        let (answer, records) = run(&EXAMPLE, capacity, 70);
        assert_eq!(answer, Answer::accepted(4, 19));
        let heads: Vec<&[u32]> = records[..64]
            .chunks(16)
            .map(|record| &record[..3])
            .collect();
        assert_eq!(heads, [[3, 0, 8], [5, 8, 4], [7, 12, 6], [2, 18, 1]]);
    }
    assert_eq!(run(&EXAMPLE, 5, 70).0, Answer::refused(9, 0));
    assert_eq!(run(&[], 2048, 70).0, Answer::refused(2, 0));
}

/// Every field full, but for the bits that Gen7 judges.
#[test]
fn records_of_gen7() {
    let batch = sequence(&[
        &[NOOP],
        &[
            0x7000_0006,
            0xffff_fc0f,
            0xabcd_12ff,
            0xffff_ff00,
            0x0003_0009,
            0xc000_00ff,
            0x8765_4321,
            0xfedc_ba98,
        ],
        &[0x7001_0002, 0, 288, 0xffff_ffe0],
        &[0x7002_0002, 0, 2048, 0x20],
        &[0x7004_0000, 0x17f & !0x80],
        &[
            0x7100_0006,
            0xffff_ff3f,
            0x8127_ffff,
            0x1fff_ffff,
            0x01ff_01fe,
            0x000a_00bc,
            END,
            END,
        ],
        A_FLUSH,
        THE_END,
    ]);
    let (answer, records) = run_on(7, &batch, 63, 8 * RECORD);
    assert_eq!(answer, Answer::accepted(8, 29));
    // Bits 4:2 of the VFE's dword 2.
    assert_eq!(answer_on(6, &batch), (6, 3));
    let expected: [&[u32]; 8] = [
        &[0, 0, 1],
        &[
            3,
            1,
            8,
            0xabcd,
            0x12,
            1,
            3,
            9,
            0xc000_00ff,
            0x8765_4321,
            0xfedc_ba98,
        ],
        &[4, 9, 4, 288, 0xffff_ffe0],
        &[5, 13, 4, 64, 0x20],
        &[6, 17, 2, 0x17f & !0x80],
        &[
            7,
            19,
            8,
            0x3f,
            1,
            1,
            1,
            0x1fe,
            0x1ff,
            0xa,
            0xbc,
            2,
            0x1_ffff,
            0x1fff_ffff,
            1,
            0,
        ],
        &[1, 27, 1],
        &[2, 28, 1],
    ];
    assert_records(&records, &expected);
}

/// What each record holds, zeros after it.
fn assert_records(records: &[u32], expected: &[&[u32]]) {
    assert_eq!(records.len(), RECORD * expected.len());
    for (record, expected) in records.chunks(RECORD).zip(expected) {
        assert_eq!(&record[..expected.len()], *expected);
        assert!(record[expected.len()..].iter().all(|&word| word == 0));
    }
}

/// The same of Gen6.
#[test]
fn records_of_gen6() {
    let batch = sequence(&[
        &[
            0x7000_0006,
            0xffff_fcff,
            0xabcd_12e3,
            0xffff_ff00,
            0x0003_0009,
            0xc000_00ff,
            0x8765_4321,
            0xfedc_ba98,
        ],
        &[0x7003_0000, 0x00ff_ffff],
        &[0x7003_0000, 0],
        &[0x7002_0002, 0, 2048, 0x20],
        &[0x7004_0000, 0x00ff_ffff],
        &[
            0x7100_0005,
            0xffff_ff3f,
            0x812f_ffff,
            0x1fff_ffff,
            0x01ff_01fe,
            0x000a_00bc,
            END,
        ],
        THE_END,
    ]);
    let (answer, records) = run_on(6, &batch, 63, 7 * RECORD);
    assert_eq!(answer, Answer::accepted(7, 26));
    // Bits 7:4 of the VFE's dword 1.
    assert_eq!(answer_on(7, &batch), (6, 1));
    let vfe = [
        3,
        0,
        8,
        0xabcd,
        0x12,
        1,
        3,
        9,
        0xc000_00ff,
        0x8765_4321,
        0xfedc_ba98,
    ];
    let object = [
        7,
        18,
        7,
        0x3f,
        1,
        1,
        1,
        0x1fe,
        0x1ff,
        0xa,
        0xbc,
        1,
        0x1_ffff,
        0x1fff_ffff,
        0,
        0,
    ];
    let expected: [&[u32]; 7] = [
        &vfe,
        &[8, 8, 2, 0x00ff_ffff],
        &[8, 10, 2, 0],
        &[5, 12, 4, 64, 0x20],
        &[6, 16, 2, 0x00ff_ffff],
        &object,
        &[2, 25, 1],
    ];
    assert_records(&records, &expected);
}

#[test]
fn refusal_1_over_the_limit() {
    let mut batch = vec![NOOP; LIMIT];
    batch[0] = END;
    assert_eq!(answer(&batch), (0, 0));
    batch.push(NOOP);
    assert_eq!(answer(&batch), (1, 0));
}

#[test]
fn refusal_2_no_end() {
    assert_eq!(answer(&EXAMPLE[..18]), (2, 18));
    assert_eq!(answer(&[NOOP, FLUSH]), (2, 2));
}

#[test]
fn refusal_3_unknown_header() {
    for header in [
        1,
        0x0200_0001,
        0x0500_0001,
        0x7005_0002,
        0x7101_0004,
        0x6900_0006,
    ] {
        assert_eq!(answer(&with(8, header)), (3, 8));
    }
    // MEDIA_GATEWAY_STATE on Gen7, whatever its length field.
    for header in (0x7003_0000..0x7003_0010).chain([0x7003_ffff]) {
        assert_eq!(answer_on(7, &with(8, header)), (3, 8));
    }
}

#[test]
fn refusal_4_length_field() {
    assert_eq!(answer(&with(0, 0x7000_0005)), (4, 0));
    assert_eq!(answer(&with(0, 0x7000_0007)), (4, 0));
    assert_eq!(answer(&with(8, 0x7002_0003)), (4, 8));
    assert_eq!(answer(&with(12, 0x7100_0003)), (4, 12));
    for header in (0x7003_0001..0x7003_0010).chain([0x7003_ffff]) {
        assert_eq!(answer_on(6, &with(8, header)), (4, 8));
    }
}

#[test]
fn refusal_5_past_the_slice() {
    for length in 1..8 {
        assert_eq!(answer(&EXAMPLE[..length]), (5, 0));
    }
    for length in 13..18 {
        assert_eq!(answer(&EXAMPLE[..length]), (5, 12));
    }
    assert_eq!(answer(&with(12, 0x7100_0005)), (2, 19));
    assert_eq!(answer(&with(12, 0x7100_0006)), (5, 12));
    assert_eq!(answer(&with(12, 0x7100_ffff)), (5, 12));
    assert_eq!(answer_on(6, &sequence(&[A_VFE, &[0x7003_0000]])), (5, 8));
    let two = sequence(&[A_VFE, A_GATEWAY, &[0x7003_0000]]);
    assert_eq!(answer_on(6, &two), (5, 10));
}

/// Each judged bit of each command, alone; then each bit that is not judged.
#[test]
fn refusal_6_must_be_zero() {
    let batch = sequence(&[A_VFE, A_CURBE, A_LOAD, AN_OBJECT, A_STATE_FLUSH]);
    let places = [(3, 0), (4, 8), (5, 12), (7, 16), (6, 22)];
    let gateway = sequence(&[&batch, A_GATEWAY, A_GATEWAY, THE_END]);
    let batch = sequence(&[&batch, THE_END]);
    for (kind, place) in places {
        every_bit(7, &batch, kind, place);
    }
    for (kind, place) in places.into_iter().chain([(8, 24), (8, 26)]) {
        every_bit(6, &gateway, kind, place);
    }
    let mut two = with(17, 0x100);
    two[13] = 0x40;
    assert_eq!(answer(&two), (6, 13));
}

/// The command at this place with one bit more, in any dword after its header.
fn every_bit(chip: u32, batch: &[u32], kind: usize, place: usize) {
    assert_eq!(answer_on(chip, batch), (0, 0));
    let total = total(batch[place]);
    let masks = crate::masks::of(chip)[kind];
    assert!(masks[total..].iter().all(|&mask| mask == 0));
    for dword in place + 1..place + total {
        for bit in (0..32).map(|shift| 1 << shift) {
            let mut batch = batch.to_vec();
            batch[dword] |= bit;
            let judged = masks[dword - place] & bit != 0;
            let refused = answer_on(chip, &batch) == (6, dword as u64);
            assert_eq!(refused, judged, "kind {kind}, dword {dword}, bit {bit:x}");
        }
    }
}

#[test]
fn refusal_7_alignment_and_range() {
    for length in [0, 16, 33, 2049, 2080, 0x1_ffe0] {
        assert_eq!(answer(&with(10, length)), (7, 10));
    }
    for length in [32, 64, 1056, 2048] {
        assert_eq!(answer(&with(10, length)), (0, 0));
    }
    assert_eq!(answer(&with(11, 0x1010)), (7, 11));
    let curbe = |length, address| sequence(&[A_VFE, &[0x7001_0002, 0, length, address], THE_END]);
    assert_eq!(answer(&curbe(0, 0)), (0, 0));
    assert_eq!(answer(&curbe(16, 1)), (7, 10));
    assert_eq!(answer(&curbe(32, 1)), (7, 11));
}

#[test]
fn refusal_8_order() {
    for command in [A_CURBE, A_LOAD, AN_OBJECT] {
        assert_eq!(answer(&sequence(&[A_FLUSH, command, THE_END])), (8, 1));
    }
    // A VFE after kind 3, 4, 5 or 7 needs an MI_FLUSH between; a state flush is not enough
    // where more than the scoreboard changes.
    let before: [&[u32]; 4] = [
        A_VFE,
        &sequence(&[A_VFE, A_CURBE]),
        &sequence(&[A_VFE, A_LOAD]),
        &sequence(&[A_VFE, A_LOAD, AN_OBJECT]),
    ];
    for before in before {
        let place = before.len() as u64;
        assert_eq!(answer(&sequence(&[before, A_VFE, THE_END])), (8, place));
        let flushed = [before, A_STATE_FLUSH, ANOTHER_VFE, THE_END];
        assert_eq!(answer(&sequence(&flushed)), (8, place + 2));
        let flushed = [before, A_FLUSH, A_STATE_FLUSH, ANOTHER_VFE, THE_END];
        assert_eq!(answer(&sequence(&flushed)), (0, 0));
    }
    // A load after an OBJECT needs kind 1 or 6 between.
    let used = sequence(&[A_VFE, A_LOAD, AN_OBJECT]);
    assert_eq!(answer(&sequence(&[&used, A_LOAD, THE_END])), (8, 18));
    for flush in [A_FLUSH, A_STATE_FLUSH] {
        assert_eq!(answer(&sequence(&[&used, flush, A_LOAD, THE_END])), (0, 0));
    }
    // A CURBE load after an OBJECT passes.
    assert_eq!(answer(&sequence(&[&used, A_CURBE, THE_END])), (0, 0));
    // The index is below the count last loaded, which a VFE keeps.
    assert_eq!(answer(&with(13, 1)), (8, 12));
    assert_eq!(answer(&sequence(&[A_VFE, AN_OBJECT, THE_END])), (8, 8));
    let kept = [A_VFE, A_LOAD, A_FLUSH, A_VFE, AN_OBJECT, THE_END];
    assert_eq!(answer(&sequence(&kept)), (0, 0));
}

/// Kind 8 is ordered as kind 4 is.
#[test]
fn refusal_8_order_of_gateway_states() {
    let answer = |commands: &[&[u32]]| answer_on(6, &sequence(commands));
    assert_eq!(answer(&[A_FLUSH, A_GATEWAY, THE_END]), (8, 1));
    // A VFE stays in force across MI_FLUSH.
    assert_eq!(answer(&[A_VFE, A_FLUSH, A_GATEWAY, THE_END]), (0, 0));
    // It stands in a later VFE's way; a state flush helps a scoreboard's change alone.
    let before = [A_VFE, A_FLUSH, A_GATEWAY];
    let before = sequence(&before);
    assert_eq!(answer(&[&before, A_VFE, THE_END]), (8, 11));
    let other = [&before, A_STATE_FLUSH, ANOTHER_VFE, THE_END];
    assert_eq!(answer(&other), (8, 13));
    let scoreboard = [&before, A_STATE_FLUSH, A_SCOREBOARD, THE_END];
    assert_eq!(answer(&scoreboard), (0, 0));
    assert_eq!(answer(&[&before, A_FLUSH, ANOTHER_VFE, THE_END]), (0, 0));
    let two = sequence(&[&before, A_GATEWAY]);
    assert_eq!(answer(&[&two, A_VFE, THE_END]), (8, 13));
    // It has no part in a descriptor load's rule.
    let used = sequence(&[A_VFE, A_LOAD, AN_OBJECT, A_GATEWAY]);
    assert_eq!(answer(&[&used, A_LOAD, THE_END]), (8, 20));
    assert_eq!(answer(&[&used, A_STATE_FLUSH, A_LOAD, THE_END]), (0, 0));
    let between = sequence(&[A_VFE, A_LOAD, A_GATEWAY]);
    assert_eq!(answer(&[&between, A_LOAD, AN_OBJECT, THE_END]), (0, 0));
    // 4, 5 and 6 come before.
    assert_eq!(answer(&[&[0x7003_0001], THE_END]), (4, 0));
    assert_eq!(answer(&[&[0x7003_0000]]), (5, 0));
    assert_eq!(answer(&[&[0x7003_0000, u32::MAX], THE_END]), (6, 1));
}

/// Scoreboard enable, type and mask, then the deltas (000, lines 679 to 691).
const SCOREBOARD: [u32; 8] = [0, 0, 0, 0, 0, 0xc000_00ff, u32::MAX, u32::MAX];

/// After a state flush a VFE may differ from the one in force in its scoreboard alone. A
/// bit that no row of the manual names counts as any other.
#[test]
fn refusal_8_every_bit_of_a_vfe_after_a_state_flush() {
    let every_field = [
        0x7000_0006,
        0x1234_5400,
        0x0007_01e0,
        0xabcd_ef00,
        0x0002_0004,
        0x8000_0055,
        0x1f2e_3d4c,
        0x5b6a_7988,
    ];
    for chip in CHIPS {
        let masks = crate::masks::of(chip)[3];
        assert_eq!(masks[5] | SCOREBOARD[5], u32::MAX);
        for first in [A_VFE, &every_field] {
            for (dword, bit) in (1..8).flat_map(|dword| (0..32).map(move |bit| (dword, bit))) {
                let mut second = first.to_vec();
                second[dword] ^= 1 << bit;
                let batch = sequence(&[first, A_STATE_FLUSH, &second, THE_END]);
                let expected = if masks[dword] >> bit & 1 == 1 {
                    (6, 10 + dword as u64)
                } else if SCOREBOARD[dword] >> bit & 1 == 1 {
                    (0, 0)
                } else {
                    (8, 10)
                };
                let answer = answer_on(chip, &batch);
                assert_eq!(answer, expected, "chip {chip}, dword {dword}, bit {bit}");
            }
        }
    }
}

/// No command of kind 3, 4, 5, 7 or 8 stands since the last kind 1 or 6.
#[test]
fn refusal_8_what_stands_before_a_scoreboards_change() {
    for chip in CHIPS {
        let answer = |commands: &[&[u32]]| answer_on(chip, &sequence(commands));
        let mut standing = vec![A_VFE, A_CURBE, A_LOAD, AN_OBJECT];
        if chip == 6 {
            standing.push(A_GATEWAY);
        }
        for &command in &standing {
            // After a descriptor load; the command alone since the MI_FLUSH.
            let before = sequence(&[A_VFE, A_LOAD, A_FLUSH, command]);
            let place = before.len() as u64;
            for vfe in [A_VFE, A_SCOREBOARD] {
                assert_eq!(answer(&[&before, vfe, THE_END]), (8, place));
                assert_eq!(answer(&[&before, &[NOOP], vfe, THE_END]), (8, place + 1));
                for flushes in [
                    &[A_STATE_FLUSH][..],
                    &[A_STATE_FLUSH, A_STATE_FLUSH],
                    &[&[NOOP], A_STATE_FLUSH, &[NOOP]],
                    &[A_FLUSH],
                    &[A_FLUSH, A_STATE_FLUSH],
                    &[A_STATE_FLUSH, A_FLUSH],
                ] {
                    let flushes = sequence(flushes);
                    assert_eq!(answer(&[&before, &flushes, vfe, THE_END]), (0, 0));
                }
                // It stands again, or another does.
                for &again in standing.iter().filter(|&&again| again != A_VFE) {
                    let flushed = sequence(&[&before, A_STATE_FLUSH, again]);
                    let place = flushed.len() as u64;
                    assert_eq!(answer(&[&flushed, vfe, THE_END]), (8, place));
                    let flushed = [&flushed, A_STATE_FLUSH, vfe, THE_END];
                    assert_eq!(answer(&flushed), (0, 0));
                }
            }
        }
    }
}

/// The VFE in force is the last one, however it came, and MI_FLUSH leaves it in force.
#[test]
fn refusal_8_the_vfe_in_force() {
    let answer = |commands: &[&[u32]]| answer(&sequence(&[commands, &[THE_END]].concat()));
    let state_flush = A_STATE_FLUSH;
    // It stands itself.
    let twice = [A_VFE, state_flush, A_SCOREBOARD];
    assert_eq!(answer(&[&twice[..], &[A_SCOREBOARD]].concat()), (8, 18));
    // A second change, the same again, and a change back.
    for third in [A_VFE, A_SCOREBOARD] {
        assert_eq!(
            answer(&[&twice[..], &[state_flush, third]].concat()),
            (0, 0)
        );
    }
    let other = [&twice[..], &[state_flush, ANOTHER_VFE]].concat();
    assert_eq!(answer(&other), (8, 20));
    // After an MI_FLUSH another VFE is in force, and the first one is not.
    let changed = [A_VFE, A_FLUSH, ANOTHER_VFE, state_flush];
    assert_eq!(answer(&[&changed[..], &[ANOTHER_VFE]].concat()), (0, 0));
    for third in [A_VFE, A_SCOREBOARD] {
        assert_eq!(answer(&[&changed[..], &[third]].concat()), (8, 19));
    }
    // The first one stays in force across MI_FLUSH.
    let kept = [A_VFE, A_FLUSH, A_CURBE, state_flush];
    assert_eq!(answer(&[&kept[..], &[A_SCOREBOARD]].concat()), (0, 0));
    assert_eq!(answer(&[&kept[..], &[ANOTHER_VFE]].concat()), (8, 15));
    // The first VFE has none before it.
    assert_eq!(answer(&[state_flush, A_VFE]), (0, 0));
    assert_eq!(answer(&[state_flush, A_VFE, A_SCOREBOARD]), (8, 10));
}

/// 8 comes before 9; what passes 8 by its scoreboard asks for no other rows.
#[test]
fn refusal_9_after_a_state_flush() {
    let mut larger = A_VFE.to_vec();
    larger[4] += 1;
    let changed = sequence(&[A_VFE, A_STATE_FLUSH, A_SCOREBOARD, THE_END]);
    assert_eq!(run(&changed, 6, 64).0, Answer::accepted(4, 19));
    assert_eq!(run(&changed, 5, 64).0, Answer::refused(9, 0));
    let refused = sequence(&[A_VFE, A_STATE_FLUSH, &larger, THE_END]);
    assert_eq!(run(&refused, 6, 64).0, Answer::refused(8, 10));
    let refused = sequence(&[A_VFE, A_FLUSH, &larger, THE_END]);
    assert_eq!(run(&refused, 6, 64).0, Answer::refused(9, 9));
    // The CURBE size in force stays as well.
    let curbe = |length| {
        let load = [0x7001_0002, 0, length, 0];
        answer(&sequence(&[&changed[..18], &load, THE_END]))
    };
    assert_eq!(curbe(128), (0, 0));
    assert_eq!(curbe(160), (9, 18));
}

/// Each OBJECT names its own VFE.
#[test]
fn records_of_a_scoreboards_change() {
    let batch = sequence(&[
        A_VFE,
        A_LOAD,
        AN_OBJECT,
        A_STATE_FLUSH,
        A_SCOREBOARD,
        AN_OBJECT,
        THE_END,
    ]);
    let (answer, records) = run(&batch, 6, 7 * RECORD);
    assert_eq!(answer, Answer::accepted(7, 35));
    let record = |at: usize| &records[RECORD * at..][..RECORD];
    assert_eq!(record(4)[..3], [3, 20, 8]);
    assert_eq!([record(0)[9], record(4)[9]], [0, 0x10]);
    assert_eq!(record(2)[14..], [0, 0]);
    assert_eq!(record(5)[14..], [4, 1]);
}

/// The manual's sequence for barrier groups (000, lines 210 to 231), without the commands
/// that are in no table.
#[test]
fn barrier_groups() {
    let group: &[&[u32]] = &[
        A_LOAD,
        A_CURBE,
        A_GATEWAY,
        A_STATE_FLUSH,
        AN_OBJECT,
        AN_OBJECT,
    ];
    let groups = [group, &[A_STATE_FLUSH], group].concat();
    let batch = sequence(&[&[A_VFE], &groups[..], &[A_FLUSH, THE_END]].concat());
    assert_eq!(answer_on(6, &batch), (0, 0));
    assert_eq!(answer_on(7, &batch), (3, 16));
    // Without the flush between, the second descriptor load comes too early.
    let batch = sequence(&[&[A_VFE], group, group, &[A_FLUSH, THE_END]].concat());
    assert_eq!(answer_on(6, &batch), (8, 32));
}

#[test]
fn refusal_9_capacity() {
    assert_eq!(run(&EXAMPLE, 5, 64).0, Answer::refused(9, 0));
    let curbe = |length| sequence(&[A_VFE, &[0x7001_0002, 0, length, 0], THE_END]);
    assert_eq!(answer(&curbe(128)), (0, 0));
    assert_eq!(answer(&curbe(160)), (9, 8));
    let largest = with(2, 0xff00);
    let largest = {
        let mut batch = largest;
        batch[4] = u32::MAX;
        batch
    };
    let rows = 255 * 65_535 + 65_535;
    assert_eq!(run(&largest, rows, 64).0, Answer::accepted(4, 19));
    assert_eq!(run(&largest, rows - 1, 64).0, Answer::refused(9, 0));
}

#[test]
fn refusal_10_record_buffer() {
    for words in [0, 48, 63] {
        assert_eq!(run(&EXAMPLE, 6, words).0, Answer::refused(10, 19));
    }
    for words in [64, 65, 80] {
        assert_eq!(run(&EXAMPLE, 6, words).0, Answer::accepted(4, 19));
    }
    // Any other fault comes before.
    assert_eq!(run(&EXAMPLE[..18], 6, 0).0, Answer::refused(2, 18));
}

#[test]
fn refusal_17_odd_bytes() {
    let mut bytes: Vec<u8> = EXAMPLE.iter().flat_map(|word| word.to_le_bytes()).collect();
    let check_bytes = |batch: &[u8], records: &mut [u8]| {
        let left = records.to_vec();
        let [on_6, on_7] = CHIPS.map(|chip| {
            records.copy_from_slice(&left);
            super::check_bytes(chip, batch, 6, records)
        });
        assert_eq!(on_6, on_7);
        on_7
    };
    for _ in 1..4 {
        bytes.push(0);
        let mut records = [7; 256];
        assert_eq!(check_bytes(&bytes, &mut records), Answer::refused(17, 19));
        assert_eq!(records, [7; 256]);
    }
    // 17 is tested before 1; 255 bytes hold three records.
    let long = vec![0; 4 * LIMIT + 5];
    assert_eq!(check_bytes(&long, &mut []), Answer::refused(17, LIMIT + 1));
    bytes.truncate(76);
    assert_eq!(check_bytes(&bytes, &mut [0; 255]), Answer::refused(10, 19));
    assert_eq!(check_bytes(&bytes, &mut [0; 259]), Answer::accepted(4, 19));
}

#[test]
fn refusal_18_unknown_chip() {
    let refused = Answer::refused(18, 0);
    let long = vec![NOOP; LIMIT + 1];
    for chip in [0, 1, 5, 8, 9, 60, 70, 0x106, 0x107, u32::MAX] {
        for batch in [&EXAMPLE[..], &[], &[1], &long] {
            assert_eq!(run_on(chip, batch, 6, 70).0, refused);
        }
        // Before 17 and 1, even of nothing lent.
        for bytes in [0, 1, 3, 77, 4 * LIMIT + 7] {
            let mut records = [7; 256];
            let answer = check_bytes(chip, &vec![0; bytes], 6, &mut records);
            assert_eq!((answer, records), (refused, [7; 256]));
        }
        assert_eq!(check_bytes(chip, &[], 0, &mut []), refused);
        assert_eq!(passed_inline_data(chip, &EXAMPLE, 6), []);
    }
}

#[test]
fn first_command_decides_then_table_order() {
    // The VFE's 9 comes before the load's 3.
    assert_eq!(run(&with(8, 1), 5, 64).0, Answer::refused(9, 0));
    // 6 before 7 before 8 inside one load.
    let load = |mask, length| sequence(&[&[0x7002_0002, mask, length, 0], THE_END]);
    assert_eq!(answer(&load(1, 0)), (6, 1));
    assert_eq!(answer(&load(0, 0)), (7, 2));
    assert_eq!(answer(&load(0, 32)), (8, 0));
    // Dwords after END are not read.
    assert_eq!(answer(&[END, u32::MAX, 1]), (0, 0));
}

#[test]
fn inline_data_of_passed_objects() {
    let object = &[0x7100_0006, 0, 0, 0, 0, 0, END, END];
    let bad = &[0x7100_0005, 0x40, 0, 0, 0, 0, END];
    let before = sequence(&[A_VFE, A_LOAD, object, AN_OBJECT, object]);
    let passed = [18..20, 26..26, 32..34];
    for chip in CHIPS {
        // END, a fault or the slice's end: what stands after it is not passed.
        for after in [&[THE_END, object][..], &[bad, object, THE_END], &[]] {
            let batch = [before.clone(), sequence(after)].concat();
            assert_eq!(passed_inline_data(chip, &batch, 6), passed);
            assert_eq!(passed_inline_data(chip, &batch, 5), []);
        }
        // Rule 1 has no say.
        let mut long = vec![NOOP; LIMIT];
        long.extend(&before);
        let passed = passed
            .clone()
            .map(|inline| inline.start + LIMIT..inline.end + LIMIT);
        assert_eq!(passed_inline_data(chip, &long, 6), passed);
    }
    // MEDIA_GATEWAY_STATE ends what Gen7 passes, not what Gen6 does.
    let batch = sequence(&[A_VFE, A_LOAD, object, A_GATEWAY, object, THE_END]);
    assert_eq!(passed_inline_data(6, &batch, 6), [18..20, 28..30]);
    assert_eq!(passed_inline_data(7, &batch, 6), [18..20; 1]);
}
