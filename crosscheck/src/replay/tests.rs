use super::*;
use crate::generate::replay::{random_case, sweep, Case};
use crate::random::Random;

const ACK: u8 = 1;
const END_OF_THREAD: u8 = 8;

/// The data of every event here: 0xd0, 0xd1 and so on.
fn event(head: [u8; 10]) -> [u8; EVENT] {
    let mut event = [0; EVENT];
    event[..10].copy_from_slice(&head);
    for (byte, value) in event[16..].iter_mut().zip(0xd0..) {
        *byte = value;
    }
    event
}

fn open(sender: u8, base: u16, size: u8, key: u16) -> [u8; EVENT] {
    let ([k0, k1], [b0, b1]) = (key.to_le_bytes(), base.to_le_bytes());
    event([0, sender, 0, 0, 0, size, k0, k1, b0, b1])
}

fn close(sender: u8) -> [u8; EVENT] {
    event([1, sender, 0, 0, 0, 0, 0, 0, 0, 0])
}

fn forward(recipient: u8, length: u8, offset: u16, key: u16) -> [u8; EVENT] {
    let ([k0, k1], [o0, o1]) = (key.to_le_bytes(), offset.to_le_bytes());
    event([2, 0, 0, 0, recipient, length, k0, k1, o0, o1])
}

fn barrier(sender: u8) -> [u8; EVENT] {
    event([4, sender, 0, 0, 0, 0, 0, 0, 0, 0])
}

fn with(mut event: [u8; EVENT], flags: u8, ack_register: u8) -> [u8; EVENT] {
    event[2] |= flags;
    event[3] = ack_register;
    event
}

fn notify(event: [u8; EVENT], notify: u8) -> [u8; EVENT] {
    with(event, notify << 1, 0)
}

fn recording(bypass: u8, groups: &[u8], events: &[[u8; EVENT]]) -> Vec<u8> {
    let mut recording = b"GWR\x01\x00".to_vec();
    recording.extend([groups.len() as u8, bypass]);
    recording.extend((events.len() as u16).to_le_bytes());
    recording.push(0);
    recording.extend(groups);
    recording.extend(events.concat());
    recording
}

/// Everything that a replay leaves; registers began as 0xa5, counts as 77.
struct Left {
    answer: Replayed,
    registers: Vec<u8>,
    counts: Vec<u32>,
    outcomes: Vec<u8>,
}

fn run(bypass: u8, groups: &[u8], events: &[[u8; EVENT]]) -> Left {
    let mut left = Left {
        answer: Replayed::default(),
        registers: vec![0xa5; REGISTERS * groups.len()],
        counts: vec![77; 2 * groups.len()],
        outcomes: vec![99; events.len() + 1],
    };
    left.answer = replay(
        &recording(bypass, groups, events),
        &mut left.registers,
        &mut left.counts,
        &mut left.outcomes,
    );
    assert_eq!(left.answer.number, 0);
    assert_eq!(left.outcomes.pop(), Some(99));
    left
}

fn outcomes(bypass: u8, groups: &[u8], events: &[[u8; EVENT]]) -> Vec<u8> {
    run(bypass, groups, events).outcomes
}

/// The registers' bytes that no longer are 0xa5.
fn written(left: &Left) -> Vec<usize> {
    let bytes = left.registers.iter().enumerate();
    bytes
        .filter(|(_, &byte)| byte != 0xa5)
        .map(|(at, _)| at)
        .collect()
}

#[test]
fn opens_at_the_last_register() {
    let bases = [(127, 0), (127, 1), (96, 5), (97, 5), (128, 0), (0, 6)];
    let events = bases.map(|(base, size)| open(0, base, size, 0));
    assert_eq!(outcomes(0, &[0], &events), [0, 33, 0, 33, 31, 31]);
    // A refused open leaves the old window.
    let gateway = run(0, &[0], &events).answer.gateways[0];
    let expected = Gateway {
        open: 1,
        base: 96,
        size: 5,
        key: 0,
    };
    assert_eq!(gateway, expected);
}

#[test]
fn end_of_thread_closes() {
    let wild = with(open(0, 500, 99, 1), END_OF_THREAD, 200);
    let events = [open(0, 4, 0, 1), wild, forward(0, 0, 0, 1)];
    let left = run(0, &[0], &events);
    assert_eq!(left.outcomes, [0, 0, 35]);
    assert_eq!(left.answer.gateways, [Gateway::default(); 16]);
    let events = [
        with(close(0), END_OF_THREAD, 0),
        with(close(0), END_OF_THREAD | ACK, 0),
        with(open(0, 0, 0, 0), END_OF_THREAD | ACK, 0),
        with(barrier(0), END_OF_THREAD, 0),
        with(forward(0, 0, 0, 0), END_OF_THREAD, 0),
    ];
    assert_eq!(outcomes(0, &[0], &events), [0, 31, 31, 31, 31]);
}

#[test]
fn forwards_keep_to_the_window() {
    let events = [
        open(1, 8, 0, 3),
        forward(1, 5, 0, 3),
        forward(1, 5, 1, 3),
        forward(1, 0, 31, 3),
        forward(1, 0, 32, 3),
        forward(1, 6, 0, 3),
        forward(1, 0, 8192, 3),
    ];
    let left = run(0, &[0, 0], &events);
    assert_eq!(left.outcomes, [0, 0, 37, 0, 37, 31, 31]);
    let window: Vec<usize> = (REGISTERS + 256..REGISTERS + 288).collect();
    assert_eq!(written(&left), window);
    assert_eq!(left.registers[REGISTERS + 287], 0xd0);
}

#[test]
fn bypass() {
    let events = [
        forward(1, 0, 4095, 9),
        forward(1, 0, 4096, 9),
        forward(2, 0, 0, 9),
        open(0, 0, 0, 0),
        with(close(0), ACK, 4),
        open(0, 128, 0, 0),
        with(open(0, 0, 0, 0), END_OF_THREAD, 0),
        barrier(0),
    ];
    let left = run(1, &[0, 1], &events);
    assert_eq!(left.outcomes, [0, 37, 34, 32, 32, 31, 32, 0]);
    assert_eq!(written(&left), [2 * REGISTERS - 1]);
    assert_eq!(left.answer.gateways, [Gateway::default(); 16]);
}

/// 34, 35, 36, 37 in this order, and no notification on any.
#[test]
fn forwards_refused_in_order() {
    let far = |recipient, key| notify(forward(recipient, 0, 8191, key), 1);
    let events = [
        far(2, 5),
        far(1, 5),
        open(1, 0, 0, 4),
        far(1, 5),
        far(1, 4),
        notify(forward(1, 0, 0, 4), 1),
        notify(forward(1, 0, 0, 4), 2),
        notify(forward(1, 0, 0, 4), 3),
    ];
    let left = run(0, &[0, 0], &events);
    assert_eq!(left.outcomes, [34, 35, 0, 36, 37, 0, 0, 31]);
    assert_eq!(left.counts, [0, 0, 1, 1]);
}

#[test]
fn acknowledgements() {
    // The ack wins over the sender's own forward, and takes four bytes only.
    let own = with(forward(0, 5, 0, 0), ACK, 4);
    let left = run(0, &[255], &[open(0, 4, 0, 0), own]);
    assert_eq!(left.outcomes, [0, 0]);
    assert_eq!(&left.registers[128..134], [0, 0, 0, 0, 0xd4, 0xd5]);
    // Refused events are acknowledged too, but for 31 and 32.
    let refused = with(barrier(0), ACK, 127);
    let left = run(0, &[255], &[refused]);
    assert_eq!(left.outcomes, [38]);
    assert_eq!(&left.registers[4064..4069], [38, 0, 0, 0, 0xa5]);
    let mut update = with(event([5, 0, 0, 0, 15, 6, 0, 0, 0, 0]), ACK, 255);
    let mut time = with(event([3, 0, 0, 0, 0, 0, 0, 0, 0, 0]), ACK, 255);
    let left = run(0, &[255], &[update, time, with(barrier(0), ACK, 128)]);
    assert_eq!(left.outcomes, [0, 32, 31]);
    assert_eq!(written(&left), []);
    assert_eq!(left.answer.barriers[15].byte, 6);
    update[4] = 16;
    time[10] = 1;
    assert_eq!(outcomes(0, &[255], &[update, time]), [31, 31]);
}

#[test]
fn barriers() {
    let left = run(0, &[9, 255], &[barrier(0), barrier(1), barrier(0)]);
    assert_eq!(left.outcomes, [0, 38, 0]);
    assert_eq!(left.counts, [2, 0, 0, 0]);
    let events = [barrier(2), barrier(2), barrier(0)];
    let left = run(0, &[3, 4, 3], &events);
    assert_eq!(left.outcomes, [0, 39, 0]);
    assert_eq!(left.counts, [1, 0, 0, 0, 1, 0]);
    assert_eq!(left.answer.barriers[3].waiting, 0);
    let left = run(0, &[3, 4, 3], &events[..1]);
    assert_eq!(left.counts, [0; 6]);
    assert_eq!(left.answer.barriers[3].waiting, 0b100);
}

#[test]
fn layout() {
    let stray = |at: usize, value| {
        let mut event = barrier(0);
        event[at] = value;
        event
    };
    let events = [
        stray(0, 7),
        stray(1, 1),
        stray(2, 16),
        stray(10, 1),
        stray(15, 128),
        stray(2, 6),
        event([6, 0, 0, 0, 0, 0, 0, 0, 0, 0]),
    ];
    let left = run(0, &[0], &events);
    assert_eq!(left.outcomes, [31, 31, 31, 31, 31, 0, 32]);
}

#[test]
fn refusals_of_the_whole() {
    let sound = recording(0, &[0, 1], &[barrier(0)]);
    let answer = |change: &dyn Fn(&mut Vec<u8>), registers, counts, outcomes| {
        let mut recording = sound.clone();
        change(&mut recording);
        let mut registers = vec![1; registers];
        let mut counts = vec![2; counts];
        let mut outcomes = vec![3; outcomes];
        let answer = replay(&recording, &mut registers, &mut counts, &mut outcomes);
        if answer.number != 0 {
            let expected = Replayed {
                number: answer.number,
                ..Replayed::default()
            };
            assert_eq!(answer, expected);
            assert!(registers.iter().all(|&byte| byte == 1));
            assert!(counts.iter().all(|&count| count == 2));
            assert!(outcomes.iter().all(|&outcome| outcome == 3));
        }
        answer.number
    };
    let with = |at: usize, value: u8| answer(&|bytes| bytes[at] = value, 8192, 4, 1);
    assert_eq!(answer(&|_| {}, 8192, 4, 1), 0);
    assert_eq!(answer(&|bytes| bytes.truncate(9), 8192, 4, 1), 11);
    assert_eq!(answer(&|bytes| bytes.truncate(10), 8192, 4, 1), 14);
    assert_eq!(with(2, b'r'), 11);
    assert_eq!((with(3, 0), with(4, 1)), (12, 12));
    assert_eq!(
        (with(5, 0), with(5, 17), with(6, 2), with(9, 1)),
        (13, 13, 13, 13)
    );
    assert_eq!((with(5, 1), with(7, 2), with(8, 1)), (14, 14, 14));
    assert_eq!(answer(&|bytes| bytes.push(0), 8192, 4, 1), 14);
    assert_eq!((with(10, 16), with(11, 254)), (15, 15));
    for (registers, counts, outcomes) in [(8191, 4, 1), (12288, 4, 1), (8192, 5, 1), (8192, 4, 0)] {
        assert_eq!(answer(&|_| {}, registers, counts, outcomes), 16);
        assert_eq!(
            answer(&|bytes| bytes[11] = 16, registers, counts, outcomes),
            15
        );
    }
}

/// N0 counts the accepted forwards with notify 1 and each release's members, N2
/// those with notify 2. Releases are counted by replaying every prefix's barriers
/// from the events' own bytes.
#[test]
fn counts_add_up() {
    let check = |case: &Case| {
        let mut registers = vec![0xa5; case.registers];
        let mut counts = vec![9; case.counts];
        let mut outcomes = vec![9; case.outcomes];
        let answer = replay(&case.recording, &mut registers, &mut counts, &mut outcomes);
        if answer.number != 0 {
            return;
        }
        let threads = counts.len() / 2;
        let groups = &case.recording[HEADER..HEADER + threads];
        let events = case.recording[HEADER + threads..].chunks(EVENT);
        let mut expected = [0, 0];
        let mut arrived: Vec<u8> = Vec::new();
        for (event, outcome) in events.zip(outcomes) {
            match (event[0], outcome) {
                (2, 0) if event[2] >> 1 & 3 == 1 => expected[0] += 1,
                (2, 0) if event[2] >> 1 & 3 == 2 => expected[1] += 1,
                (4, 0) => {
                    arrived.push(event[1]);
                    let group = groups[usize::from(event[1])];
                    let same = |thread: u8| groups[usize::from(thread)] == group;
                    let here = arrived.iter().filter(|&&thread| same(thread)).count();
                    if here == (0..threads as u8).filter(|&thread| same(thread)).count() {
                        expected[0] += here as u32;
                        arrived.retain(|&thread| !same(thread));
                    }
                }
                _ => {}
            }
        }
        let sum = |first: usize| counts[first..].iter().step_by(2).sum::<u32>();
        assert_eq!([sum(0), sum(1)], expected);
        let mut waiting = 0;
        for barrier in answer.barriers {
            waiting |= barrier.waiting;
        }
        let expected = arrived
            .iter()
            .fold(0, |joined, thread| joined | 1 << thread);
        assert_eq!(waiting, expected);
    };
    for case in sweep(1) {
        check(&case);
    }
    for index in 0..4000 {
        check(&random_case(&mut Random::for_case(5, index)));
    }
}

/// Every length from every place, the last bytes of the registers too.
#[test]
fn a_write_is_a_copy() {
    let mut random = Random::new(8);
    let old: [u8; REGISTERS] = random.bytes(REGISTERS).try_into().unwrap();
    let data: [u8; 32] = random.bytes(32).try_into().unwrap();
    for code in 0..6 {
        let length = 1 << code;
        for at in 0..=REGISTERS - length {
            let (mut expected, mut registers) = (old, old);
            expected[at..at + length].copy_from_slice(&data[..length]);
            write(&mut registers, at, code, &data);
            assert!(registers == expected, "code {code} at {at}");
        }
    }
}
