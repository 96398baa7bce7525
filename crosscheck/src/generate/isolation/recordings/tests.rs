use super::*;
use crate::replay::{landings, replay};

fn pairs() -> impl Iterator<Item = Pair> {
    let random = (0..2000).map(|index| random_case(&mut Random::for_case(2, index)));
    random.chain(sweep(2))
}

/// Nothing but data bytes of forwards naming the thread differs.
#[test]
fn pairs_differ_as_allowed() {
    let mut differing = 0;
    for pair in pairs() {
        let mut second = pair.second.clone();
        for data in data_bytes(&pair.first.recording, pair.thread) {
            second[data.clone()].copy_from_slice(&pair.first.recording[data]);
        }
        assert_eq!(second, pair.first.recording);
        differing += usize::from(pair.differing() > 0);
    }
    assert!(differing > 1000, "{differing}");
}

/// Without acks a byte of the thread's registers changes exactly where a forward landed.
#[test]
fn landings_are_what_changes() {
    let mut landed_on = 0;
    for mut pair in pairs() {
        let own = pair.own_registers();
        let recording = &mut pair.first.recording;
        for data in data_bytes(recording, pair.thread) {
            recording[data].fill(0xff);
        }
        let Ok(frame) = Frame::read(recording) else {
            continue;
        };
        let start = HEADER + frame.groups.len();
        for event in recording[start..].chunks_mut(EVENT) {
            event[2] &= !1;
        }
        let mut registers = vec![0; pair.first.registers];
        let mut counts = vec![0; pair.first.counts];
        let mut outcomes = vec![99; pair.first.outcomes];
        let answer = replay(recording, &mut registers, &mut counts, &mut outcomes);
        let mut expected = vec![0; own.len()];
        if answer.number == 0 {
            for at in landings(recording, &outcomes, pair.thread)
                .into_iter()
                .flatten()
            {
                expected[at - REGISTERS * pair.thread] = 0xff;
                landed_on += 1;
            }
        }
        assert_eq!(registers[own], expected);
    }
    assert!(landed_on > 1000, "{landed_on}");
}
