use super::*;
use crate::batch::END;
use crate::generate::batch::CHIPS;
use crate::generate::order::{random_case, sweep, Case, Object, Scene, Vfe};
use crate::random::Random;

/// Runs both entries and demands that they agree.
fn run(case: &Case) -> (Answer, Vec<u32>, Vec<u8>) {
    let chip = case.batch.chip;
    let capacity = case.batch.capacity;
    let mut records = vec![0xa5a5_a5a5; case.batch.records];
    let mut states = vec![9; case.states];
    let answer = check(
        chip,
        &case.batch.batch,
        capacity,
        &case.run,
        &mut records,
        &mut states,
    );
    if case.batch.tail.is_empty() && case.run_tail.is_empty() {
        let mut record_bytes = vec![0xa5; case.batch.record_bytes()];
        let mut byte_states = vec![9; case.states];
        let over_bytes = check_bytes(
            chip,
            &case.batch.bytes(),
            capacity,
            &case.run_bytes(),
            &mut record_bytes,
            &mut byte_states,
        );
        assert_eq!(over_bytes, answer);
        let same = records.iter().flat_map(|word| word.to_le_bytes());
        assert!(same.eq(record_bytes[..4 * case.batch.records].iter().copied()));
        assert_eq!(byte_states, states);
    }
    (answer, records, states)
}

const QUIET: Vfe = Vfe {
    enable: true,
    stalling: false,
    mask: 255,
    deltas: [(7, 7); 8],
};

fn at(x: i32, y: i32) -> Object {
    Object {
        own_use: true,
        x,
        y,
        colour: 3,
        mask: 255,
    }
}

/// On each chip, with other commands between the objects.
fn scene(vfe: Vfe, objects: &[Object]) -> [Scene; 2] {
    CHIPS.map(|chip| {
        let random = &mut Random::new(2);
        let mut scene = Scene::new(chip);
        scene.vfe(random, vfe);
        for &object in objects {
            (0..4).for_each(|_| scene.filler(random));
            scene.object(random, object, 1);
        }
        scene
    })
}

/// The answer's four numbers and the states, the same on both chips.
fn judged(scenes: &[Scene; 2], events: &[u32]) -> ([u64; 4], Vec<u8>) {
    let [on_6, on_7] = scenes.each_ref().map(|scene| {
        let (answer, _, states) = run(&Case::new(scene, events.to_vec()));
        let numbers = [answer.number, answer.place, answer.object, answer.delta];
        (numbers, states)
    });
    assert_eq!(on_6, on_7);
    on_7
}

#[test]
fn refusals_21_to_23() {
    let scene = scene(QUIET, &[at(1, 1), at(20, 20)]);
    for event in [4, 5, u32::MAX, 1 << 31] {
        assert_eq!(judged(&scene, &[0, event]), ([21, 1, 0, 0], vec![1, 0]));
    }
    assert_eq!(judged(&scene, &[2, 2, 0]), ([22, 1, 0, 0], vec![0, 1]));
    assert_eq!(judged(&scene, &[2, 3, 2]), ([22, 2, 0, 0], vec![0, 2]));
    assert_eq!(judged(&scene, &[3]), ([23, 0, 0, 0], vec![0, 0]));
    assert_eq!(judged(&scene, &[2, 3, 3]), ([23, 2, 0, 0], vec![0, 2]));
    assert_eq!(judged(&scene, &[]), ([0, 0, 0, 0], vec![0, 0]));
    assert_eq!(judged(&scene, &[2, 0, 1, 3]), ([0, 4, 0, 0], vec![2, 2]));
}

#[test]
fn refusal_24_names_the_lowest_waiting() {
    let stalling = Vfe {
        stalling: true,
        ..QUIET
    };
    let mut idle = at(0, 0);
    idle.own_use = false;
    let scene = scene(stalling, &[at(1, 1), idle, at(20, 20)]);
    assert_eq!(judged(&scene, &[4]), ([24, 0, 0, 0], vec![0, 0, 0]));
    // Any earlier object, a user or not.
    assert_eq!(judged(&scene, &[0, 4]), ([24, 1, 1, 0], vec![1, 0, 0]));
    assert_eq!(judged(&scene, &[2, 0, 4]), ([0, 3, 0, 0], vec![1, 1, 1]));
}

#[test]
fn refusal_25_names_the_lowest_object_and_delta() {
    let mut vfe = QUIET;
    vfe.deltas[2] = (-1, 0);
    vfe.deltas[3] = (0, -1);
    vfe.deltas[5] = (-1, 0);
    vfe.deltas[7] = (0, 0);
    let blocks = [at(4, 4), at(4, 4), at(5, 3), at(5, 4)];
    let scene = scene(vfe, &blocks);
    assert_eq!(judged(&scene, &[6]), ([25, 0, 0, 2], vec![0; 4]));
    assert_eq!(judged(&scene, &[0, 6]), ([25, 1, 0, 2], vec![1, 0, 0, 0]));
    assert_eq!(judged(&scene, &[0, 1, 6]).0, [25, 2, 1, 2]);
    assert_eq!(judged(&scene, &[0, 1, 2, 3, 6]).0, [25, 4, 2, 3]);
    assert_eq!(judged(&scene, &[2]).0, [25, 0, 0, 7]);
    let all = [0, 1, 2, 4, 3, 5, 6, 7];
    assert_eq!(judged(&scene, &all), ([0, 8, 0, 0], vec![2; 4]));
}

/// Two objects, each under its own VFE, whose scoreboards alone differ: the second one's
/// answer, after a state flush and after MI_FLUSH.
fn under_each(vfes: [Vfe; 2], events: &[u32]) -> [u64; 4] {
    let [after_state_flush, after_flush] = [6, 1].map(|flush| {
        let scenes = CHIPS.map(|chip| {
            let random = &mut Random::new(2);
            let mut scene = Scene::new(chip);
            scene.vfe(random, vfes[0]);
            scene.object(random, at(1, 1), 1);
            scene.scoreboard(random, &[flush, 0], vfes[1]);
            scene.object(random, at(2, 1), 1);
            scene
        });
        judged(&scenes, events).0
    });
    assert_eq!(after_state_flush, after_flush);
    after_flush
}

/// Deltas, mask, type and enable are those of the object's own VFE.
#[test]
fn each_object_is_judged_by_its_own_vfe() {
    let mut waits = QUIET;
    waits.deltas[3] = (-1, 0);
    waits.deltas[6] = (-1, 0);
    assert_eq!(under_each([QUIET, waits], &[0, 2]), [25, 1, 0, 3]);
    assert_eq!(under_each([waits, QUIET], &[0, 2]), [0, 2, 0, 0]);
    // The mask leaves the higher delta in play, or none.
    let masked = |mask| Vfe { mask, ..waits };
    assert_eq!(under_each([waits, masked(0x40)], &[0, 2]), [25, 1, 0, 6]);
    assert_eq!(under_each([masked(0x40), waits], &[0, 2]), [25, 1, 0, 3]);
    assert_eq!(under_each([waits, masked(0x17)], &[0, 2]), [0, 2, 0, 0]);
    assert_eq!(under_each([masked(0x17), waits], &[0, 2]), [25, 1, 0, 3]);
    // The type of the first one's VFE does not stall the second.
    let stalling = Vfe {
        stalling: true,
        ..waits
    };
    assert_eq!(under_each([waits, stalling], &[2]), [24, 0, 0, 0]);
    assert_eq!(under_each([stalling, waits], &[2]), [25, 0, 0, 3]);
    // Both must use a scoreboard where one waits, the second alone where it stalls.
    let off = |vfe| Vfe {
        enable: false,
        ..vfe
    };
    assert_eq!(under_each([waits, waits], &[0, 2]), [25, 1, 0, 3]);
    assert_eq!(under_each([off(waits), waits], &[0, 2]), [0, 2, 0, 0]);
    assert_eq!(under_each([waits, off(waits)], &[0, 2]), [0, 2, 0, 0]);
    assert_eq!(under_each([off(stalling), stalling], &[2]), [24, 0, 0, 0]);
    assert_eq!(under_each([stalling, off(stalling)], &[2]), [0, 1, 0, 0]);
}

/// The sum is taken as a whole number, not in nine bits.
#[test]
fn nobody_waits_across_the_edge() {
    for (delta, own, other) in [
        ((-1, 0), at(0, 9), at(511, 9)),
        ((0, -1), at(9, 0), at(9, 511)),
        ((1, 0), at(511, 9), at(0, 9)),
        ((-8, -8), at(7, 7), at(511, 511)),
    ] {
        let vfe = Vfe {
            deltas: [delta; 8],
            ..QUIET
        };
        assert_eq!(judged(&scene(vfe, &[other, own]), &[2]).0, [0, 1, 0, 0]);
    }
    let vfe = Vfe {
        deltas: [(-1, 0); 8],
        ..QUIET
    };
    assert_eq!(
        judged(&scene(vfe, &[at(0, 9), at(1, 9)]), &[2]).0,
        [25, 0, 0, 0]
    );
}

#[test]
fn refusals_change_nothing() {
    let untouched = |case: &Case, expected: Answer| {
        let (answer, records, states) = run(case);
        assert_eq!(answer, expected);
        assert!(records.iter().all(|&word| word == 0xa5a5_a5a5));
        assert!(states.iter().all(|&state| state == 9));
    };
    for scene in scene(QUIET, &[at(1, 1), at(2, 2)]) {
        let mut case = Case::new(&scene, vec![0]);
        case.states = 1;
        untouched(&case, Answer::new(20, 0));
        case.batch.records -= 1;
        untouched(&case, Answer::new(10, case.batch.batch.len()));
        case.batch.capacity -= 1;
        untouched(&case, Answer::new(9, 0));
        for chip in [0, 5, 8, 0x106, u32::MAX] {
            case.batch.chip = chip;
            untouched(&case, Answer::new(18, 0));
        }
    }
}

/// 18 comes before 17, of the batch and of the run, and before 1.
#[test]
fn an_unknown_chip_comes_first() {
    let long = vec![0; 4 * crate::batch::LIMIT + 4];
    for chip in [0, 5, 8, 0x107, u32::MAX] {
        for (batch, run) in [(&[0; 7][..], &[0; 13][..]), (&[], &[1]), (&long, &[])] {
            let (mut records, mut states) = ([7; 64], [9; 4]);
            let answer = check_bytes(chip, batch, 0, run, &mut records, &mut states);
            assert_eq!(answer, Answer::new(18, 0));
            assert_eq!((records, states), ([7; 64], [9; 4]));
        }
    }
}

#[test]
fn odd_bytes_come_first() {
    let end = END.to_le_bytes();
    let bytes = |batch: &[u8], run: &[u8]| {
        let [on_6, on_7] = CHIPS.map(|chip| check_bytes(chip, batch, 0, run, &mut [], &mut []));
        assert_eq!(on_6, on_7);
        on_7
    };
    assert_eq!(bytes(&[0; 7], &[0; 13]), Answer::new(17, 1));
    assert_eq!(bytes(&[0; 8], &[0; 13]), Answer::new(17, 3));
    assert_eq!(bytes(&end, &[0; 2]), Answer::new(17, 0));
    assert_eq!(bytes(&end, &[]), Answer::new(10, 1));
    // Even before 1.
    let long = vec![0; 4 * crate::batch::LIMIT + 4];
    assert_eq!(bytes(&long, &[1]), Answer::new(17, 0));
    assert_eq!(bytes(&long, &[]), Answer::new(1, 0));
}

#[test]
fn in_play() {
    let (own, enable) = (1 << 21, 1 << 31);
    assert_eq!(deltas_in_play(own, enable | 0xff, 0xff), (8, 0));
    assert_eq!(deltas_in_play(own, enable | 0xf0, 0x3c), (2, 4));
    assert_eq!(deltas_in_play(own, enable | 0x80, 0x80), (1, 7));
    assert_eq!(deltas_in_play(own, enable | 0x0f, 0xf0), (0, 8));
    assert_eq!(deltas_in_play(!own, u32::MAX, u32::MAX), (0, 8));
    assert_eq!(deltas_in_play(u32::MAX, !enable, u32::MAX), (0, 8));
    assert_eq!(deltas_in_play(u32::MAX, u32::MAX, 0xffff_ff00), (0, 8));
}

/// Both entries agree on everything that the generators make.
#[test]
fn entries_agree() {
    for case in sweep(1).iter().step_by(7) {
        run(case);
    }
    for index in 0..4000 {
        run(&random_case(&mut Random::for_case(5, index)));
    }
}
