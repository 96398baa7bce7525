use super::*;
use crate::order::{check, check_bytes, Answer};

fn checked(case: &Case) -> (Answer, Vec<u8>) {
    let mut records = vec![0; case.batch.records];
    let mut states = vec![9; case.states];
    let answer = check(
        case.batch.chip,
        &case.batch.batch,
        case.batch.capacity,
        &case.run,
        &mut records,
        &mut states,
    );
    (answer, states)
}

/// The second implementation against the rules in the paper's own words.
#[test]
fn scenes_are_judged_alike() {
    let mut reached = [0; 26];
    for index in 0..20_000 {
        let mut random = Random::for_case(3, index);
        let scene = any_scene(&mut random);
        let run = any_run(&mut random, &scene);
        let expected = scene.judge(&run);
        let case = Case::new(&scene, run);
        assert_eq!(checked(&case), expected, "case {index}");
        reached[expected.0.number as usize] += 1;
    }
    for number in [0, 21, 22, 23, 24, 25] {
        assert!(reached[number] > 500, "{number}: {}", reached[number]);
    }
}

#[test]
fn long_runs_are_judged_alike() {
    let mut reached = [0; 26];
    for index in 0..80 {
        let (scene, run) = long_run(&mut Random::for_case(6, index));
        let expected = scene.judge(&run);
        let case = Case::new(&scene, run);
        assert_eq!(checked(&case), expected, "case {index}");
        reached[expected.0.number as usize] += 1;
    }
    for number in [0, 22, 24, 25] {
        assert!(reached[number] > 0, "{number}");
    }
}

#[test]
fn complete_runs_pass() {
    for index in 0..500 {
        let mut random = Random::for_case(4, index);
        let scene = any_scene(&mut random);
        let habit = Habit {
            starts: random.between(1, 8),
            any: random.one_in(2),
        };
        let mut follower = Follower::new(&scene);
        follower.follow(&mut random, habit, usize::MAX);
        let run = follower.run;
        assert_eq!(run.len(), 2 * scene.objects());
        let (answer, states) = checked(&Case::new(&scene, run.clone()));
        assert_eq!(answer, Answer::new(0, run.len()));
        assert!(states.iter().all(|&state| state == 2));
    }
}

fn passes_whole(scene: &Scene, run: &[u32]) {
    let (answer, _) = checked(&Case::new(scene, run.to_vec()));
    assert_eq!(answer, Answer::new(0, 2 * scene.objects()));
    assert_eq!(answer, scene.judge(run).0);
}

/// In one pass, and in three.
#[test]
fn pictures_pass() {
    for layout in [Layout::Raster, Layout::Waves] {
        for stalling in [false, true] {
            for (width, height) in [(1, 1), (1, 9), (9, 1), PICTURE] {
                for chip in CHIPS {
                    let (scene, run) = picture(chip, (width, height), layout, stalling);
                    assert_eq!(scene.objects(), (width * height) as usize);
                    passes_whole(&scene, &run);
                    let (scene, run) = passes(chip, (width, height / 3), layout, stalling);
                    assert_eq!(scene.objects(), (3 * width * (height / 3)) as usize);
                    passes_whole(&scene, &run);
                }
            }
        }
    }
}

#[test]
fn sweep_reaches_every_number() {
    let mut dwords = [[0; 26]; 3];
    let mut bytes = [[0; 26]; 3];
    let mut odd_run = [0; 3];
    for case in sweep(1) {
        let named = |&chip: &u32| chip == case.batch.chip;
        let chip = CHIPS.iter().position(named).unwrap_or(2);
        dwords[chip][checked(&case).0.number as usize] += 1;
        let mut records = vec![0; case.batch.record_bytes()];
        let mut states = vec![9; case.states];
        let answer = check_bytes(
            case.batch.chip,
            &case.batch.bytes(),
            case.batch.capacity,
            &case.run_bytes(),
            &mut records,
            &mut states,
        );
        bytes[chip][answer.number as usize] += 1;
        odd_run[chip] += usize::from(answer.number == 17 && case.batch.tail.is_empty());
    }
    for chip in 0..2 {
        let (dwords, bytes) = (&dwords[chip], &bytes[chip]);
        for number in (0..=10).chain(20..=25) {
            assert!(dwords[number] > 0 && bytes[number] > 0, "{number}");
        }
        assert!(odd_run[chip] > 0 && bytes[17] > odd_run[chip]);
        assert_eq!([dwords[17], dwords[18], bytes[18]], [0; 3]);
    }
    // Where the number names no chip, it is 18 alone.
    for numbers in [dwords[2], bytes[2]] {
        assert!(numbers[18] > 0);
        assert_eq!(numbers.iter().sum::<usize>(), numbers[18]);
    }
}
