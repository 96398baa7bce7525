use super::*;
use crate::replay::replay;

fn replayed(case: &Case) -> (u32, Vec<u8>) {
    let mut registers = vec![0; case.registers];
    let mut counts = vec![0; case.counts];
    let mut outcomes = vec![99; case.outcomes];
    let answer = replay(&case.recording, &mut registers, &mut counts, &mut outcomes);
    (answer.number, outcomes)
}

#[test]
fn sweep_reaches_every_number_and_outcome() {
    let mut numbers = [0; 17];
    let mut met = [0; 100];
    for case in sweep(1) {
        let (number, outcomes) = replayed(&case);
        numbers[number as usize] += 1;
        for outcome in outcomes {
            met[usize::from(outcome)] += 1;
        }
    }
    for number in [0].into_iter().chain(11..=16) {
        assert!(numbers[number] > 0, "{number}");
    }
    for outcome in [0].into_iter().chain(31..=39) {
        assert!(met[outcome] > 0, "{outcome}");
    }
}

/// Most random recordings pass, and no outcome is rare in them.
#[test]
fn random_cases_are_mostly_sound() {
    let mut passed = 0;
    let mut met = [0; 100];
    for index in 0..4000 {
        let (number, outcomes) = replayed(&random_case(&mut Random::for_case(6, index)));
        passed += usize::from(number == 0);
        if number == 0 {
            for outcome in outcomes {
                met[usize::from(outcome)] += 1;
            }
        }
    }
    assert!(passed > 3000, "{passed}");
    for outcome in [0].into_iter().chain(31..=39) {
        assert!(met[outcome] > 300, "{outcome}: {}", met[outcome]);
    }
}

#[test]
fn forwards_are_accepted() {
    let [mixed, under_bypass, through_gateways] = longest();
    for case in [under_bypass, through_gateways] {
        let (number, outcomes) = replayed(&case);
        assert_eq!((number, outcomes.len()), (0, MOST));
        assert!(outcomes.iter().all(|&outcome| outcome == 0));
    }
    let (number, outcomes) = replayed(&mixed);
    assert_eq!((number, outcomes.len()), (0, MOST));
    let accepted = outcomes.iter().filter(|&&outcome| outcome == 0).count();
    assert!((MOST / 2..MOST * 4 / 5).contains(&accepted), "{accepted}");
}

/// Every event of a recording of one kind has that kind's outcome.
#[test]
fn recordings_of_one_kind() {
    use kinds::{Kind, Route};
    let mut kinds = vec![
        Kind::Opens,
        Kind::Closes,
        Kind::LastBytes,
        Kind::OneRegister,
        Kind::RefusedForwards,
        Kind::Timestamps,
        Kind::Barriers(1),
        Kind::Barriers(4),
        Kind::Barriers(16),
        Kind::Updates,
        Kind::Mixed,
        Kind::Malformed,
    ];
    for route in [Route::Bypass, Route::Gateways] {
        kinds.extend((0..6).map(|code| Kind::Forwards(route, code)));
        kinds.extend([Kind::AnyForwards(route), Kind::AckedForwards(route)]);
    }
    for kind in kinds {
        let case = kind.recording(2000);
        let mut outcomes = vec![99; case.outcomes];
        let answer = replay(
            &case.recording,
            &mut vec![0; case.registers],
            &mut vec![0; case.counts],
            &mut outcomes,
        );
        assert_eq!((answer.number, outcomes.len()), (0, 2000), "{kind:?}");
        if let Some(outcome) = kind.outcome() {
            assert!(outcomes.iter().all(|&other| other == outcome), "{kind:?}");
        }
    }
}
