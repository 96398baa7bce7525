use super::*;
use crate::generate::isolation::other_input;
use crate::listing::{listing, NAMES};

fn text(chip: u32, input: &[u8]) -> String {
    String::from_utf8(listing(chip, input)).expect("plain text")
}

/// The fixed inputs alone reach every number that can occur, and every name of the chip.
#[test]
fn sweep_reaches_every_number_and_name() {
    let (gateway, names) = NAMES.split_last().expect("a name");
    let texts = reached(7, names);
    assert!(texts.iter().all(|text| !text.contains(gateway)));
    reached(6, &NAMES);
}

/// The texts of the fixed inputs, all numbers and these names among them.
fn reached(chip: u32, names: &[&str]) -> Vec<String> {
    let inputs = sweep(1, chip);
    let texts: Vec<String> = inputs.iter().map(|input| text(chip, input)).collect();
    for number in (1..=9).chain([17]) {
        let line = format!("\nrefused {number} at ");
        assert!(texts.iter().any(|text| text.contains(&line)), "{number}");
    }
    for name in names {
        let word = format!(" {name} ");
        assert!(texts.iter().any(|text| text.contains(&word)), "{name}");
    }
    assert!(texts.iter().all(|text| !text.contains("refused 10 ")));
    texts
}

/// No sort of input is rare among the random ones.
#[test]
fn random_cases_are_mixed() {
    for chip in batch::CHIPS {
        let input = |index| random_case(&mut Random::for_case(1, index), chip);
        let texts: Vec<String> = (0..2000).map(|index| text(chip, &input(index))).collect();
        let with = |word: &str| texts.iter().filter(|text| text.contains(word)).count();
        assert!(with("accepted") > 300, "{}", with("accepted"));
        assert!(with("refused 1 ") > 20, "{}", with("refused 1 "));
        assert!(with("refused 17 ") > 100, "{}", with("refused 17 "));
    }
}

/// Inputs that differ only in inline data passed get the same text.
#[test]
fn inline_data_is_not_listed() {
    let mut differing = 0;
    for index in 0..1000 {
        let random = &mut Random::for_case(3, index);
        let chip = random.pick(&batch::CHIPS);
        let input = random_case(random, chip);
        let other = other_input(random, chip, &input);
        differing += usize::from(other != input);
        assert_eq!(text(chip, &other), text(chip, &input));
    }
    assert!(differing > 100, "{differing}");
}
