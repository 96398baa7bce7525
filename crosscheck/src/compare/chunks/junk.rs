//! Carried states that no call returned, by the words of the library's header: when they
//! are answered with 19, and what holds of the others.

use super::super::{Faults, Plan, Report, Tally};
use super::{changed, given};
use crate::batch::{known, Answer, LIMIT, RECORD};
use crate::ffi::{self, chunks::Carried, chunks::Fed};
use crate::generate::chunks::{random_case, Case};
use crate::guard::Guarded;
use crate::random::Random;

pub fn run(plan: &Plan, report: &mut Report) {
    let mut tally = Tally::new("carried states that no call returned", []);
    for (_, why) in CLAUSES {
        tally = tally.and(19, why);
    }
    tally = tally.and(19, "after an answer");
    for number in (0..=10).chain([18]) {
        tally = tally.and(number, GONE_ON);
    }
    tally = tally.and(0, MORE);
    plan.each(&[], random_junk, |index, junk, random| {
        let outcome = check(junk, random, &mut tally);
        report.case(outcome.map_err(|found| {
            let again = plan.again(index);
            format!("{again}, carried state:\n  {:x?}\n  {found}", junk.carried)
        }));
    });
    if plan.only.is_none() {
        tally.print(report);
    }
}

const GONE_ON: &str = "gone on";
const MORE: &str = "gone on, more";

/// A clause of the header, and whether it holds of a state.
type Clause = (fn(&Carried) -> bool, &'static str);

/// When such a state is answered with 19: where one of these holds.
const CLAUSES: [Clause; 7] = [
    (|c| c.answered != 0, "answered"),
    (|c| c.dwords > 16_385, "dwords over 16,385"),
    (
        |c| !matches!(c.stop, 0 | 3..=9 | 18 | 255),
        "stop of no sort",
    ),
    (
        |c| c.stop == 0 && sum(c) > c.dwords.into(),
        "place and got over dwords",
    ),
    (
        |c| c.stop == 0 && sum(c) > 16_384,
        "place and got over 16,384",
    ),
    (
        |c| c.stop == 0 && c.commands > c.place,
        "commands over place",
    ),
    (|c| c.stop == 0 && c.objects > c.place, "objects over place"),
];

/// As a whole number.
fn sum(carried: &Carried) -> u64 {
    u64::from(carried.place) + u64::from(carried.got)
}

/// A state, and the batch that is handed over from there.
struct Junk {
    carried: Carried,
    case: Case,
}

fn random_junk(random: &mut Random) -> Junk {
    let mut case = random_case(random);
    while case.batch.len() > 2_000 {
        case = random_case(random);
    }
    let mut carried = match random.one_in(4) {
        true => anything(random),
        false => genuine(random),
    };
    for _ in 0..random.pick(&[0, 1, 1, 1, 1, 2, 3]) {
        let field = random.below(FIELDS);
        *field_of(&mut carried, field) = any_number(random);
    }
    Junk { carried, case }
}

/// Numbers in a carried state.
const FIELDS: usize = 23;

fn field_of(carried: &mut Carried, field: usize) -> &mut u32 {
    match field {
        0 => &mut carried.answered,
        1 => &mut carried.dwords,
        2 => &mut carried.stop,
        3 => &mut carried.place,
        4 => &mut carried.got,
        5 => &mut carried.earlier_vfe,
        6 => &mut carried.vfe_in_force,
        7 => &mut carried.vfe_dword_1,
        8 => &mut carried.vfe_dword_2,
        9 => &mut carried.vfe_dword_3,
        10 => &mut carried.vfe_dword_4,
        11 => &mut carried.count_loaded,
        12 => &mut carried.standing,
        13 => &mut carried.commands,
        14 => &mut carried.objects,
        own => &mut carried.own[own - 15],
    }
}

/// A number around one that a rule knows, or any.
fn any_number(random: &mut Random) -> u32 {
    let limit = LIMIT as u32;
    let near = random.pick(&[0, 1, 8, 18, 64, 255, 16, limit, limit, limit + 1, u32::MAX]);
    match random.below(4) {
        0 => near.wrapping_add(random.pick(&[0, 1, u32::MAX])),
        1 => random.below(40) as u32,
        2 => random.word(),
        _ => random.pick(&[
            0x7100_0004,
            0x7100_ffff,
            0x7000_0006,
            0x7003_0000,
            0x0500_0000,
        ]),
    }
}

/// Numbers of any sort, at times such that no clause holds.
fn anything(random: &mut Random) -> Carried {
    let mut carried = Carried::default();
    for field in 0..FIELDS {
        *field_of(&mut carried, field) = any_number(random);
    }
    if random.one_in(2) {
        carried.answered = 0;
        let any = random.below(LIMIT + 2);
        carried.dwords = random.pick(&[any, any, LIMIT, LIMIT + 1]) as u32;
        carried.stop = random.pick(&[0, 0, 0, 3, 4, 5, 6, 7, 8, 9, 18, 255]);
        carried.place = random.below(carried.dwords as usize + 1) as u32;
        let most = carried.dwords - carried.place;
        let got = random.below(most as usize + 1) as u32;
        carried.got = random.pick(&[got, got, most]);
        carried.commands = random.below(carried.place as usize + 1) as u32;
        carried.objects = random.below(carried.place as usize + 1) as u32;
    }
    carried
}

/// One that the library returned, somewhere on the way.
fn genuine(random: &mut Random) -> Carried {
    let case = random_case(random);
    let mut records = vec![0; case.records()];
    let mut carried = Carried::default();
    let calls = random.below(case.calls.len() + 1);
    for call in &case.calls[..calls] {
        let chunk = &case.batch[call.chunk.clone()];
        let room = &mut records[..call.records];
        let fed = ffi::chunks::feed(call.chip, &carried, chunk, call.last, call.capacity, room);
        carried = fed.carried;
    }
    carried
}

/// The calls from the state on, each by the header's words.
fn check(junk: &Junk, random: &mut Random, tally: &mut Tally) -> Result<(), String> {
    let mut carried = junk.carried;
    let mut records = Guarded::filled(random, junk.case.records());
    for (at, call) in junk.case.calls.iter().take(4).enumerate() {
        let chunk = super::guarded_chunk(&junk.case, call, random);
        let lent = Lent {
            carried,
            chip: call.chip,
            last: call.last,
            room: call.records,
            chunk: chunk.clone(),
            records: records.clone(),
        };
        let room = &mut records.lent_mut()[..call.records];
        let fed = ffi::chunks::feed_framed(
            call.chip,
            &carried,
            chunk.lent(),
            call.last,
            call.capacity,
            room,
        )
        .ok_or("the library wrote outside what it gives back")?;
        let mut faults = Faults::default();
        faults.difference("chunk changed at", chunk.difference(&lent.chunk));
        let clause = CLAUSES.iter().find(|(holds, _)| holds(&carried));
        match clause {
            Some(_) => lent.refused(&fed, &records, &mut faults),
            None => lent.gone_on(&fed, &records, &mut faults),
        }
        if !faults.0.is_empty() {
            return Err(format!(
                "call {at}, {call:?}, from {carried:x?}: {}",
                faults.0
            ));
        }
        match clause {
            Some(_) if at > 0 && carried.answered == 1 => tally.count_of(19, "after an answer"),
            Some((_, why)) => tally.count_of(19, why),
            None if fed.more == 1 => tally.count_of(0, MORE),
            None => tally.count_of(fed.answer.number, GONE_ON),
        }
        carried = fed.carried;
    }
    Ok(())
}

/// What was lent to a call.
struct Lent {
    carried: Carried,
    chip: u32,
    last: u32,
    room: usize,
    chunk: Guarded<u32>,
    records: Guarded<u32>,
}

impl Lent {
    /// 19 at 0, and nothing changes.
    fn refused(&self, fed: &Fed, records: &Guarded<u32>, faults: &mut Faults) {
        if (fed.more, fed.answer) != (0, Answer::refused(19, 0)) {
            faults.add(
                "not 19, but",
                &format!("more {} {:?}", fed.more, fed.answer),
            );
        }
        if fed.carried != self.carried {
            faults.add("carried state", &changed(&self.carried, &fed.carried));
        }
        faults.difference("records changed at", records.difference(&self.records));
    }

    /// "more" or one of the numbers; and of the records none but whole ones change that
    /// come after those of the commands counted.
    fn gone_on(&self, fed: &Fed, records: &Guarded<u32>, faults: &mut Faults) {
        let Fed { more, answer, .. } = *fed;
        let sound = match (self.last, answer.number) {
            (0, _) => (more, answer) == given(None),
            (_, 0) => more == 0 && answer.place == 0,
            (_, 1..=10 | 18) => more == 0 && (answer.commands, answer.dwords) == (0, 0),
            _ => false,
        };
        let no_chip = !known(self.chip) || self.carried.stop == 18;
        let as_chip = self.last == 0 || (answer.number == 18) == no_chip;
        if !sound || !as_chip {
            faults.add("answer", &format!("more {more} {answer:?}"));
        }
        if fed.carried.answered != u32::from(self.last != 0) {
            faults.add("answered", &fed.carried.answered.to_string());
        }
        let reads = known(self.chip) && self.carried.stop == 0;
        let whole = self.room / RECORD * RECORD;
        let first = whole.min(RECORD * self.carried.commands as usize);
        let may_change = match reads {
            true => first..whole,
            false => 0..0,
        };
        if !records.differs_only_in(&self.records, may_change) {
            let at = records.difference(&self.records);
            faults.difference("records changed, first at", at);
        }
    }
}
