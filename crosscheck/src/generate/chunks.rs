//! Batches that come in parts: every cut of short ones, each way in which a chunk may be
//! odd, sums around the limit, and any batch cut in any way.

use super::batch::{self, base, flat, Command, CHIPS, NO_CHIPS};
use super::{fuzz, order};
use crate::batch::{known, total, END, LIMIT, NOOP, OBJECT, RECORD};
use crate::random::Random;
use std::ops::Range;

/// A batch, and the calls that hand it over.
#[derive(Clone)]
pub struct Case {
    /// What the case is about.
    pub sort: &'static str,
    pub batch: Vec<u32>,
    pub calls: Vec<Call>,
}

/// What is lent to one call.
#[derive(Clone, Debug)]
pub struct Call {
    pub chip: u32,
    /// The part of the batch.
    pub chunk: Range<usize>,
    /// Any number but 0 marks the last chunk.
    pub last: u32,
    pub capacity: u32,
    /// Words of the record buffer.
    pub records: usize,
}

impl Case {
    /// A batch with cuts before these dwords, in rising order.
    fn new(sort: &'static str, whole: batch::Case, cuts: &[usize]) -> Self {
        let ends = cuts.iter().copied().chain([whole.batch.len()]);
        let mut start = 0;
        let calls = ends.map(|end| {
            let chunk = start..end;
            start = end;
            Call {
                chip: whole.chip,
                chunk,
                last: 0,
                capacity: whole.capacity,
                records: whole.records,
            }
        });
        let mut calls: Vec<Call> = calls.collect();
        calls.last_mut().expect("one chunk at least").last = 1;
        Case {
            sort,
            batch: whole.batch,
            calls,
        }
    }

    /// Words that the record buffer needs for all calls.
    pub fn records(&self) -> usize {
        let records = self.calls.iter().map(|call| call.records);
        records.max().unwrap_or(0)
    }

    /// Which call answers.
    pub fn answers(&self) -> usize {
        let last = self.calls.iter().position(|call| call.last != 0);
        last.expect("a last chunk")
    }

    /// Whether all calls up to the answer name one chip, capacity and buffer.
    pub fn is_one(&self) -> bool {
        let lent = |call: &Call| (call.chip, call.capacity, call.records);
        let calls = &self.calls[..=self.answers()];
        calls.iter().all(|call| lent(call) == lent(&calls[0]))
    }

    /// Calls after the answer, with any part of the batch.
    fn and_more(mut self, random: &mut Random) -> Self {
        let chip = self.calls[0].chip;
        for _ in 0..random.between(1, 4) {
            let mut call = self.calls[0].clone();
            call.chip = random.pick(&[chip, chip, 6, 7, 0, 8]);
            call.last = random.pick(&[0, 0, 1, MARKS[3]]);
            let start = random.below(self.batch.len() + 1);
            let end = random.between(start, self.batch.len());
            call.chunk = match random.below(3) {
                0 => start..start,
                _ => start..end,
            };
            self.calls.push(call);
        }
        self
    }

    /// Other numbers that mark the last chunk.
    fn marked(mut self, random: &mut Random) -> Self {
        let answers = self.answers();
        self.calls[answers].last = random.pick(&MARKS);
        self
    }
}

const MARKS: [u32; 5] = [1, 1, 2, 1 << 31, u32::MAX];

/// The sorts of cases.
pub const ONE_CUT: &str = "one cut";
pub const TWO_CUTS: &str = "two cuts";
pub const SINGLE: &str = "one dword a chunk";
pub const EMPTY_FIRST: &str = "empty chunk first";
pub const EMPTY_BETWEEN: &str = "empty chunk between";
pub const EMPTY_LAST: &str = "empty chunk last";
pub const EMPTY_ALONE: &str = "empty chunk alone";
pub const ANY_CUTS: &str = "any cuts";
pub const NO_CHIP: &str = "no chip";
pub const NO_CHIP_FIRST: &str = "no chip at first";
pub const NO_CHIP_BETWEEN: &str = "no chip in between";
pub const NO_CHIP_LAST: &str = "no chip at last";
pub const OTHER_CHIP: &str = "another chip in each call";
pub const OTHER_CAPACITY: &str = "another capacity in each call";
pub const OTHER_ROOM: &str = "another record buffer in each call";
pub const BELOW_LIMIT: &str = "16,383 dwords";
pub const AT_LIMIT: &str = "16,384 dwords";
pub const OVER_LIMIT: &str = "16,385 dwords";
pub const FAR_OVER: &str = "more dwords";
pub const END_EARLY: &str = "END early, too many dwords after it";
pub const FAULT_EARLY: &str = "fault early, too many dwords after it";
pub const ENDS_AT_LIMIT: &str = "command that ends at the limit";
pub const CROSSES_LIMIT: &str = "command that crosses the limit";
pub const NO_ROOM: &str = "0 words for records";
pub const ROOM_15: &str = "15 words for records";
pub const ROOM_16: &str = "16 words for records";
pub const ROOM_17: &str = "17 words for records";
pub const ONE_SHORT: &str = "one record short";
pub const WORD_SHORT: &str = "one word short";
pub const EXACT_ROOM: &str = "exact room for records";

/// One random case: any batch, cut in any way.
pub fn random_case(random: &mut Random) -> Case {
    let whole = match random.below(12) {
        0..=2 => fuzz::batch(random),
        3 => order::random_case(random).batch,
        4 => {
            let (chip, dwords) = (random.pick(&CHIPS), random.between(20, 300));
            with_room(chip, batch::mixed_of(random, chip, dwords), u32::MAX)
        }
        _ => batch::random_case(random),
    };
    cut_anyhow(random, whole)
}

/// The batch cut in any way, at times with calls after the answer.
pub fn cut_anyhow(random: &mut Random, whole: batch::Case) -> Case {
    let sort = match known(whole.chip) {
        true => ANY_CUTS,
        false => NO_CHIP,
    };
    let cuts = any_cuts(random, whole.batch.len());
    let case = Case::new(sort, whole, &cuts).marked(random);
    match random.one_in(3) {
        true => case.and_more(random),
        false => case,
    }
}

/// Any cuts of so many dwords, in rising order: chunks of one length, or any.
fn any_cuts(random: &mut Random, dwords: usize) -> Vec<usize> {
    let least = 1 + dwords / 64;
    let mut cuts: Vec<usize> = match random.below(8) {
        0 => Vec::new(),
        1 | 2 => {
            let length = random.pick(&[1, 2, 3, 7, 8, 9, 16, 64]);
            (0..dwords).step_by(length.max(least)).skip(1).collect()
        }
        _ => {
            let most = random.pick(&[1, 2, 4, 12]);
            let count = random.between(1, most);
            (0..count).map(|_| random.below(dwords + 1)).collect()
        }
    };
    // Chunks of no dwords, wherever.
    for _ in 0..random.pick(&[0, 0, 0, 1, 2]) {
        let any = random.below(dwords + 1);
        cuts.push(random.pick(&[0, any, dwords]));
    }
    cuts.sort_unstable();
    cuts
}

/// A case of the batch check with room for a record each dword, and some more.
fn with_room(chip: u32, batch: Vec<u32>, capacity: u32) -> batch::Case {
    batch::Case {
        chip,
        records: RECORD * batch.len() + 20,
        batch,
        tail: Vec::new(),
        capacity,
        records_tail: 0,
    }
}

/// The fixed cases, on both chips. The seed fills what no rule looks at, and cuts the
/// batch check's own cases.
pub fn sweep(seed: u64) -> Vec<Case> {
    let whole = batch::sweep(seed);
    let mut cases = Vec::new();
    for chip in CHIPS {
        let mut sweep = Sweep {
            chip,
            random: Random::new(seed),
            cases,
        };
        sweep.every_cut(&whole);
        sweep.empty_chunks();
        sweep.no_chips();
        sweep.other_lendings();
        sweep.rooms();
        sweep.limits();
        sweep.ends_and_faults_early();
        cases = sweep.cases;
    }
    let random = &mut Random::new(seed);
    let cut = whole.into_iter().map(|whole| cut_anyhow(random, whole));
    cases.extend(cut);
    cases
}

struct Sweep {
    chip: u32,
    random: Random,
    cases: Vec<Case>,
}

/// Dwords of a short batch, of which all cuts are made.
const SHORT: usize = 40;

/// Dwords of one of which all pairs of cuts are made.
const SHORTEST: usize = 16;

impl Sweep {
    fn add(&mut self, sort: &'static str, whole: &batch::Case, cuts: &[usize]) {
        let case = Case::new(sort, whole.clone(), cuts).marked(&mut self.random);
        self.cases.push(case);
    }

    /// Short batches among those of the batch check's sweep, and an OBJECT with inline
    /// data: one cut everywhere, two cuts everywhere, a chunk a dword.
    fn every_cut(&mut self, whole: &[batch::Case]) {
        let short = |whole: &&batch::Case| {
            let length = whole.batch.len();
            whole.chip == self.chip && (1..=SHORT).contains(&length)
        };
        // A prime, so that all parts of the sweep have their share.
        let short = whole.iter().filter(short).step_by(61).cloned();
        let mut all: Vec<batch::Case> = short.collect();
        all.extend(self.inline_data());
        all.extend(self.every_number());
        for whole in &all {
            let dwords = whole.batch.len();
            for cut in 0..=dwords {
                self.add(ONE_CUT, whole, &[cut]);
            }
            let single: Vec<usize> = (1..dwords).collect();
            self.add(SINGLE, whole, &single);
        }
        let shortest = |whole: &&batch::Case| whole.batch.len() <= SHORTEST;
        for whole in all.iter().filter(shortest) {
            let dwords = whole.batch.len();
            for first in 0..=dwords {
                for second in first..=dwords {
                    self.add(TWO_CUTS, whole, &[first, second]);
                }
            }
        }
    }

    /// Short batches for each number that a command or the end may bring.
    fn every_number(&self) -> Vec<batch::Case> {
        let [noop, flush, end] = [0, 1, 2].map(Command::plain);
        let vfe = base(self.chip).swap_remove(2);
        let [load, other] = [64, 48].map(|length| Command::load(5, length, 0x1000));
        let [curbe, long] = [128, 160].map(|length| Command::load(4, length, 0x40));
        let batches = [
            vec![end.clone()],
            vec![vfe.clone(), load.clone(), end.clone()],
            vec![vfe.clone(), curbe, end.clone()],
            vec![noop.clone(), flush.clone(), noop.clone()],
            vec![vfe.clone()],
            vec![noop.clone(), flush.flipped(0, 0), end.clone()],
            vec![noop, vfe.flipped(0, 0), end.clone()],
            vec![vfe.flipped(3, 0), end.clone()],
            vec![vfe.clone(), other, end.clone()],
            vec![flush, load, end.clone()],
            vec![vfe.clone(), long, end],
        ];
        let mut all: Vec<Vec<u32>> = batches.iter().map(|commands| flat(commands)).collect();
        all.push(vfe.words[..7].to_vec());
        all.into_iter()
            .map(|batch| with_room(self.chip, batch, 6))
            .collect()
    }

    /// OBJECTs with inline data of each short length, sound, at fault or too long.
    fn inline_data(&mut self) -> Vec<batch::Case> {
        let mut all = Vec::new();
        for inline in [0, 1, 2, 3, 9, 12] {
            let before = base(self.chip)[2..5].to_vec();
            let sound = Command::object(&mut self.random, self.chip, 0, inline);
            let mut longer = sound.clone();
            longer.words[0] += 2;
            let faults = [
                sound.clone(),
                sound.flipped(5, 31),
                sound.flipped(1, 5),
                longer,
            ];
            for object in faults {
                let commands = [&before[..], &[object, Command::plain(2)]].concat();
                all.push(with_room(self.chip, flat(&commands), 6));
            }
        }
        all
    }

    fn empty_chunks(&mut self) {
        let base = with_room(self.chip, flat(&base(self.chip)), 6);
        let dwords = base.batch.len();
        for count in 1..4 {
            self.add(EMPTY_FIRST, &base, &vec![0; count]);
            self.add(EMPTY_LAST, &base, &vec![dwords; count]);
            for cut in 1..dwords {
                self.add(EMPTY_BETWEEN, &base, &vec![cut; 1 + count]);
            }
            let nothing = with_room(self.chip, Vec::new(), 6);
            self.add(EMPTY_ALONE, &nothing, &vec![0; count - 1]);
        }
    }

    /// A number of no chip in one call or in all; the other calls name the chip. With and
    /// without a fault before.
    fn no_chips(&mut self) {
        let sound = flat(&base(self.chip));
        let dwords = sound.len();
        let mut faulty = sound.clone();
        faulty[0] = 1;
        let long = vec![END; LIMIT + 1];
        let near = (0..32).map(|bit| self.chip ^ 1 << bit);
        let numbers: Vec<u32> = NO_CHIPS.into_iter().chain(near).collect();
        for chip in numbers.into_iter().filter(|&chip| !known(chip)) {
            for batch in [&sound, &faulty, &Vec::new(), &long] {
                let whole = with_room(self.chip, batch.clone(), 6);
                let cuts = [batch.len() / 3, batch.len() / 2];
                for (at, sort) in [
                    (0..3, NO_CHIP),
                    (0..1, NO_CHIP_FIRST),
                    (1..2, NO_CHIP_BETWEEN),
                    (2..3, NO_CHIP_LAST),
                ] {
                    let mut case = Case::new(sort, whole.clone(), &cuts);
                    case.calls[at].iter_mut().for_each(|call| call.chip = chip);
                    self.cases.push(case.and_more(&mut self.random));
                }
            }
            // In a chunk of no dwords.
            let whole = with_room(self.chip, sound.clone(), 6);
            for (at, cuts) in [(0, [0, 9]), (1, [9, 9]), (2, [9, dwords])] {
                let mut case = Case::new(NO_CHIP_BETWEEN, whole.clone(), &cuts);
                case.calls[at].chip = chip;
                self.cases.push(case);
            }
        }
    }

    /// Each call goes by what it is given; a command that was cut goes by the call in which
    /// its last dword comes.
    fn other_lendings(&mut self) {
        for _ in 0..400 {
            let dwords = self.random.between(20, 120);
            let batch = batch::mixed_of(&mut self.random, self.chip, dwords);
            let exact = RECORD * starts(&batch).len();
            let whole = with_room(self.chip, batch, u32::MAX);

            let cuts = any_cuts(&mut self.random, dwords);
            let mut case = Case::new(OTHER_CHIP, whole.clone(), &cuts);
            for call in &mut case.calls {
                call.chip = self.random.pick(&CHIPS);
            }
            self.cases.push(case);

            let mut case = Case::new(OTHER_CAPACITY, whole.clone(), &cuts);
            for call in &mut case.calls {
                call.capacity = self.random.pick(&[0, 6, 100_000, u32::MAX, u32::MAX]);
            }
            self.cases.push(case);

            let mut case = Case::new(OTHER_ROOM, whole, &cuts);
            for call in &mut case.calls {
                let any = self.random.below(exact + 20);
                call.records = self.random.pick(&[0, 15, any, exact, exact, exact + 3]);
            }
            self.cases.push(case);
        }
    }

    /// Record buffers of each length around what the base needs (rule 10), and for faults.
    fn rooms(&mut self) {
        let commands = base(self.chip);
        let exact = RECORD * commands.len();
        let sound = flat(&commands);
        let mut faulty = sound.clone();
        *faulty.last_mut().expect("END") = 1;
        let rooms = [
            (NO_ROOM, 0),
            (ROOM_15, 15),
            (ROOM_16, 16),
            (ROOM_17, 17),
            (ONE_SHORT, exact - RECORD),
            (WORD_SHORT, exact - 1),
            (EXACT_ROOM, exact),
            (EXACT_ROOM, exact + 15),
        ];
        for (sort, records) in rooms {
            for batch in [&sound, &faulty] {
                let whole = batch::Case {
                    records,
                    ..with_room(self.chip, batch.clone(), 6)
                };
                for cut in 0..=sound.len() {
                    self.add(sort, &whole, &[cut]);
                }
                let case = cut_anyhow(&mut self.random, whole);
                self.cases.push(Case { sort, ..case });
            }
        }
    }

    /// OBJECTs up to a command around the limit, sound or at fault, at times END; as long
    /// as that is, cut off, or longer (rules 1, 2 and 5).
    fn limits(&mut self) {
        for start in LIMIT - 11..=LIMIT + 1 {
            let before = self.filled(start);
            for command in self.around_the_limit() {
                let end = start + command.words.len();
                let mut batch = [&before[..], &command.words].concat();
                if self.random.one_in(2) {
                    batch.push(END);
                }
                for length in [batch.len(), LIMIT - 1, LIMIT, LIMIT + 1, LIMIT + 5_000] {
                    let mut batch = batch.clone();
                    batch.resize(length, NOOP);
                    let sort = match end {
                        LIMIT => ENDS_AT_LIMIT,
                        _ if start < LIMIT && end > LIMIT => CROSSES_LIMIT,
                        _ => by_length(length),
                    };
                    self.cut_at_the_limit(sort, batch);
                }
            }
        }
    }

    /// Commands that pass after a VFE and a descriptor load, and each with a wrong bit, in
    /// the last dword that is judged.
    fn around_the_limit(&mut self) -> Vec<Command> {
        let random = &mut self.random;
        let mut sound = vec![
            (Command::plain(0), 0, 0),
            (Command::plain(1), 0, 0),
            (Command::plain(2), 0, 0),
            (Command::load(4, 0, 0x40), 3, 0),
            (Command::plain(6), 1, 31),
            (Command::object(random, self.chip, 0, 0), 5, 31),
            (Command::object(random, self.chip, 0, 3), 5, 31),
        ];
        if self.chip == 6 {
            sound.push((Command::random(random, 6, 8), 1, 31));
        }
        let both = |(sound, dword, bit): (Command, usize, u32)| [sound.flipped(dword, bit), sound];
        sound.into_iter().flat_map(both).collect()
    }

    /// A VFE, a descriptor load and OBJECTs with much inline data, so many dwords in all.
    fn filled(&mut self, dwords: usize) -> Vec<u32> {
        let mut batch = flat(&[&base(self.chip)[2..3], &base(self.chip)[4..5]].concat());
        while batch.len() < dwords {
            let left = dwords - batch.len();
            match left {
                0..=5 => batch.push(NOOP),
                _ => {
                    let inline = (left - 6).min(self.random.between(1_000, 3_000));
                    let object = Command::object(&mut self.random, self.chip, 0, inline);
                    batch.extend(object.words);
                }
            }
        }
        batch
    }

    /// At once, cut at the limit or next to it, and anyhow.
    fn cut_at_the_limit(&mut self, sort: &'static str, batch: Vec<u32>) {
        // Room for all but no-ops at the end.
        let whole = batch::Case {
            records: 1_000,
            ..with_room(self.chip, batch, 6)
        };
        let length = whole.batch.len();
        let near = self.random.between(LIMIT - 12, LIMIT + 2).min(length);
        let near = [near, LIMIT.min(length)];
        let cuts = match self.random.below(4) {
            0 => vec![],
            1 => near[1..].to_vec(),
            2 => near[..1].to_vec(),
            _ => any_cuts(&mut self.random, length),
        };
        self.add(sort, &whole, &cuts);
    }

    /// END or a fault long before the limit, and dwords enough after it (rule 1).
    fn ends_and_faults_early(&mut self) {
        for length in [LIMIT - 1, LIMIT, LIMIT + 1, LIMIT + 2, 20_000, 70_000] {
            for (sort, header) in [
                (END_EARLY, END),
                (FAULT_EARLY, 1),
                (FAULT_EARLY, OBJECT << 16),
            ] {
                for early in [0, 1, 30, 8_000, LIMIT - 2] {
                    let mut batch = self.filled(early.max(12));
                    batch.push(header);
                    batch.resize(length, self.random.pick(&[NOOP, END, 1]));
                    let sort = match length > LIMIT {
                        true => sort,
                        false => by_length(length),
                    };
                    for _ in 0..3 {
                        self.cut_at_the_limit(sort, batch.clone());
                    }
                }
            }
            // No-ops, each with its record.
            for end in [0, length / 2, length - 1, length] {
                let mut batch = vec![NOOP; length];
                batch.extend([END]);
                batch.swap_remove(end);
                let whole = with_room(self.chip, batch, 0);
                let cuts: Vec<usize> = (0..length).step_by(4_096).skip(1).collect();
                self.add(by_length(length), &whole, &cuts);
            }
        }
    }
}

fn by_length(length: usize) -> &'static str {
    match length {
        ..LIMIT => BELOW_LIMIT,
        LIMIT => AT_LIMIT,
        length if length == LIMIT + 1 => OVER_LIMIT,
        _ => FAR_OVER,
    }
}

/// Where the commands of a batch begin that passes, up to END.
fn starts(batch: &[u32]) -> Vec<usize> {
    let mut starts = Vec::new();
    let mut place = 0;
    while let Some(&header) = batch.get(place) {
        starts.push(place);
        place = match header {
            END => batch.len(),
            header if header >> 28 == 7 => place + total(header),
            _ => place + 1,
        };
    }
    starts
}

#[cfg(test)]
mod tests;
