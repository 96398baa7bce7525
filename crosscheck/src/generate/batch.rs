//! Batches to compare on: a fixed sweep along the boundary of every rule, and
//! random ones, valid, damaged or junk.

use super::bytes;
use crate::batch::{
    known, CURBE, DESCRIPTOR, END, FLUSH, GATEWAY, LIMIT, NOOP, OBJECT, RECORD, STATE_FLUSH, VFE,
};
use crate::masks::{self, KINDS};
use crate::random::Random;
use std::ops::Range;

mod vfes;

/// The chips.
pub const CHIPS: [u32; 2] = [6, 7];

/// Numbers that name no chip.
pub const NO_CHIPS: [u32; 4] = [0, 5, 8, u32::MAX];

/// What is lent to both entries.
#[derive(Clone)]
pub struct Case {
    pub chip: u32,
    pub batch: Vec<u32>,
    /// Bytes after the last whole dword, for the byte entry.
    pub tail: Vec<u8>,
    pub capacity: u32,
    /// Words lent for records.
    pub records: usize,
    /// Bytes lent past those words, for the byte entry.
    pub records_tail: usize,
}

impl Case {
    pub fn bytes(&self) -> Vec<u8> {
        [bytes(&self.batch), self.tail.clone()].concat()
    }

    pub fn record_bytes(&self) -> usize {
        4 * self.records + self.records_tail
    }
}

/// What a VFE asks for: entries, entry size and CURBE size.
#[derive(Clone, Copy)]
pub(super) struct Rows(pub u32, pub u32, pub u32);

/// A command by itself; the kind is kept when its header is damaged.
#[derive(Clone)]
pub(super) struct Command {
    pub(super) kind: usize,
    pub(super) words: Vec<u32>,
}

/// The header of each kind with its shortest length, by kind.
const HEADERS: [u32; KINDS] = [
    NOOP,
    FLUSH,
    END,
    VFE << 16 | 6,
    CURBE << 16 | 2,
    DESCRIPTOR << 16 | 2,
    STATE_FLUSH << 16,
    OBJECT << 16 | 4,
    GATEWAY << 16,
];

/// Dwords that rules may look at, by kind.
const FIXED: [usize; KINDS] = [1, 1, 1, 8, 4, 4, 2, 6, 2];

/// The dwords of a VFE's scoreboard.
const SCOREBOARD: Range<usize> = 5..8;

/// Largest length that 17 bits hold in whole rows, in rows.
const ROWS_IN_17_BITS: u32 = 4095;

impl Command {
    /// The kind with zeros in all its fields.
    pub(super) fn plain(kind: usize) -> Self {
        let mut words = vec![0; FIXED[kind]];
        words[0] = HEADERS[kind];
        Command { kind, words }
    }

    /// Random bits wherever the chip's masks for the kind leave them free.
    pub(super) fn random(random: &mut Random, chip: u32, kind: usize) -> Self {
        let mut command = Command::plain(kind);
        for dword in 1..FIXED[kind] {
            command.words[dword] = random.word() & !masks::of(chip)[kind][dword];
        }
        command
    }

    pub(super) fn vfe(random: &mut Random, chip: u32, rows: Rows) -> Self {
        let Rows(entries, entry_size, curbe_size) = rows;
        let mut command = Command::random(random, chip, 3);
        command.words[2] = command.words[2] & 0xffff_00ff | entries << 8;
        command.words[4] = entry_size << 16 | curbe_size;
        command
    }

    /// The VFE with another scoreboard, in some of its dwords, in all or in none.
    fn other_scoreboard(&self, random: &mut Random, chip: u32) -> Self {
        let other = Command::random(random, chip, 3);
        let mut command = self.clone();
        for dword in SCOREBOARD {
            if random.one_in(2) {
                command.set(dword, other.words[dword]);
            }
        }
        command
    }

    /// One bit of a dword the other way.
    pub(super) fn flipped(&self, dword: usize, bit: u32) -> Self {
        let mut command = self.clone();
        command.set(dword, self.word(dword) ^ 1 << bit);
        command
    }

    /// A CURBE load or a descriptor load.
    pub(super) fn load(kind: usize, length: u32, address: u32) -> Self {
        let mut command = Command::plain(kind);
        command.words[2] = length;
        command.words[3] = address;
        command
    }

    pub(super) fn object(random: &mut Random, chip: u32, index: u32, inline: usize) -> Self {
        let mut command = Command::random(random, chip, 7);
        command.words[0] += inline as u32;
        command.words[1] = command.words[1] & !0x3f | index;
        command.words.extend((0..inline).map(|_| plausible(random)));
        command
    }

    /// A dword, 0 where damage has cut it off.
    fn word(&self, dword: usize) -> u32 {
        self.words.get(dword).copied().unwrap_or(0)
    }

    /// Changes a dword, if damage has left it.
    fn set(&mut self, dword: usize, word: u32) {
        if let Some(place) = self.words.get_mut(dword) {
            *place = word;
        }
    }

    /// Rows that a VFE asks for; 0 for the other kinds.
    fn rows(&self) -> u32 {
        match self.kind {
            3 => (self.word(2) >> 8 & 0xff) * (self.word(4) >> 16) + self.curbe_size(),
            _ => 0,
        }
    }

    fn curbe_size(&self) -> u32 {
        self.word(4) & 0xffff
    }
}

/// A dword that might be taken for a header.
pub(super) fn plausible(random: &mut Random) -> u32 {
    match random.below(8) {
        0 => random.pick(&HEADERS),
        1 => random.pick(&HEADERS) ^ 1 << random.below(32),
        2 => OBJECT << 16 | random.below(12) as u32,
        3 => 0,
        _ => random.word(),
    }
}

/// A valid batch under construction: its commands, and what the order rules remember.
#[derive(Default)]
struct Draft {
    chip: u32,
    /// Rows that a VFE may ask for.
    most_rows: u32,
    commands: Vec<Command>,
    dwords: usize,
    vfe: Option<Command>,
    /// A command of kind 3, 4, 5, 7 or 8 stands since the last MI_FLUSH.
    in_use: bool,
    /// One stands since the last MI_FLUSH or state flush.
    stands: bool,
    objects: bool,
    descriptors: u32,
}

/// Which commands a batch is made of.
#[derive(Clone, Copy)]
enum Mix {
    All,
    /// VFE, descriptor load, then nothing but OBJECTs, with inline data up to so many dwords.
    Objects(usize),
    /// Kinds 0, 1 and 6.
    Idle,
}

impl Draft {
    /// A batch of exactly `dwords` dwords, at least 1, that is valid on the chip for a
    /// capacity of `most_rows`.
    fn valid(random: &mut Random, chip: u32, mix: Mix, dwords: usize, most_rows: u32) -> Self {
        let mut draft = Draft {
            chip,
            most_rows,
            ..Draft::default()
        };
        while draft.dwords + 1 < dwords {
            let room = dwords - 1 - draft.dwords;
            let command = match mix {
                Mix::All => draft.any(random, room),
                Mix::Objects(inline) => Some(draft.next_object(random, room.min(6 + inline))),
                Mix::Idle => {
                    let kind = random.pick(&[0, 1, 6]);
                    Some(Command::random(random, chip, kind))
                }
            };
            match command {
                Some(command) if command.words.len() <= room => draft.push(command),
                _ => draft.push(Command::plain(0)),
            }
        }
        draft.push(Command::plain(2));
        draft
    }

    fn push(&mut self, command: Command) {
        match command.kind {
            1 => (self.in_use, self.stands, self.objects) = (false, false, false),
            3 => self.vfe = Some(command.clone()),
            5 => self.descriptors = command.word(2) / 32,
            6 => (self.stands, self.objects) = (false, false),
            7 => self.objects = true,
            _ => {}
        }
        let stands = matches!(command.kind, 3 | 4 | 5 | 7 | 8);
        self.in_use |= stands;
        self.stands |= stands;
        self.dwords += command.words.len();
        self.commands.push(command);
    }

    /// A command that the order rules allow here, or none.
    fn any(&self, random: &mut Random, room: usize) -> Option<Command> {
        let kind = match self.in_use && !self.stands && random.one_in(3) {
            // The state flush was for a VFE.
            true => 3,
            false => random.pick(kinds(self.chip)),
        };
        match kind {
            3 if self.stands => {
                let flush = random.pick(&[1, 6]);
                Some(Command::random(random, self.chip, flush))
            }
            3 => match &self.vfe {
                Some(vfe) if self.in_use || random.one_in(4) => {
                    Some(vfe.other_scoreboard(random, self.chip))
                }
                _ => Some(any_vfe(random, self.chip, self.most_rows)),
            },
            4 => {
                let most = self.vfe.as_ref()?.curbe_size().min(ROWS_IN_17_BITS);
                let some = random.below(most as usize + 1) as u32;
                let rows = random.pick(&[0, most, most, some]);
                Some(Command::load(4, 32 * rows, random.word() & !31))
            }
            5 if self.objects => Some(Command::random(random, self.chip, 6)),
            5 if self.vfe.is_some() => {
                let some = random.between(1, 64) as u32;
                let count = random.pick(&[1, 2, 64, some]);
                Some(Command::load(5, 32 * count, random.word() & !31))
            }
            7 if self.descriptors > 0 => {
                let inline = match random.below(10) {
                    0 => random.below(501),
                    1..=3 => random.below(21),
                    _ => random.below(4),
                };
                let last = self.descriptors - 1;
                let some = random.below(self.descriptors as usize) as u32;
                let index = random.pick(&[0, last, last, some]);
                let inline = inline.min(room.saturating_sub(6));
                Some(Command::object(random, self.chip, index, inline))
            }
            8 if self.vfe.is_some() => Some(Command::random(random, self.chip, 8)),
            5 | 7 | 8 => None,
            kind => Some(Command::random(random, self.chip, kind)),
        }
    }

    /// The next command of a batch made of OBJECTs.
    fn next_object(&self, random: &mut Random, room: usize) -> Command {
        match self.commands.len() {
            0 => any_vfe(random, self.chip, self.most_rows),
            _ if self.vfe.is_none() => Command::plain(0),
            1 => Command::load(5, 32 * random.between(1, 64) as u32, 0x1000),
            _ if self.descriptors == 0 => Command::plain(0),
            _ => {
                let index = random.below(self.descriptors as usize) as u32;
                let inline = random.below(room.saturating_sub(6) + 1);
                Command::object(random, self.chip, index, inline)
            }
        }
    }
}

/// The chip's kinds, as often as each is drawn.
fn kinds(chip: u32) -> &'static [usize] {
    match chip {
        6 => &[0, 1, 1, 3, 3, 4, 4, 5, 5, 6, 6, 7, 7, 7, 7, 7, 8, 8, 8],
        _ => &[0, 1, 1, 3, 3, 4, 4, 5, 5, 6, 6, 7, 7, 7, 7, 7],
    }
}

/// Drawn again until it asks for no more than `most_rows`.
fn any_vfe(random: &mut Random, chip: u32, most_rows: u32) -> Command {
    loop {
        let wide = random.below(65_536) as u32;
        let small = random.below(100) as u32;
        let entries = random.pick(&[0, 1, 7, 64, 255, small]);
        let entry_size = random.pick(&[0, 1, 2, small, wide, 65_535]);
        let curbe_size = random.pick(&[0, 1, 4, small, 2016, wide, 65_535]);
        let vfe = Command::vfe(random, chip, Rows(entries, entry_size, curbe_size));
        if vfe.rows() <= most_rows {
            return vfe;
        }
    }
}

/// Rows that the largest VFE asks for.
pub(super) fn rows(commands: &[Command]) -> u32 {
    commands.iter().map(Command::rows).max().unwrap_or(0)
}

pub(super) fn flat(commands: &[Command]) -> Vec<u32> {
    commands
        .iter()
        .flat_map(|c| c.words.iter().copied())
        .collect()
}

/// The same of any content.
pub(super) fn mixed_of(random: &mut Random, chip: u32, dwords: usize) -> Vec<u32> {
    flat(&Draft::valid(random, chip, Mix::All, dwords, u32::MAX).commands)
}

/// A valid batch of exactly so many dwords, of all the chip's kinds, that asks for at
/// most `most_rows`.
pub fn mixed(chip: u32, dwords: usize, most_rows: u32) -> Vec<u32> {
    flat(&Draft::valid(&mut Random::new(3), chip, Mix::All, dwords, most_rows).commands)
}

/// The chip that a chip is not.
pub fn other_chip(chip: u32) -> u32 {
    13 - chip
}

/// The chip that a case made for one of them names: that one, mostly.
pub(super) fn any_chip(random: &mut Random, chip: u32) -> u32 {
    match random.below(48) {
        0..=3 => other_chip(chip),
        4 => random.pick(&NO_CHIPS),
        5 => chip ^ 1 << random.below(32),
        _ => chip,
    }
}

/// A capacity on either side of `rows`, mostly enough.
fn capacity(random: &mut Random, rows: u32) -> u32 {
    match random.below(16) {
        0 => rows.saturating_sub(1),
        1 => random.word(),
        2 => rows + 1,
        3 => 2048,
        4..=6 => u32::MAX,
        _ => rows,
    }
}

/// Lends records for about `commands` commands, and odd tails to the byte entry.
fn lend(random: &mut Random, chip: u32, batch: Vec<u32>, rows: u32, commands: usize) -> Case {
    let exact = RECORD * commands;
    let records = match random.below(16) {
        0 => exact.saturating_sub(1),
        1 => exact.saturating_sub(RECORD),
        2 => random.below(exact + 1),
        3 => 0,
        4 => exact + 15,
        5..=7 => exact + random.below(64),
        _ => exact,
    };
    let odd = if random.one_in(6) {
        random.between(1, 3)
    } else {
        0
    };
    Case {
        chip,
        batch,
        tail: random.bytes(odd),
        capacity: rows,
        records,
        records_tail: random.below(4),
    }
}

fn size(random: &mut Random) -> usize {
    match random.below(10) {
        0 => random.between(1, 700),
        1..=3 => random.between(1, 150),
        _ => random.between(1, 40),
    }
}

/// Lengths near and over the limit.
fn large(random: &mut Random) -> usize {
    let any = random.between(1_000, 20_000);
    random.pick(&[LIMIT - 1, LIMIT, LIMIT, LIMIT, LIMIT + 1, 20_000, any])
}

/// One random case; the stream decides which sort.
pub fn random_case(random: &mut Random) -> Case {
    let dwords = match random.below(700) {
        0 => large(random),
        _ => size(random),
    };
    let chip = random.pick(&CHIPS);
    let mut case = case_of(random, chip, dwords, u32::MAX);
    case.chip = any_chip(random, chip);
    case
}

/// A case made from about so many dwords; without damage it passes on the chip where
/// `most_rows` are lent.
pub(super) fn case_of(random: &mut Random, chip: u32, dwords: usize, most_rows: u32) -> Case {
    match random.below(1000) {
        0..=250 => {
            let mix = any_mix(random);
            let draft = Draft::valid(random, chip, mix, dwords, most_rows);
            finish(random, draft, 0)
        }
        251..=750 => {
            let mix = any_mix(random);
            let mut draft = Draft::valid(random, chip, mix, dwords, most_rows);
            // One fault mostly; two or more show which comes first.
            let faults = random.pick(&[1, 1, 1, 1, 1, 2, 2, 3, 5]);
            for _ in 0..faults {
                damage(random, chip, &mut draft.commands);
            }
            finish(random, draft, 0)
        }
        751..=800 => {
            // Several faults on one command.
            let mut draft = Draft::valid(random, chip, Mix::All, dwords, most_rows);
            let at = random.below(draft.commands.len());
            for _ in 0..random.between(2, 6) {
                damage_at(random, chip, &mut draft.commands, at);
            }
            finish(random, draft, 0)
        }
        801..=870 => {
            // Cut anywhere: rules 2 and 5.
            let draft = Draft::valid(random, chip, Mix::All, dwords, most_rows);
            let cut = random.between(1, dwords);
            finish(random, draft, cut)
        }
        871..=970 => {
            let batch = (0..dwords).map(|_| plausible(random)).collect();
            junk(random, chip, batch)
        }
        _ => {
            let batch = random.words(dwords);
            junk(random, chip, batch)
        }
    }
}

fn any_mix(random: &mut Random) -> Mix {
    let inline = random.pick(&[0, 0, 3, 20, 500]);
    match random.below(8) {
        0 => Mix::Idle,
        1 | 2 => Mix::Objects(inline),
        _ => Mix::All,
    }
}

fn junk(random: &mut Random, chip: u32, batch: Vec<u32>) -> Case {
    let commands = random.below(batch.len() + 1);
    let capacity = random.word() >> random.below(32);
    lend(random, chip, batch, capacity, commands)
}

/// Puts the commands together, at times with junk after END, and cuts `cut`
/// dwords off the end.
fn finish(random: &mut Random, draft: Draft, cut: usize) -> Case {
    let commands = draft.commands;
    let capacity = capacity(random, rows(&commands));
    let mut batch = flat(&commands);
    if cut == 0 && random.one_in(3) {
        let after = random.below(12);
        batch.extend((0..after).map(|_| plausible(random)));
    }
    batch.truncate(batch.len().saturating_sub(cut));
    lend(random, draft.chip, batch, capacity, commands.len())
}

/// One fault somewhere.
fn damage(random: &mut Random, chip: u32, commands: &mut Vec<Command>) {
    if commands.is_empty() {
        return;
    }
    // A kind first, so that rare kinds are hit as often as common ones.
    let kind = random.below(KINDS);
    let of_kind: Vec<usize> = (0..commands.len())
        .filter(|&at| commands[at].kind == kind)
        .collect();
    let at = match of_kind.len() {
        0 => random.below(commands.len()),
        _ => random.pick(&of_kind),
    };
    match random.below(12) {
        0 => {
            commands.remove(at);
        }
        1 => {
            let again = commands[at].clone();
            commands.insert(at, again);
        }
        2 if at + 1 < commands.len() => commands.swap(at, at + 1),
        3 => {
            // Any kind, whether the chip has it or not.
            let kind = random.below(KINDS);
            commands.insert(at, Command::random(random, chip, kind));
        }
        4 => {
            let kind = random.pick(&[0, 1, 6]);
            commands[at] = Command::random(random, chip, kind);
        }
        _ => damage_at(random, chip, commands, at),
    }
}

/// One fault in the command at `at`.
fn damage_at(random: &mut Random, chip: u32, commands: &mut [Command], at: usize) {
    let descriptors = commands[..at]
        .iter()
        .rev()
        .find(|command| command.kind == 5)
        .map_or(0, |command| command.word(2) / 32);
    let curbe_size = commands[..at]
        .iter()
        .rev()
        .find(|command| command.kind == 3)
        .map_or(0, Command::curbe_size);
    let command = &mut commands[at];
    let kind = command.kind;
    let header = command.words[0];
    match random.below(10) {
        0 | 1 => {
            let dword = random.below(FIXED[kind]);
            let mask = masks::of(chip)[kind][dword];
            let judged: Vec<u32> = (0..32).filter(|bit| mask >> bit & 1 == 1).collect();
            let bit = match judged.len() {
                0 => random.below(32) as u32,
                _ => random.pick(&judged),
            };
            command.set(dword, command.word(dword) ^ 1 << bit);
        }
        2 => command.words[0] ^= 1 << random.below(32),
        3 => {
            let length = match kind {
                7 => random.pick(&[0, 3, 4, 5, 65_535, header & 0xffff]),
                _ => header & 0xffff,
            };
            let step = random.pick(&[0, 1, u32::MAX]);
            command.words[0] = header & 0xffff_0000 | length.wrapping_add(step) & 0xffff;
        }
        4 => command.words[0] = random.pick(&HEADERS),
        5 => {
            // The header keeps its length, the data does not.
            if random.one_in(2) {
                command.words.push(plausible(random));
            } else if command.words.len() > 1 {
                command.words.pop();
            }
        }
        _ => match kind {
            3 if random.one_in(2) => {
                let (dword, bit) = (random.between(1, 7), random.below(32));
                *command = command.flipped(dword, bit as u32);
            }
            3 => {
                let shift = random.pick(&[0, 16]);
                command.set(4, random.word() >> shift);
            }
            4 | 5 => {
                let limit = 32 * curbe_size;
                let length = match kind {
                    4 => {
                        random.pick(&[0, 1, limit, limit + 32, limit.wrapping_sub(32), limit + 16])
                    }
                    _ => {
                        random.pick(&[0, 16, 31, 32, 64, 1024, 1056, 2016, 2048, 2049, 2080, 4096])
                    }
                };
                command.set(2, length & 0x1_ffff);
                if random.one_in(3) {
                    command.set(3, command.word(3) | 1 << random.below(5));
                }
            }
            7 => {
                let last = descriptors.wrapping_sub(1);
                let index = random.pick(&[descriptors, last, descriptors + 1, 63]);
                command.set(1, command.word(1) & !0x3f | index & 0x3f);
            }
            _ => command.words[0] ^= 1 << random.below(32),
        },
    }
}

/// The fixed cases: every rule's boundary on both sides, on both chips. The seed only
/// fills fields of which any value will do, and chooses buffer tails and, where not all
/// are met, bits.
pub fn sweep(seed: u64) -> Vec<Case> {
    let mut cases = Vec::new();
    for chip in CHIPS {
        let mut sweep = Sweep {
            chip,
            random: Random::new(seed),
            cases,
        };
        sweep.single_bits();
        sweep.headers();
        sweep.lengths();
        sweep.slice_ends();
        sweep.alignment();
        sweep.orders();
        sweep.vfe_orders();
        sweep.second_vfes();
        sweep.third_vfes();
        sweep.gateway_states();
        sweep.indices();
        sweep.capacities();
        sweep.record_buffers();
        sweep.limits();
        sweep.no_chips();
        cases = sweep.cases;
    }
    cases
}

struct Sweep {
    chip: u32,
    random: Random,
    cases: Vec<Case>,
}

/// Every kind of the chip once, in an order that passes, with zeros in all other fields.
pub(super) fn base(chip: u32) -> Vec<Command> {
    let mut vfe = Command::plain(3);
    vfe.words[2] = 1 << 8;
    vfe.words[4] = 2 << 16 | 4;
    let mut commands = vec![
        Command::plain(0),
        Command::plain(1),
        vfe,
        Command::load(4, 128, 0x40),
        Command::load(5, 64, 0x1000),
        Command::plain(7),
        Command::plain(6),
    ];
    if chip == 6 {
        commands.push(Command::plain(8));
    }
    commands.push(Command::plain(2));
    commands
}

const BASE_ROWS: u32 = 6;

/// What may stand for a MEDIA_GATEWAY_STATE: other lengths, headers and dwords, too much
/// of it or too little.
fn gateway_faults() -> Vec<Vec<u32>> {
    let header = GATEWAY << 16;
    let lengths = (0..=8).chain([255, 256, 0x7fff, 0x8000, 0xfffe, 0xffff]);
    let headers = lengths.map(|length| header | length);
    let headers = headers.chain((0..32).map(|bit| header ^ 1 << bit));
    let mut faults: Vec<Vec<u32>> = headers.chain(HEADERS).map(|word| vec![word, 0]).collect();
    faults.extend((0..32).map(|bit| vec![header, 1 << bit]));
    faults.extend([vec![header], vec![header, 0, 0], vec![]]);
    faults
}

impl Sweep {
    fn base(&self) -> Vec<Command> {
        base(self.chip)
    }

    /// Adds a case with room for every record.
    fn add(&mut self, commands: &[Command], capacity: u32) {
        self.add_flat(flat(commands), capacity, commands.len());
    }

    fn add_flat(&mut self, batch: Vec<u32>, capacity: u32, commands: usize) {
        let records_tail = self.random.below(4);
        self.cases.push(Case {
            chip: self.chip,
            batch,
            tail: Vec::new(),
            capacity,
            records: RECORD * (commands + 2),
            records_tail,
        });
    }

    /// Each bit of each dword of each kind, judged or not (rules 3, 4, 6, 7, 8, 9).
    fn single_bits(&mut self) {
        for at in 0..self.base().len() {
            for dword in 0..self.base()[at].words.len() {
                for bit in 0..32 {
                    let mut commands = self.base();
                    commands[at].words[dword] ^= 1 << bit;
                    self.add(&commands, BASE_ROWS);
                    // The next judged dword is wrong as well: the first decides.
                    if let Some(next) = commands[at].words.get_mut(dword + 1) {
                        *next = u32::MAX;
                        self.add(&commands, BASE_ROWS);
                    }
                }
            }
        }
    }

    /// Headers up to two bits away from each kind's (rules 3 and 4).
    fn headers(&mut self) {
        for at in 0..self.base().len() {
            for one in 0..32 {
                for other in 0..one {
                    let mut commands = self.base();
                    commands[at].words[0] ^= 1 << one | 1 << other;
                    self.add(&commands, BASE_ROWS);
                }
            }
        }
    }

    /// Length fields, and for OBJECTs slices one short, exact and one long (rules 4 and 5).
    fn lengths(&mut self) {
        for at in 2..self.base().len() - 1 {
            for length in (0..=20).chain([255, 256, 504, 505, 65_534, 65_535]) {
                let mut commands = self.base();
                let header = commands[at].words[0];
                commands[at].words[0] = header & 0xffff_0000 | length;
                self.add(&commands, BASE_ROWS);
            }
        }
        for length in [3, 4, 5, 6, 20, 504, 505, 5_000, LIMIT - 22, 65_535] {
            let fits = length.min(LIMIT);
            for held in [fits - 1, fits, fits + 1, fits + 2, fits + 3] {
                let mut batch = flat(&self.base()[..5]);
                batch.push(OBJECT << 16 | length as u32);
                batch.extend([0; 5]);
                batch.resize(18 + held, END);
                self.add_flat(batch, BASE_ROWS, 7);
            }
        }
    }

    /// The base cut at every length (rules 2 and 5).
    fn slice_ends(&mut self) {
        let whole = flat(&self.base());
        for length in 0..=whole.len() {
            self.add_flat(whole[..length].to_vec(), BASE_ROWS, KINDS);
        }
    }

    /// Lengths and addresses of the loads (rule 7).
    fn alignment(&mut self) {
        let lengths = [
            0, 1, 16, 31, 32, 33, 48, 63, 64, 96, 128, 992, 1024, 1056, 2016, 2032, 2047, 2048,
            2049, 2064, 2080, 4096, 0x1_0000, 0x1_0020, 0x1_ffe0, 0x1_ffff,
        ];
        let addresses = [
            0,
            1,
            2,
            4,
            8,
            16,
            31,
            32,
            0xffff_ffe0,
            0xffff_fff0,
            u32::MAX,
        ];
        for at in [3, 4] {
            for length in lengths {
                for address in addresses {
                    let mut commands = self.base();
                    // Enough CURBE for every length.
                    commands[2].words[4] = 65_535;
                    commands[at].words[2] = length;
                    commands[at].words[3] = address;
                    self.add(&commands, 65_535);
                }
            }
        }
    }

    /// Every sequence of up to five commands before END; and of up to three after others
    /// that let more of them pass (rule 8).
    fn orders(&mut self) {
        let mut alphabet = self.base();
        alphabet.pop();
        self.sequences(&alphabet, &[], 5);
        // VFE; with a flush; descriptor load and OBJECT; with a flush.
        for start in [&[2][..], &[2, 1], &[2, 4, 5], &[2, 4, 5, 1]] {
            let start: Vec<Command> = start.iter().map(|&at| alphabet[at].clone()).collect();
            self.sequences(&alphabet, &start, 3);
        }
    }

    /// Every sequence of up to so many commands between a start and END.
    fn sequences(&mut self, alphabet: &[Command], start: &[Command], most: u32) {
        for length in 0..=most {
            for number in 0..alphabet.len().pow(length) {
                let mut digits = number;
                let mut commands = start.to_vec();
                for _ in 0..length {
                    commands.push(alphabet[digits % alphabet.len()].clone());
                    digits /= alphabet.len();
                }
                commands.push(Command::plain(2));
                self.add(&commands, BASE_ROWS);
            }
        }
    }

    /// Stretches of MEDIA_GATEWAY_STATE, sound or with a fault in one of them, with and
    /// without a VFE before and after. On Gen7 their header is 3, whatever its length.
    fn gateway_states(&mut self) {
        let faults = gateway_faults();
        let vfe = || base(6).swap_remove(2);
        let ends = [
            vec![],
            vec![Command::plain(1), vfe()],
            vec![Command::plain(6), vfe()],
            vec![vfe()],
        ];
        for count in [1, 2, 3, 4, 9] {
            let sound = Command::random(&mut self.random, 6, 8);
            for at in 0..count {
                for words in &faults {
                    let mut commands = vec![vfe()];
                    commands.extend(vec![sound.clone(); count]);
                    commands[1 + at].words = words.clone();
                    let end = self.random.below(ends.len());
                    commands.extend(ends[end].clone());
                    commands.push(Command::plain(2));
                    self.add(&commands, BASE_ROWS);
                }
            }
            // No VFE before; the slice ends in the last command, or with it.
            let stretch = flat(&vec![sound; count]);
            let begun = [vfe().words, stretch.clone()].concat();
            for batch in [stretch, begun] {
                let ended = [&batch[..], &[END]].concat();
                for batch in [&batch[..batch.len() - 1], &batch, &ended] {
                    self.add_flat(batch.to_vec(), BASE_ROWS, count + 2);
                }
            }
        }
        // As many as a batch holds, with room for each record, and for one too few.
        let mut commands = vec![vfe()];
        commands.extend(vec![Command::random(&mut self.random, 6, 8); LIMIT / 2 - 5]);
        commands.extend([Command::plain(0), Command::plain(2)]);
        for records in [RECORD * commands.len(), RECORD * commands.len() - 1] {
            self.add(&commands, BASE_ROWS);
            self.cases.last_mut().expect("just added").records = records;
        }
    }

    /// An OBJECT's index around the count last loaded, also across a second load and a VFE (rule 8).
    fn indices(&mut self) {
        for count in [1, 2, 31, 32, 33, 63, 64] {
            for index in [0, 1, count - 1, count, count + 1, 62, 63] {
                for again in [None, Some(1), Some(64), Some(count)] {
                    for flush in [1, 6] {
                        let mut commands = self.base();
                        commands.truncate(4);
                        commands.push(Command::load(5, 32 * count, 0));
                        if let Some(again) = again {
                            commands.push(Command::plain(flush));
                            commands.push(Command::load(5, 32 * again, 0));
                        }
                        if flush == 1 {
                            commands.push(Command::plain(1));
                            commands.push(self.base().swap_remove(2));
                        }
                        let index = index & 0x3f;
                        let object = Command::object(&mut self.random, self.chip, index, 1);
                        commands.push(object);
                        commands.push(Command::plain(2));
                        self.add(&commands, BASE_ROWS);
                    }
                }
            }
        }
    }

    /// Rows asked for against rows lent, and CURBE loads against the size in force (rule 9).
    fn capacities(&mut self) {
        for entries in [0, 1, 2, 64, 255] {
            for entry_size in [0, 1, 2, 65_535] {
                for curbe_size in [0, 1, 4, 4095, 4096, 65_535] {
                    let rows = Rows(entries, entry_size, curbe_size);
                    let vfe = Command::vfe(&mut self.random, self.chip, rows);
                    let rows = vfe.rows();
                    let commands = [vfe, Command::plain(2)];
                    let near = [rows.saturating_sub(1), rows, rows + 1];
                    for capacity in near.into_iter().chain([0, 65_535, 65_536, u32::MAX]) {
                        self.add(&commands, capacity);
                    }
                }
            }
        }
        for first in [0, 1, 2, 480, 2016, 4094, 4095, 4096, 65_535] {
            for second in [None, Some(0), Some(3), Some(65_535)] {
                let mut commands = vec![self.vfe_of(first)];
                if let Some(second) = second {
                    // The later VFE's size is the one in force.
                    commands.push(Command::plain(1));
                    commands.push(self.vfe_of(second));
                }
                for rows in [first, second.unwrap_or(first)] {
                    for length in [32 * rows, 32 * rows + 32, (32 * rows).wrapping_sub(32)] {
                        let mut commands = commands.clone();
                        commands.push(Command::load(4, length & 0x1_ffe0, 0));
                        commands.push(Command::load(4, length & 0x1_ffe0, 0x20));
                        commands.push(Command::plain(2));
                        self.add(&commands, u32::MAX);
                    }
                }
            }
        }
    }

    /// A VFE that asks for a CURBE alone.
    fn vfe_of(&mut self, curbe_size: u32) -> Command {
        Command::vfe(&mut self.random, self.chip, Rows(0, 0, curbe_size))
    }

    /// Every length of the record buffer around what the base needs (rule 10).
    fn record_buffers(&mut self) {
        for records in 0..=RECORD * 10 {
            for records_tail in 0..4 {
                self.cases.push(Case {
                    chip: self.chip,
                    batch: flat(&self.base()),
                    tail: Vec::new(),
                    capacity: BASE_ROWS,
                    records,
                    records_tail,
                });
            }
        }
    }

    /// Lengths around the limit, END first, last or missing, and odd bytes (rules 1, 2 and 17).
    fn limits(&mut self) {
        let lengths = [0, 1, 2, 19, LIMIT - 1, LIMIT, LIMIT + 1, 20_000, 70_000];
        for length in lengths {
            for odd in 0..4 {
                for end in [Some(0), length.checked_sub(1), None] {
                    let mut batch = vec![NOOP; length];
                    if let Some(word) = end.and_then(|end| batch.get_mut(end)) {
                        *word = END;
                    }
                    let tail = self.random.bytes(odd);
                    self.cases.push(Case {
                        chip: self.chip,
                        batch,
                        tail,
                        capacity: 0,
                        records: RECORD * length.min(LIMIT),
                        records_tail: odd,
                    });
                }
            }
        }
        for mix in [Mix::All, Mix::Objects(0), Mix::Objects(500), Mix::Idle] {
            for length in [LIMIT - 1, LIMIT, LIMIT + 1] {
                let draft = Draft::valid(&mut self.random, self.chip, mix, length, u32::MAX);
                self.add(&draft.commands, u32::MAX);
                // The record buffer one word short.
                let short = RECORD * draft.commands.len() - 1;
                self.add(&draft.commands, u32::MAX);
                self.cases.last_mut().expect("just added").records = short;
            }
        }
    }

    /// Numbers of no chip, all those one bit away from the chip's among them, before
    /// every other refusal (rule 18).
    fn no_chips(&mut self) {
        let near = (0..32).map(|bit| self.chip ^ 1 << bit);
        let numbers: Vec<u32> = NO_CHIPS.into_iter().chain(near).collect();
        for chip in numbers.into_iter().filter(|&chip| !known(chip)) {
            let whole = flat(&self.base());
            let long = vec![END; LIMIT + 1];
            for batch in [&whole[..], &whole[..9], &[], &[1], &long] {
                for odd in [0, 3] {
                    let tail = self.random.bytes(odd);
                    self.cases.push(Case {
                        chip,
                        batch: batch.to_vec(),
                        tail,
                        capacity: self.random.pick(&[0, BASE_ROWS]),
                        records: self.random.pick(&[0, 15, RECORD * KINDS]),
                        records_tail: odd,
                    });
                }
            }
        }
    }
}

#[cfg(test)]
mod tests;
