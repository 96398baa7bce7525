//! Recordings to compare the replay on: a fixed sweep along every rule, and
//! random ones, mostly well-formed, with damaged headers and events.

use crate::random::Random;
use crate::replay::{EVENT, HEADER, NO_GROUP, REGISTER, REGISTERS};

mod event;
pub mod kinds;

use event::{Event, END_OF_THREAD};

/// What is lent to the entry.
#[derive(Clone)]
pub struct Case {
    pub recording: Vec<u8>,
    /// Lengths of the lent buffers: bytes, words, bytes.
    pub registers: usize,
    pub counts: usize,
    pub outcomes: usize,
}

/// The most events that a recording holds.
pub const MOST: usize = 65_535;

/// A gateway as the generator believes it to be, to aim at its limits.
#[derive(Clone, Copy)]
struct Gate {
    base: u16,
    size: u8,
    key: u16,
}

impl Gate {
    /// The window in bytes.
    fn window(self) -> usize {
        REGISTER << self.size
    }
}

/// A recording under construction.
#[derive(Clone)]
struct Recording {
    threads: usize,
    bypass: bool,
    groups: Vec<u8>,
    events: Vec<Event>,
    gates: [Option<Gate>; 16],
}

impl Recording {
    fn new(groups: &[u8], bypass: bool) -> Self {
        Recording {
            threads: groups.len(),
            bypass,
            groups: groups.to_vec(),
            events: Vec::new(),
            gates: [None; 16],
        }
    }

    fn push(&mut self, random: &mut Random, mut event: Event) {
        event.data.copy_from_slice(&random.bytes(32));
        if let Some(gate) = self.gates.get_mut(usize::from(event.sender)) {
            let closes = event.flags & END_OF_THREAD != 0 || event.kind == 1;
            if event.kind < 2 && closes {
                *gate = None;
            } else if event.kind == 0 && event.fits() {
                *gate = Some(Gate {
                    base: event.place,
                    size: event.byte_5,
                    key: event.key,
                });
            }
        }
        self.events.push(event);
    }

    /// With exactly the buffers that it needs.
    fn case(&self) -> Case {
        let mut recording = b"GWR\x01\x00".to_vec();
        recording.extend([self.threads as u8, u8::from(self.bypass)]);
        recording.extend((self.events.len() as u16).to_le_bytes());
        recording.push(0);
        recording.extend(&self.groups);
        for event in &self.events {
            recording.extend(event.bytes());
        }
        Case {
            recording,
            registers: REGISTERS * self.threads,
            counts: 2 * self.threads,
            outcomes: self.events.len(),
        }
    }

    /// An event that keeps the layout, at or near the limits that hold now.
    fn any_event(&self, random: &mut Random) -> Event {
        let sender = random.below(self.threads) as u8;
        let mut event = match random.below(32) {
            0..=4 => any_open(random, sender),
            5 | 6 => Event::close(sender),
            7..=22 => self.any_forward(random, sender),
            23..=27 => Event::barrier(sender),
            28..=30 => Event::update(sender, random.below(16) as u8, random.word() as u8),
            _ => Event::new(random.pick(&[3, 6]), sender),
        };
        if event.kind < 2 && random.one_in(6) {
            event.flags |= END_OF_THREAD;
            if random.one_in(2) {
                // An open that ends its thread ignores its payload.
                event.place = random.word() as u16;
                event.byte_5 = random.word() as u8;
            }
        } else if random.one_in(3) {
            let any = random.below(128) as u8;
            event = event.ack(random.pick(&[0, 127, any, any, any]));
        }
        if event.kind != 2 && random.one_in(4) {
            // Notify is ignored on the other kinds, 3 too.
            event = event.notify(random.below(4) as u8);
        }
        if random.one_in(2) {
            event.junk(random);
        }
        if event.kind == 2 && random.one_in(6) {
            event = self.under_own_ack(random, event);
        }
        event
    }

    fn any_forward(&self, random: &mut Random, sender: u8) -> Event {
        let open: Vec<usize> = (0..16).filter(|&at| self.gates[at].is_some()).collect();
        let recipient = match random.below(12) {
            0 => random.pick(&[self.threads, 16, 255]),
            1..=8 if !open.is_empty() => random.pick(&open),
            _ => random.below(self.threads),
        };
        let gate = self.gates.get(recipient).copied().flatten();
        let window = match (self.bypass, gate) {
            (true, _) => REGISTERS,
            (false, Some(gate)) => gate.window(),
            (false, None) => REGISTER,
        };
        let length = random.below(6) as u8;
        // The last offset that fits.
        let last = window - (1 << length);
        let inside = random.below(last + 1);
        let any = random.below(8192);
        let offset = random.pick(&[0, last, last, last + 1, inside, inside, inside, any, 8191]);
        let own_key = gate.map_or(0, |gate| gate.key);
        let key = match random.below(12) {
            0 => own_key ^ 1 << random.below(16),
            1 => random.word() as u16,
            _ => own_key,
        };
        Event::forward(sender, recipient as u8, length, offset as u16, key)
            .notify(random.below(3) as u8)
    }

    /// A forward to its own sender, acknowledged where the data lands.
    fn under_own_ack(&self, random: &mut Random, mut event: Event) -> Event {
        event.byte_4 = event.sender;
        let base = match self.gates[usize::from(event.sender)] {
            Some(gate) if !self.bypass => {
                let last = gate.window() - (1 << event.byte_5);
                event.place = random.below(last + 1) as u16;
                event.key = gate.key;
                gate.base
            }
            _ => 0,
        };
        let register = base + event.place / 32;
        event.ack(register.min(127) as u8)
    }

    /// Every member of a thread's group arrives, in any order, at times twice.
    fn round(&mut self, random: &mut Random) {
        let group = self.groups[random.below(self.threads)];
        let mut members: Vec<u8> = (0..self.threads as u8)
            .filter(|&thread| self.groups[usize::from(thread)] == group)
            .collect();
        for at in 0..members.len() {
            let other = random.between(at, members.len() - 1);
            members.swap(at, other);
        }
        for thread in members {
            let mut event = Event::barrier(thread);
            if random.one_in(4) {
                event = event.ack(random.below(128) as u8);
            }
            self.push(random, event);
            if random.one_in(8) {
                self.push(random, event);
            }
        }
    }

    fn fill(&mut self, random: &mut Random, events: usize, damage: bool) {
        while self.events.len() < events {
            if random.one_in(24) {
                self.round(random);
                continue;
            }
            let mut event = self.any_event(random);
            if damage && random.one_in(10) {
                event.damage(random, self.threads);
            }
            self.push(random, event);
        }
        self.events.truncate(events);
    }
}

/// A window that just fits, just does not, or lies anywhere.
fn any_open(random: &mut Random, sender: u8) -> Event {
    let size = random.below(6) as u8;
    let last = 128 - (1 << size);
    let any = random.below(128) as u16;
    let base = random
        .pick(&[0, last, last, last + 1, any, any, 127])
        .min(127);
    let any = random.word() as u16;
    let key = random.pick(&[0, 0, 1, 0x100, 0xffff, any]);
    Event::open(sender, base, size, key)
}

/// One random case; the stream decides which sort.
pub fn random_case(random: &mut Random) -> Case {
    if random.one_in(40) {
        return junk(random);
    }
    let any = random.between(1, 16);
    let threads = random.pick(&[1, 2, 2, 3, 4, 5, any, any, 16]);
    let groups = any_groups(random, threads);
    let mut recording = Recording::new(&groups, random.one_in(4));
    let events = match random.below(100) {
        0 => random.between(200, 1500),
        1..=20 => random.below(120),
        _ => random.below(30),
    };
    let damage = !random.one_in(3);
    recording.fill(random, events, damage);
    let mut case = recording.case();
    lend(random, &mut case);
    if random.one_in(10) {
        for _ in 0..random.pick(&[1, 1, 2]) {
            damage_header(random, &mut case.recording);
        }
    }
    case
}

fn any_groups(random: &mut Random, threads: usize) -> Vec<u8> {
    let style = random.below(6);
    let first = random.below(16) as u8;
    let group = |thread: usize, random: &mut Random| match style {
        0 => first,
        1 => thread as u8,
        2 => first ^ (thread as u8 & 1),
        3 => NO_GROUP,
        4 => random.pick(&[first, first, NO_GROUP]),
        _ => random.pick(&[0, 1, 7, 15, first, NO_GROUP]),
    };
    (0..threads).map(|thread| group(thread, random)).collect()
}

/// Outcome buffers of several lengths, and at times a buffer that does not fit.
fn lend(random: &mut Random, case: &mut Case) {
    case.outcomes += random.pick(&[0, 0, 0, 1, 2, 50]);
    let near = |length: usize, step: usize, random: &mut Random| {
        random.pick(&[length + step, length.saturating_sub(step), length + 1, 0])
    };
    match random.below(60) {
        0 => case.registers = near(case.registers, REGISTERS, random),
        1 => case.counts = near(case.counts, 2, random),
        2 => case.outcomes = case.outcomes.saturating_sub(random.between(1, 60)),
        3 => case.registers -= 1,
        4 => case.counts -= 1,
        _ => {}
    }
}

/// One fault in the header, the group bytes or the length.
fn damage_header(random: &mut Random, recording: &mut Vec<u8>) {
    let groups = match recording.get(5) {
        Some(&threads) => usize::from(threads),
        None => return,
    };
    match random.below(8) {
        0 => recording.truncate(random.below(12)),
        1 => recording[random.below(3)] ^= 1 << random.below(8),
        2 => {
            let at = random.between(3, 4.min(recording.len() - 1));
            recording[at] = random.word() as u8;
        }
        3 if recording.len() >= HEADER => {
            let (at, values) =
                random.pick(&[(5, [0, 17, 255]), (6, [2, 3, 255]), (9, [1, 128, 255])]);
            recording[at] = random.pick(&values);
        }
        4 => {
            let cut = random.pick(&[1, 2, EVENT, EVENT + 1]);
            recording.truncate(recording.len().saturating_sub(cut));
        }
        5 => {
            let more = random.pick(&[1, 2, EVENT, EVENT + 1]);
            recording.extend(random.bytes(more));
        }
        6 if recording.len() >= HEADER => {
            recording[7 + random.below(2)] ^= 1 << random.below(8);
        }
        _ if groups > 0 && recording.len() >= HEADER + groups => {
            let any = random.word() as u8;
            recording[HEADER + random.below(groups)] = random.pick(&[16, 17, 128, 254, any]);
        }
        _ => {}
    }
}

/// Bytes of any content, at times under a sound header.
fn junk(random: &mut Random) -> Case {
    let events = random.below(20);
    let threads = random.between(1, 16);
    let length = HEADER + threads + EVENT * events;
    let mut recording = random.bytes(length);
    if random.one_in(2) {
        let bypass = random.below(2) as u8;
        let header = Recording::new(&vec![NO_GROUP; threads], bypass == 1).case();
        recording[..HEADER + threads].copy_from_slice(&header.recording);
        recording[7] = events as u8;
        for at in (HEADER + threads..length).step_by(EVENT) {
            // Low enough to come past 31 at times.
            recording[at] &= 7;
            recording[at + 1] &= 15;
            recording[at + 2] &= 15;
            recording[at + 10..at + 16].fill(0);
        }
    } else {
        recording.truncate(random.below(length));
    }
    Case {
        recording,
        registers: REGISTERS * threads,
        counts: 2 * threads,
        outcomes: events,
    }
}

/// A recording of all kinds.
pub fn mixed(events: usize) -> Case {
    let random = &mut Random::new(11);
    let groups: Vec<u8> = (0..16).map(|thread| thread / 3).collect();
    let mut recording = Recording::new(&groups, false);
    recording.fill(random, events, true);
    recording.case()
}

/// Nothing but accepted forwards of all lengths: under bypass, or through sixteen
/// gateways that are opened first.
pub fn forwards(events: usize, bypass: bool) -> Case {
    let random = &mut Random::new(12);
    let mut recording = Recording::new(&[NO_GROUP; 16], bypass);
    let window = if bypass { REGISTERS } else { REGISTER << 5 };
    if !bypass {
        for thread in 0..16 {
            recording.push(random, Event::open(thread, 96, 5, 7));
        }
    }
    while recording.events.len() < events {
        let (sender, recipient) = (random.below(16) as u8, random.below(16) as u8);
        let length = random.below(6) as u8;
        let offset = random.below(window - (1 << length) + 1) as u16;
        let event = Event::forward(sender, recipient, length, offset, 7);
        let event = event.notify(random.below(3) as u8);
        recording.push(random, event);
    }
    recording.case()
}

/// The fixed cases. The seed fills data bytes.
pub fn sweep(seed: u64) -> Vec<Case> {
    let mut sweep = Sweep {
        random: Random::new(seed),
        cases: Vec::new(),
    };
    sweep.headers();
    sweep.refusals_together();
    sweep.buffers();
    sweep.heads();
    sweep.opens();
    sweep.windows();
    sweep.keys_and_gates();
    sweep.own_acks();
    sweep.barriers();
    sweep.cases.extend(longest());
    sweep.cases
}

/// Recordings as long as they can be.
pub fn longest() -> [Case; 3] {
    [mixed(MOST), forwards(MOST, true), forwards(MOST, false)]
}

struct Sweep {
    random: Random,
    cases: Vec<Case>,
}

impl Sweep {
    fn add(&mut self, groups: &[u8], bypass: bool, events: &[Event]) {
        let mut recording = Recording::new(groups, bypass);
        for &event in events {
            recording.push(&mut self.random, event);
        }
        let mut case = recording.case();
        case.outcomes += self.random.below(3);
        self.cases.push(case);
    }

    fn base(&mut self) -> Case {
        let mut recording = Recording::new(&[3, NO_GROUP, 15], false);
        recording.push(&mut self.random, Event::open(1, 4, 2, 9).ack(5));
        recording.push(&mut self.random, Event::forward(0, 1, 3, 8, 9).notify(1));
        recording.push(&mut self.random, Event::barrier(2));
        recording.case()
    }

    /// Every value of every byte before the events, and every length (11 to 15).
    fn headers(&mut self) {
        let base = self.base();
        for at in 0..HEADER + 3 {
            for value in 0..=255 {
                let mut case = base.clone();
                case.recording[at] = value;
                self.cases.push(case);
            }
        }
        for length in 0..base.recording.len() + 50 {
            let mut case = base.clone();
            case.recording.resize(length, 0);
            self.cases.push(case);
        }
        for threads in 1..=17 {
            // The thread count fits the length, and the buffers with it or not.
            for lent in [threads - 1, threads, threads + 1] {
                let mut case = Recording::new(&vec![1; threads], false).case();
                case.registers = REGISTERS * lent;
                case.counts = 2 * lent;
                self.cases.push(case);
            }
        }
    }

    /// Every set of faults: the first in the table decides (11 to 16).
    fn refusals_together(&mut self) {
        let base = self.base();
        for faults in 0..64 {
            let mut case = base.clone();
            let fault = |number: u32| faults >> (number - 11) & 1 == 1;
            if fault(11) {
                case.recording[2] = b'r';
            }
            if fault(12) {
                case.recording[4] = 1;
            }
            if fault(13) {
                case.recording[6] = 2;
            }
            if fault(14) {
                case.recording.push(0);
            }
            if fault(15) {
                case.recording[HEADER + 2] = 16;
            }
            if fault(16) {
                case.counts -= 1;
            }
            self.cases.push(case);
        }
    }

    /// Lent lengths around the exact ones, one or more off at a time (16).
    fn buffers(&mut self) {
        let base = self.base();
        let around =
            |exact: usize, far: usize| [exact, exact - 1, exact + 1, exact - far, exact + far, 0];
        for registers in around(base.registers, REGISTERS) {
            for counts in around(base.counts, 2) {
                for outcomes in around(base.outcomes, 2) {
                    self.cases.push(Case {
                        recording: base.recording.clone(),
                        registers,
                        counts,
                        outcomes,
                    });
                }
            }
        }
    }

    /// Every value of every byte of an event's head, for each kind, with and
    /// without bypass, between events that make it matter (31 and 32).
    fn heads(&mut self) {
        let groups = [4, 4, NO_GROUP];
        let before = [Event::open(1, 4, 1, 0x1234), Event::barrier(0)];
        let kinds = [
            Event::open(1, 100, 2, 0x1234),
            Event::open(1, 100, 2, 0x1234).end_of_thread(),
            Event::close(1),
            Event::forward(2, 1, 2, 40, 0x1234).notify(1),
            Event::new(3, 1),
            Event::barrier(1),
            Event::update(1, 4, 77),
            Event::new(6, 1),
            Event::new(7, 1),
        ];
        for event in kinds {
            for ack in [false, true] {
                for bypass in [false, true] {
                    let event = if ack { event.ack(9) } else { event };
                    let mut recording = Recording::new(&groups, bypass);
                    for event in before {
                        recording.push(&mut self.random, event);
                    }
                    recording.push(&mut self.random, event);
                    let base = recording.case();
                    let head = base.recording.len() - EVENT;
                    for at in 0..16 {
                        // The first bytes are judged by value, the zeros by bits.
                        let values: Vec<u8> = match at {
                            0..10 => (0..=255).collect(),
                            _ => (0..8).map(|bit| 1 << bit).collect(),
                        };
                        for value in values {
                            let mut case = base.clone();
                            case.recording[head + at] = value;
                            self.cases.push(case);
                        }
                    }
                }
            }
        }
    }

    /// Every base and size code, opened anew over an open gateway (31 and 33).
    fn opens(&mut self) {
        for size in 0..8 {
            for base in (0..=140).chain([255, 256, 383, 0x7fff, 0xff00, u16::MAX]) {
                let open = Event::open(0, base, size, 2).ack(1);
                let write = Event::forward(0, 0, 0, 0, 2);
                self.add(&[0], false, &[Event::open(0, 9, 0, 2), open, write]);
                let ended = Event::open(0, base, size, 2).end_of_thread();
                self.add(&[0], false, &[Event::open(0, 9, 0, 2), ended, write]);
            }
        }
    }

    /// Forwards that just fit and just miss, for every size and length code (37).
    fn windows(&mut self) {
        for length in 0..8 {
            let bytes = 1 << length;
            for size in 0..6 {
                let window = REGISTER as u16 * (1 << size);
                let mut events = Vec::new();
                for base in [0, 1, 64, 128 - (1 << size)] {
                    events.push(Event::open(1, base, size, 0));
                    let edge = (window + 1).saturating_sub(bytes);
                    let near = edge.saturating_sub(4)..edge + 4;
                    let units = [
                        1 << size,
                        32,
                        31,
                        window,
                        window - 1,
                        4095,
                        4096,
                        8191,
                        8192,
                    ];
                    for offset in near.chain([0]).chain(units).chain([u16::MAX]) {
                        events.push(Event::forward(0, 1, length, offset, 0).notify(2).ack(3));
                    }
                }
                self.add(&[0, 1], false, &events);
            }
            let edge = 4097 - bytes;
            let mut events = Vec::new();
            for offset in (edge - 4..edge + 4).chain([0, 4095, 4096, 8191, 8192, u16::MAX]) {
                // Under bypass the key goes unread.
                events.push(
                    Event::forward(0, 1, length, offset, offset)
                        .notify(1)
                        .ack(3),
                );
            }
            self.add(&[0, 1], true, &events);
        }
    }

    /// Keys that differ in one bit, gates never opened, closed in each way and
    /// opened again, recipients that are no threads (34 to 36, and their order).
    fn keys_and_gates(&mut self) {
        for bit in 0..16 {
            let events = [
                Event::open(1, 4, 0, 0x5aa5),
                Event::forward(0, 1, 0, 0, 0x5aa5 ^ 1 << bit)
                    .notify(1)
                    .ack(2),
                Event::forward(0, 1, 0, 32, 0x5aa5 ^ 1 << bit).ack(2),
                Event::forward(0, 1, 0, 0, 0x5aa5).notify(1),
            ];
            self.add(&[0, 1], false, &events);
        }
        let ways = [
            Event::close(1),
            Event::close(1).end_of_thread(),
            Event::open(1, 300, 99, 8).end_of_thread(),
            Event::open(1, 127, 1, 8),
            Event::close(0),
        ];
        for bypass in [false, true] {
            for way in ways {
                let forward = Event::forward(0, 1, 1, 0, 7).notify(2).ack(0);
                let other = Event::forward(0, 1, 1, 0, 0).notify(2).ack(0);
                let opened = Event::open(1, 1, 0, 7);
                let events = [
                    forward, opened, forward, way, forward, other, opened, forward,
                ];
                self.add(&[0, 1], bypass, &events);
            }
            for recipient in 0..=255 {
                let events = [
                    Event::open(2, 1, 0, 0),
                    Event::forward(0, recipient, 5, 0, 0).notify(1).ack(8),
                    Event::forward(0, recipient, 5, 8190, 1).notify(1).ack(8),
                ];
                self.add(&[0, 1, 2], bypass, &events);
            }
        }
    }

    /// Self-forwards that land on their own ack register or beside it.
    fn own_acks(&mut self) {
        for bypass in [false, true] {
            for length in 0..6 {
                for offset in (0..40).chain([60, 62, 63, 64]) {
                    for register in 4..7 {
                        let place = if bypass { offset + 160 } else { offset };
                        let events = [
                            Event::open(0, 5, 2, 1),
                            Event::forward(0, 0, length, place, 1).ack(register),
                        ];
                        self.add(&[0], bypass, &events);
                    }
                }
            }
        }
    }

    /// Groups of one to sixteen, three rounds each, with updates between,
    /// members that come twice, and threads of other groups or none (38 and 39).
    fn barriers(&mut self) {
        for members in 1..=16_usize {
            for others in 0..=16 - members {
                for (own, rest) in [(0, NO_GROUP), (15, 0), (7, 8)] {
                    let mut groups = vec![own; members];
                    groups.resize(members + others, rest);
                    // The members are not always the lowest threads.
                    groups.rotate_right(others / 2);
                    self.rounds(&groups);
                }
            }
        }
        let own: Vec<u8> = (0..16).collect();
        self.rounds(&own);
        let pairs: Vec<u8> = (0..16).map(|thread| thread % 8).collect();
        self.rounds(&pairs);
    }

    fn rounds(&mut self, groups: &[u8]) {
        let threads = groups.len() as u8;
        let mut events = Vec::new();
        for round in 0..3 {
            for number in 0..threads {
                let thread = match round {
                    0 => number,
                    1 => threads - 1 - number,
                    _ => (number + threads / 2) % threads,
                };
                events.push(Event::barrier(thread).ack(thread));
                if (number + round).is_multiple_of(3) {
                    events.push(Event::barrier(thread).ack(127));
                }
                if number % 4 == round {
                    let barrier = groups[usize::from(thread)] & 15;
                    events.push(Event::update(thread, barrier, thread ^ 0xa0));
                }
            }
        }
        self.add(groups, false, &events);
        // Stops in the midst of a round.
        events.truncate(events.len() / 2);
        self.add(groups, true, &events);
    }
}

#[cfg(test)]
mod tests;
