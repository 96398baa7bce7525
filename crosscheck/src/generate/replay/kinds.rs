//! Recordings of one kind of event each, as the benchmark replays them: sixteen
//! threads, any data.

use super::event::Event;
use super::{mixed, Case, Recording};
use crate::random::Random;
use crate::replay::{NO_GROUP, REGISTER, REGISTERS};

/// How forwards reach their recipients.
#[derive(Clone, Copy, Debug, PartialEq, Eq)]
pub enum Route {
    Bypass,
    /// Through sixteen gateways of 32 registers, which are opened first.
    Gateways,
}

/// What a recording is made of.
#[derive(Clone, Copy, Debug, PartialEq, Eq)]
pub enum Kind {
    Opens,
    Closes,
    /// Forwards of one length code, at any offset that fits.
    Forwards(Route, u8),
    /// Forwards of all length codes, to any thread, with any notification.
    AnyForwards(Route),
    /// The same, acknowledged.
    AckedForwards(Route),
    /// Forwards of all lengths under bypass to the last bytes of a thread's registers.
    LastBytes,
    /// Forwards of all lengths into one register of the recipient.
    OneRegister,
    /// Forwards refused for each reason: 34 to 37.
    RefusedForwards,
    Timestamps,
    /// Barriers of so many threads, which come in any order and never twice.
    Barriers(usize),
    Updates,
    /// All kinds, some refused and some malformed.
    Mixed,
    /// Every sort of malformed event.
    Malformed,
}

impl Kind {
    /// The outcome of each event, where all have one.
    pub fn outcome(self) -> Option<u8> {
        match self {
            Kind::Timestamps => Some(32),
            Kind::Malformed => Some(31),
            Kind::RefusedForwards | Kind::Mixed => None,
            _ => Some(0),
        }
    }

    pub fn recording(self, events: usize) -> Case {
        let random = &mut Random::new(12);
        match self {
            Kind::Mixed => mixed(events),
            Kind::Opens => repeat(events, empty(false), |_| {
                let size = random.below(6) as u8;
                let base = random.below(129 - (1 << size)) as u16;
                Event::open(thread(random), base, size, random.word() as u16)
            }),
            Kind::Closes => repeat(events, empty(false), |_| Event::close(thread(random))),
            Kind::Forwards(route, length) => {
                repeat(events, start(route), |_| any_forward(random, route, length))
            }
            Kind::AnyForwards(route) => repeat(events, start(route), |_| {
                let length = random.below(6) as u8;
                any_forward(random, route, length)
            }),
            Kind::AckedForwards(route) => repeat(events, start(route), |_| {
                let length = random.below(6) as u8;
                any_forward(random, route, length).ack(random.below(128) as u8)
            }),
            Kind::LastBytes => repeat(events, start(Route::Bypass), |_| {
                let length = random.below(6);
                let offset = REGISTERS - (1 << length);
                let event = any_forward(random, Route::Bypass, length as u8);
                Event {
                    place: offset as u16,
                    ..event
                }
            }),
            Kind::OneRegister => repeat(events, opened(16), |_| {
                let length = random.below(6);
                let event = any_forward(random, Route::Gateways, length as u8);
                Event {
                    place: random.below(REGISTER - (1 << length) + 1) as u16,
                    ..event
                }
            }),
            Kind::RefusedForwards => repeat(events, opened(8), |_| {
                let mut event = any_forward(random, Route::Gateways, 5);
                match random.below(4) {
                    0 => event.byte_4 = 16,
                    1 => event.byte_4 |= 8,
                    2 => (event.byte_4, event.key) = (event.byte_4 & 7, 8),
                    _ => (event.byte_4, event.place) = (event.byte_4 & 7, 1000),
                }
                event
            }),
            Kind::Timestamps => repeat(events, empty(false), |_| Event::new(3, thread(random))),
            Kind::Barriers(members) => {
                let groups: Vec<u8> = (0..16).map(|at| (at / members) as u8).collect();
                let mut round: Vec<u8> = (0..16).collect();
                repeat(events, Recording::new(&groups, false), |at| {
                    // Any order of the sixteen; each comes once in a round.
                    let at = at % 16;
                    round.swap(at, random.between(at, 15));
                    Event::barrier(round[at])
                })
            }
            Kind::Updates => repeat(events, empty(false), |_| {
                Event::update(thread(random), thread(random), random.word() as u8)
            }),
            Kind::Malformed => repeat(events, empty(false), |_| malformed(random)),
        }
    }
}

fn thread(random: &mut Random) -> u8 {
    random.below(16) as u8
}

/// The key of every gateway that is opened first.
const KEY: u16 = 7;

/// Nothing yet, and no thread in a group.
fn empty(bypass: bool) -> Recording {
    Recording::new(&[NO_GROUP; 16], bypass)
}

/// The gateways of the first so many threads are opened.
fn opened(gateways: u8) -> Recording {
    let mut recording = empty(false);
    for thread in 0..gateways {
        recording.push(&mut Random::new(1), Event::open(thread, 96, 5, KEY));
    }
    recording
}

fn start(route: Route) -> Recording {
    match route {
        Route::Bypass => empty(true),
        Route::Gateways => opened(16),
    }
}

/// Events up to so many, after those that the recording has; `event` is told how
/// many it has made.
fn repeat(events: usize, mut recording: Recording, mut event: impl FnMut(usize) -> Event) -> Case {
    let random = &mut Random::new(13);
    for made in 0..events - recording.events.len() {
        recording.push(random, event(made));
    }
    recording.case()
}

fn any_forward(random: &mut Random, route: Route, length: u8) -> Event {
    let window = match route {
        Route::Bypass => REGISTERS,
        Route::Gateways => REGISTER << 5,
    };
    let offset = random.below(window - (1 << length) + 1) as u16;
    let event = Event::forward(thread(random), thread(random), length, offset, KEY);
    event.notify(random.below(3) as u8)
}

/// One fault, each of those that 31 lists, on an event that would be accepted.
fn malformed(random: &mut Random) -> Event {
    let sender = thread(random);
    let forward = Event::forward(sender, thread(random), 2, 64, 0);
    let open = Event::open(sender, 3, 2, 0);
    let mut event = random.pick(&[forward, Event::barrier(sender), Event::close(sender)]);
    match random.below(13) {
        0 => event.kind = random.between(7, 255) as u8,
        1 => event.sender = random.between(16, 255) as u8,
        2 => event.flags |= 1 << random.between(4, 7),
        3 => event = Event::close(sender).end_of_thread().ack(1),
        4 => event = forward.end_of_thread(),
        5 => event = forward.notify(3),
        6 => {
            event = Event {
                byte_5: 6,
                ..forward
            }
        }
        7 => {
            event = Event {
                place: 8192,
                ..forward
            }
        }
        8 => event = Event { place: 128, ..open },
        9 => event = Event { byte_5: 6, ..open },
        10 => event = event.ack(random.between(128, 255) as u8),
        11 => event.zeros[random.below(6)] = 1 << random.below(8),
        _ => event = Event::update(sender, random.between(16, 255) as u8, 1),
    }
    event
}
