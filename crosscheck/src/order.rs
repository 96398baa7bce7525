//! The order check: section "Who waits for whom" of document 01.
//!
//! Nothing is allocated. States only grow, so two cursors over them do most of
//! the work: no object below the first one waits to start, every object below
//! the second is finished. A start without a delta in play looks at nobody; any
//! other passes over the records between the second cursor and itself, and looks
//! closer at those within reach of a delta. A stretch of finished objects is
//! crossed as a whole.

use crate::batch::{self, Chip, Gen6, Gen7, Refusal, Word, RECORD};
use std::ops::Range;

/// What an entry answers. On 0 the place is the event count, from 20 on the
/// position in the run; object and delta are 0 where the number names none.
/// Laid out as in C, so that the library can answer with it too.
#[derive(Clone, Copy, Debug, PartialEq, Eq)]
#[repr(C)]
pub struct Answer {
    pub number: u64,
    pub place: u64,
    pub object: u64,
    pub delta: u64,
}

impl Answer {
    pub fn new(number: u64, place: usize) -> Self {
        Answer::naming(number, place, 0, 0)
    }

    pub fn naming(number: u64, place: usize, object: usize, delta: usize) -> Self {
        Answer {
            number,
            place: place as u64,
            object: object as u64,
            delta: delta as u64,
        }
    }
}

/// Words of an OBJECT's record.
const KIND: usize = 0;
const OWN_USE: usize = 4;
const X: usize = 7;
const Y: usize = 8;
const COLOUR: usize = 9;
const MASK: usize = 10;
const VFE_RECORD: usize = 14;
const NUMBER: usize = 15;

/// Words of a VFE's record.
const VFE_DWORD_5: usize = 8;
const VFE_DWORD_6: usize = 9;
const VFE_DWORD_7: usize = 10;

/// The states of an object.
pub const WAITING: u8 = 0;
pub const RUNNING: u8 = 1;
pub const FINISHED: u8 = 2;

/// The order check over dwords.
pub fn check(
    chip: u32,
    batch: &[u32],
    capacity: u32,
    run: &[u32],
    records: &mut [u32],
    states: &mut [u8],
) -> Answer {
    let records = records.as_chunks_mut().0;
    check_words(chip, batch, capacity, run, records, states)
}

/// The order check over little-endian bytes; a record takes 64 of them.
pub fn check_bytes(
    chip: u32,
    batch: &[u8],
    capacity: u32,
    run: &[u8],
    records: &mut [u8],
    states: &mut [u8],
) -> Answer {
    // 18 comes before 17.
    if !batch::known(chip) {
        return Answer::new(18, 0);
    }
    let (batch, batch_tail) = batch.as_chunks::<4>();
    if !batch_tail.is_empty() {
        return Answer::new(17, batch.len());
    }
    let (run, run_tail) = run.as_chunks::<4>();
    if !run_tail.is_empty() {
        return Answer::new(17, run.len());
    }
    let (records, _) = records.as_chunks_mut::<4>();
    let records = records.as_chunks_mut().0;
    check_words(chip, batch, capacity, run, records, states)
}

/// How many deltas are in play for an OBJECT under a VFE, and which is the
/// lowest, 8 if none. Takes the dwords as they stand in the batch.
pub fn deltas_in_play(object_dword_2: u32, vfe_dword_5: u32, object_dword_5: u32) -> (u32, u32) {
    // Eight bits wide, so that an empty mask has 8 trailing zeros.
    let mask = match uses_scoreboard(object_dword_2 >> 21 & 1, vfe_dword_5) {
        true => (vfe_dword_5 & object_dword_5) as u8,
        false => 0,
    };
    (mask.count_ones(), mask.trailing_zeros())
}

/// The object's own bit and its VFE's enable.
fn uses_scoreboard(own_use: u32, vfe_dword_5: u32) -> bool {
    own_use & vfe_dword_5 >> 31 == 1
}

/// Type 0.
fn stalling(vfe_dword_5: u32) -> bool {
    vfe_dword_5 >> 30 & 1 == 0
}

fn check_words<W: Word>(
    chip: u32,
    batch: &[W],
    capacity: u32,
    run: &[W],
    records: &mut [[W; RECORD]],
    states: &mut [u8],
) -> Answer {
    let begun = match chip {
        7 => begin::<Gen7, W>(batch, capacity, records, states),
        6 => begin::<Gen6, W>(batch, capacity, records, states),
        _ => Err(Answer::new(18, 0)),
    };
    match begun {
        Ok(begun) => follow(run, begun),
        Err(refused) => refused,
    }
}

/// The filled records, and the states of the objects, all waiting.
struct Begun<'a, W> {
    records: &'a [[W; RECORD]],
    states: &'a mut [u8],
}

/// Rules 1 to 10 and 20; then the records are filled, and every object waits.
fn begin<'a, C: Chip, W: Word>(
    batch: &[W],
    capacity: u32,
    records: &'a mut [[W; RECORD]],
    states: &'a mut [u8],
) -> Result<Begun<'a, W>, Answer> {
    let admitted = batch::admit::<C, W>(batch, capacity, records);
    let (accepted, records) =
        admitted.map_err(|Refusal { number, place }| Answer::new(number, place))?;
    let Some(states) = states.get_mut(..accepted.objects) else {
        return Err(Answer::new(20, 0));
    };
    batch::decode::<C, W>(batch, records);
    states.fill(WAITING);
    Ok(Begun { records, states })
}

/// The events of the run.
fn follow<W: Word>(run: &[W], begun: Begun<W>) -> Answer {
    let mut board = Board {
        records: begun.records,
        states: begun.states,
        waiting: 0,
        unfinished: Spot::default(),
        crossed: 0..0,
        last: Spot::default(),
    };
    for (position, event) in run.iter().enumerate() {
        if let Err(fault) = board.event(event.get()) {
            return Answer::naming(fault.number, position, fault.object, fault.delta);
        }
    }
    Answer::new(0, run.len())
}

/// Why an event is refused.
struct Fault {
    number: u64,
    object: usize,
    delta: usize,
}

fn refuse<T>(number: u64) -> Result<T, Fault> {
    Err(Fault {
        number,
        object: 0,
        delta: 0,
    })
}

/// Records that are looked at in one go, those of finished objects among them.
const BLOCK: usize = 16;

/// An object and a record at or before the one that holds it.
#[derive(Clone, Copy, Default)]
struct Spot {
    object: usize,
    record: usize,
}

impl Spot {
    /// To a later object. Every object between takes a record, so its own stands at
    /// least as far off as its number.
    fn advance(&mut self, object: usize) {
        self.record += object - self.object;
        self.object = object;
    }
}

struct Board<'a, W> {
    records: &'a [[W; RECORD]],
    states: &'a mut [u8],
    /// No object below this one is in state 0.
    waiting: usize,
    /// Every object below this one is finished.
    unfinished: Spot,
    /// The stretch of records crossed last: none holds an unfinished object.
    crossed: Range<usize>,
    /// The object that tried to start last.
    last: Spot,
}

impl<'a, W: Word> Board<'a, W> {
    fn event(&mut self, event: u32) -> Result<(), Fault> {
        let object = (event >> 1) as usize;
        let finish = event & 1 == 1;
        match (self.states.get(object), finish) {
            (None, _) => return refuse(21),
            (Some(&WAITING), false) => self.may_start(object)?,
            (Some(_), false) => return refuse(22),
            (Some(&RUNNING), true) => {}
            (Some(_), true) => return refuse(23),
        }
        self.states[object] += 1;
        Ok(())
    }

    /// Rules 24 and 25 for an object in state 0. It is itself unfinished, so no
    /// search below goes past it.
    fn may_start(&mut self, object: usize) -> Result<(), Fault> {
        let near = match self.last.object <= object {
            true => self.last,
            false => self.unfinished,
        };
        self.last = self.walk(near, object);
        let own = &self.records[self.last.record];
        let vfe = &self.records[own[VFE_RECORD].get() as usize];
        let dword_5 = vfe[VFE_DWORD_5].get();
        if !uses_scoreboard(own[OWN_USE].get(), dword_5) {
            return Ok(());
        }
        if stalling(dword_5) {
            self.waiting = self.first_from(self.waiting, |state| state == WAITING);
            if self.waiting < object {
                return Err(Fault {
                    number: 24,
                    object: self.waiting,
                    delta: 0,
                });
            }
        }
        let mask = (dword_5 & own[MASK].get()) as u8;
        if mask == 0 {
            return Ok(());
        }
        let first = self.first_from(self.unfinished.object, |state| state != FINISHED);
        if first == object {
            self.unfinished = self.last;
            return Ok(());
        }
        self.unfinished = self.walk(self.unfinished, first);
        let deltas = u64::from(vfe[VFE_DWORD_6].get()) | u64::from(vfe[VFE_DWORD_7].get()) << 32;
        let waiter = Waiter::new(own, mask, deltas);
        match self.first_awaited(&waiter, self.last.record) {
            None => Ok(()),
            Some(record) => Err(Fault {
                number: 25,
                object: record[NUMBER].get() as usize,
                delta: waiter.at_delta(record).expect("an object at a delta"),
            }),
        }
    }

    /// The record of the first object that the one in record `own` waits for.
    #[inline(never)]
    fn first_awaited(&mut self, waiter: &Waiter, own: usize) -> Option<&'a [W; RECORD]> {
        let mut from = self.unfinished.record;
        loop {
            let until = own.min(from + BLOCK);
            let mut at_deltas = self.records[from..until]
                .iter()
                .filter(|record| waiter.at_delta(record).is_some());
            if let Some(awaited) = at_deltas.find(|record| self.is_awaited(waiter, record)) {
                return Some(awaited);
            }
            if until == own {
                return None;
            }
            from = match self.state_of(&self.records[until]) {
                FINISHED => self.past_finished(until),
                _ => until,
            };
        }
    }

    /// Whether a record has an object that is unfinished and uses a scoreboard, and whose
    /// colour is the waiter's. Kept out of the way of the search.
    #[inline(never)]
    fn is_awaited(&self, waiter: &Waiter, record: &[W; RECORD]) -> bool {
        if record[KIND].get() != 7 || record[COLOUR].get() != waiter.colour {
            return false;
        }
        let vfe = &self.records[record[VFE_RECORD].get() as usize];
        uses_scoreboard(record[OWN_USE].get(), vfe[VFE_DWORD_5].get())
            && self.state_of(record) != FINISHED
    }

    /// The first object from `from` on in a state sought; one must exist. Step by
    /// step: a cursor moved so passes each object once in a whole run.
    fn first_from(&self, from: usize, sought: impl Fn(u8) -> bool) -> usize {
        let mut states = self.states[from..].iter();
        let past = states.position(|&state| sought(state));
        from + past.expect("an object in a state sought")
    }

    /// The state of a record's object; a record without one is as good as finished.
    fn state_of(&self, record: &[W; RECORD]) -> u8 {
        match record[KIND].get() {
            7 => self.states[record[NUMBER].get() as usize],
            _ => FINISHED,
        }
    }

    /// The first record with an unfinished object from this one on; one must exist. Every
    /// start may have to cross the same stretch, so it goes on where the last one ended.
    #[inline(never)]
    fn past_finished(&mut self, record: usize) -> usize {
        if self.crossed.start != record {
            self.crossed = record..record;
        }
        loop {
            let record = &self.records[self.crossed.end];
            if self.state_of(record) != FINISHED {
                return self.crossed.end;
            }
            self.crossed.end += match record[KIND].get() {
                7 => self.finished_from(record[NUMBER].get() as usize),
                _ => 1,
            };
        }
    }

    /// How many objects from a finished one on are finished too, sixteen at a time: at
    /// least 1. Each has a record.
    fn finished_from(&self, object: usize) -> usize {
        let chunks = self.states[object..].as_chunks().0.iter();
        let whole = chunks.take_while(|&&chunk| chunk == [FINISHED; 16]);
        (16 * whole.count()).max(1)
    }

    /// Goes from one object to a later one, or stays, and finds its own record.
    fn walk(&self, mut spot: Spot, object: usize) -> Spot {
        spot.advance(object);
        loop {
            let here = &self.records[spot.record];
            spot.record += match here[KIND].get() {
                7 => match object - here[NUMBER].get() as usize {
                    0 => return spot,
                    short => short,
                },
                _ => 1,
            };
        }
    }
}

/// The object that is to start: where it stands, and its deltas in play.
struct Waiter {
    /// Where delta (-8, -8) leads, X in the low half, Y in the high.
    corner: u64,
    colour: u32,
    /// A byte per delta, X in its low half, Y in its high.
    deltas: u64,
    /// The high bit of a delta's byte where it is in play.
    in_play: u64,
}

impl Waiter {
    fn new<W: Word>(own: &[W; RECORD], mask: u8, deltas: u64) -> Self {
        // Bit n of the mask alone in byte n.
        let bits = (u64::from(mask) * EACH_BYTE) & 0x8040_2010_0804_0201;
        Waiter {
            corner: place(own).wrapping_sub(8 << 32 | 8),
            colour: own[COLOUR].get(),
            deltas,
            in_play: (bits + !HIGH_BITS) & HIGH_BITS,
        }
    }

    /// The lowest delta in play at which the object of a record stands. A record of
    /// another kind may seem to stand at one.
    fn at_delta<W: Word>(&self, record: &[W; RECORD]) -> Option<usize> {
        // As whole numbers: from 0 to 15 both ways, or no delta reaches it. Where X is
        // less, its half shows that, whatever it borrows from the other.
        let off = place(record).wrapping_sub(self.corner);
        if off & !(15 << 32 | 15) != 0 {
            return None;
        }
        let delta = (off >> 28 | off) & 0xff ^ 0x88;
        let unequal = self.deltas ^ (delta * EACH_BYTE);
        // The high bit of each byte that is 0: no carry leaves a byte.
        let equal = !(((unequal & !HIGH_BITS) + !HIGH_BITS) | unequal);
        match equal & self.in_play {
            0 => None,
            found => Some(found.trailing_zeros() as usize / 8),
        }
    }
}

/// X in the low half, Y in the high.
fn place<W: Word>(record: &[W; RECORD]) -> u64 {
    u64::from(record[X].get()) | u64::from(record[Y].get()) << 32
}

/// A one in each byte, and the high bit of each.
const EACH_BYTE: u64 = u64::MAX / 255;
const HIGH_BITS: u64 = EACH_BYTE << 7;

#[cfg(test)]
mod tests;
