//! A batch that comes in parts: request "Three" of document 02.
//!
//! Commands that a chunk holds whole are judged where they stand, and their records
//! written at once. Of a command that a chunk's end cuts, the first dwords are carried,
//! and it is judged when its last dword has come: rule 5 stands before 6 to 9.

use crate::batch::{self, Answer, Chip, Gen6, Gen7, InForce, Refusal, State};
use crate::batch::{CURBE, DESCRIPTOR, END, FLUSH, GATEWAY, NOOP, OBJECT, STATE_FLUSH, VFE};
use crate::batch::{LIMIT, OBJECT_FIXED, RECORD};
use std::array;
use std::iter::Take;
use std::slice::IterMut;

/// Dwords of the longest command without its inline data.
const OWN: usize = 8;

/// What is carried from call to call, by value; `START` goes with the first chunk. Dwords
/// alone and aligned, so that copies are a few plain moves.
#[derive(Clone, Copy, Debug, PartialEq, Eq)]
#[repr(align(16))]
pub struct Carried {
    /// What has stopped the reading: `ENDED`, or the number of a refusal; 0 while it goes
    /// on. After an answer 19.
    stop: u32,
    /// Of a refusal its place; after END the dwords read.
    place: u32,
    /// Dwords that have come; any over the limit count as one.
    dwords: u32,
    /// Commands passed.
    commands: u32,
    /// The record number of the VFE in force.
    vfe_record: u32,
    state: State<VfeInForce>,
    /// How many dwords of the command that is cut have come, and how many have not; 0 and
    /// 0 where none is cut.
    come: u32,
    missing: u32,
    /// Its first dwords, as many as have come; what stands after these is of no account.
    own: [u32; OWN],
}

/// END has stopped the reading.
const ENDED: u32 = 0x100;

const ANSWERED: u32 = 19;

/// Dwords 1 to 4 of the VFE in force, as its chunk may be gone.
type VfeInForce = [u32; 4];

impl<'a> InForce<'a, u32> for VfeInForce {
    fn of(&[_, d1, d2, d3, d4, ..]: &'a [u32; 8]) -> Self {
        [d1, d2, d3, d4]
    }
    fn dwords(self) -> [u32; 4] {
        self
    }
}

/// How far the chunks have led.
#[derive(Clone, Copy, Debug, PartialEq, Eq)]
pub struct Progress {
    pub stop: u32,
    pub place: u32,
    pub got: u32,
    pub own: [u32; OWN],
}

/// What a call gives back. No answer means "more".
#[derive(Clone, Copy, Debug, PartialEq, Eq)]
pub struct Fed {
    pub carried: Carried,
    pub answer: Option<Answer>,
}

/// Takes a chunk. One chip, one capacity and one record buffer go with all chunks of a
/// batch; only the call with the last one answers.
pub fn feed(
    chip: u32,
    mut carried: Carried,
    chunk: &[u32],
    last: bool,
    capacity: u32,
    records: &mut [u32],
) -> Fed {
    // 19 comes before 18.
    if carried.stop == ANSWERED {
        let answer = Some(Answer::refused(19, 0));
        return Fed { carried, answer };
    }
    let records = records.as_chunks_mut().0;
    match chip {
        7 => carried.take::<Gen7>(chunk, capacity, records),
        6 => carried.take::<Gen6>(chunk, capacity, records),
        _ => carried.stop = 18,
    }
    let mut answer = None;
    if last {
        answer = Some(carried.answer(records.len()));
        carried.stop = ANSWERED;
    }
    Fed { carried, answer }
}

impl Carried {
    pub const START: Self = Carried {
        stop: 0,
        place: 0,
        dwords: 0,
        commands: 0,
        vfe_record: 0,
        state: State::START,
        come: 0,
        missing: 0,
        own: [0; OWN],
    };

    /// Where reading stands, as the library's header has it. None past the limit, where
    /// nothing is read, and after an answer.
    pub fn progress(&self) -> Option<Progress> {
        let Carried { dwords, come, .. } = *self;
        let (stop, place) = match self.stop {
            ANSWERED => return None,
            _ if dwords as usize > LIMIT => return None,
            0 => (0, dwords - come),
            18 => (18, 0),
            ENDED => (255, self.place),
            number => (number, self.place),
        };
        // Without inline data.
        let most = match self.own[0] >> 16 {
            OBJECT => OBJECT_FIXED,
            _ => OWN,
        };
        let own = array::from_fn(|at| match at < most.min(come as usize) {
            true => self.own[at],
            false => 0,
        });
        Some(Progress {
            stop,
            place,
            got: come,
            own,
        })
    }

    /// What the last call answers, where so many records fit.
    fn answer(&self, room: usize) -> Answer {
        let numbers = [self.dwords, self.place, self.commands, self.come];
        let [dwords, place, commands, come] = numbers.map(|number| number as usize);
        match self.stop {
            18 => Answer::refused(18, 0),
            _ if dwords > LIMIT => Answer::refused(1, 0),
            0 if come > 0 => Answer::refused(5, dwords - come),
            0 => Answer::refused(2, dwords),
            ENDED if commands > room => Answer::refused(10, place),
            ENDED => Answer::accepted(commands, place),
            number => Answer::refused(number.into(), place),
        }
    }

    /// Reads what stands within the limit, until END or a fault is met.
    fn take<C: Chip>(&mut self, chunk: &[u32], capacity: u32, records: &mut [[u32; RECORD]]) {
        let before = self.dwords as usize;
        self.dwords = (before + chunk.len()).min(LIMIT + 1) as u32;
        if self.stop != 0 {
            return;
        }
        let within = chunk.len().min(LIMIT.saturating_sub(before));
        let chunk = &chunk[..within];
        let mut rest = chunk;
        if self.missing > 0 {
            match chunk.split_at_checked(self.missing as usize) {
                Some((_, after)) => rest = after,
                None => return self.keep(chunk),
            }
            if let Err(refusal) = self.whole::<C>(chunk, before, capacity, records) {
                return self.refuse(refusal);
            }
        }
        match self.read::<C>(rest, before + within, capacity, records) {
            Ok(dwords) => (self.stop, self.place) = (ENDED, dwords as u32),
            Err(Refusal { number: 2, .. }) => {}
            Err(Refusal { number: 5, place }) => self.cut(chunk, place - before),
            Err(refusal) => self.refuse(refusal),
        }
    }

    fn refuse(&mut self, Refusal { number, place }: Refusal) {
        (self.stop, self.place) = (number as u32, place as u32);
    }

    /// The chunk's end cuts the command that begins there; its header is sound.
    fn cut(&mut self, chunk: &[u32], at: usize) {
        let come = &chunk[at..];
        self.come = come.len() as u32;
        self.missing = batch::total(come[0]) as u32 - self.come;
        self.own = match (come.first_chunk(), chunk.last_chunk()) {
            (Some(first), _) => *first,
            // Turned by so much that the command stands first.
            (None, Some(last)) => turned(last, OWN - come.len()),
            (None, None) => join(&[0; OWN], 0, come),
        };
    }

    /// The whole chunk belongs to the command that is cut, which needs more.
    fn keep(&mut self, chunk: &[u32]) {
        if (self.come as usize) < OWN {
            self.own = join(&self.own, self.come as usize, chunk);
        }
        self.come += chunk.len() as u32;
        self.missing -= chunk.len() as u32;
    }

    /// The command that was cut is whole with the dwords that the chunk begins with.
    fn whole<C: Chip>(
        &mut self,
        chunk: &[u32],
        before: usize,
        capacity: u32,
        records: &mut [[u32; RECORD]],
    ) -> Result<(), Refusal> {
        let come = self.come as usize;
        let place = before - come;
        (self.come, self.missing) = (0, 0);
        let header = self.own[0];
        if header >> 16 == OBJECT {
            // No longer than it must be, so that it stays in registers.
            let own: [u32; OBJECT_FIXED] = join(&self.own, come, chunk);
            batch::whole_object::<C, _, _>(&own, place, &mut self.state)?;
            if let Some(record) = records.get_mut(self.commands as usize) {
                let number = self.state.objects - 1;
                *record = batch::object_record(own, place as u32, self.vfe_record, number);
            }
            self.commands += 1;
            return Ok(());
        }
        let own: [u32; OWN] = join(&self.own, come, chunk);
        let own = &own[..batch::total(header)];
        match self.read::<C>(own, place + own.len(), capacity, records) {
            Err(Refusal { number: 2, .. }) => Ok(()),
            Err(refusal) => Err(refusal),
            Ok(_) => unreachable!("END is one dword"),
        }
    }

    /// Rules 3 to 9 on dwords that end before the place `end`. Gives the dwords read up to
    /// END; 2 means that these dwords are used up, 5 that a command needs more. Once for
    /// the command that was cut and for the chunk.
    #[inline(never)]
    fn read<C: Chip>(
        &mut self,
        dwords: &[u32],
        end: usize,
        capacity: u32,
        records: &mut [[u32; RECORD]],
    ) -> Result<usize, Refusal> {
        // A buffer shorter than one lent before may have no record left.
        let records = records.get_mut(self.commands as usize..);
        let mut reader = Reader {
            state: &mut self.state,
            commands: self.commands,
            vfe_record: self.vfe_record,
            capacity,
            records: records.unwrap_or_default().iter_mut(),
        };
        let stopped = reader.read::<C>(dwords, end);
        (self.commands, self.vfe_record) = (reader.commands, reader.vfe_record);
        stopped
    }
}

/// The dwords that come first when `by` of them are turned to the end.
fn turned(dwords: &[u32; OWN], by: usize) -> [u32; OWN] {
    array::from_fn(|at| dwords[(by + at) % OWN])
}

/// The first dwords of a command of which some have come before the chunk.
#[inline(always)]
fn join<const N: usize>(own: &[u32; OWN], come: usize, chunk: &[u32]) -> [u32; N] {
    match chunk.first_chunk::<OWN>() {
        // A choice between two loads, as where a command is cut no processor foresees.
        Some(head) => array::from_fn(|at| match at < come {
            true => own[at],
            false => head[at.wrapping_sub(come) % OWN],
        }),
        None => join_short(own, come, chunk),
    }
}

#[cold]
#[inline(never)]
fn join_short<const N: usize>(own: &[u32; OWN], come: usize, chunk: &[u32]) -> [u32; N] {
    array::from_fn(|at| match at < come {
        true => own[at],
        false => chunk.get(at - come).copied().unwrap_or(0),
    })
}

/// Judges commands, counts those that pass and writes their records.
struct Reader<'a> {
    state: &'a mut State<VfeInForce>,
    commands: u32,
    vfe_record: u32,
    capacity: u32,
    /// Those that are left.
    records: IterMut<'a, [u32; RECORD]>,
}

impl<'r> Reader<'r> {
    #[inline(always)]
    fn read<C: Chip>(&mut self, mut rest: &[u32], end: usize) -> Result<usize, Refusal> {
        loop {
            let place = end - rest.len();
            let Some((&header, next)) = rest.split_first() else {
                return batch::refuse(2, place);
            };
            let at = place as u32;
            rest = match header >> 16 {
                OBJECT => {
                    let after = self.objects::<C>(rest, header, at);
                    match after.first() {
                        // It is at fault, or needs more.
                        Some(&first) if first == header => {
                            let place = end - after.len();
                            batch::object::<C, _, _>(after, header, place, self.state)?
                        }
                        _ => after,
                    }
                }
                VFE => {
                    let capacity = self.capacity;
                    let next = batch::vfe::<C, _, _>(rest, header, place, self.state, capacity)?;
                    self.vfe_record = self.commands;
                    self.pass(|record| batch::vfe_record(record, batch::whole(rest), at));
                    next
                }
                CURBE => {
                    let next = batch::curbe::<C, _, _>(rest, header, place, self.state)?;
                    self.pass(|record| batch::curbe_record(record, batch::whole(rest), at));
                    next
                }
                DESCRIPTOR => {
                    let next = batch::descriptor::<C, _, _>(rest, header, place, self.state)?;
                    self.pass(|record| batch::descriptor_record(record, batch::whole(rest), at));
                    next
                }
                STATE_FLUSH => {
                    let next = batch::state_flush::<C, _, _>(rest, header, place, self.state)?;
                    self.pass(|record| batch::state_flush_record(record, batch::whole(rest), at));
                    next
                }
                GATEWAY if C::HAS_GATEWAY => {
                    let next = batch::gateway::<C, _, _>(rest, header, place, self.state)?;
                    let more = batch::more_gateways::<C, _>(next, header);
                    let mut command = rest;
                    for (record, at) in self.pass_all(1 + more).zip((at..).step_by(2)) {
                        batch::gateway_record(record, batch::whole(command), at);
                        command = &command[2..];
                    }
                    &next[2 * more..]
                }
                // Kinds 0 to 2 match as a whole dword.
                _ => match header {
                    NOOP => {
                        let more = next.iter().take_while(|&&word| word == NOOP).count();
                        for (record, at) in self.pass_all(1 + more).zip(at..) {
                            batch::plain_record(record, 0, at);
                        }
                        &next[more..]
                    }
                    FLUSH => {
                        self.state.flush();
                        self.pass(|record| batch::plain_record(record, 1, at));
                        next
                    }
                    END => {
                        self.pass(|record| batch::plain_record(record, 2, at));
                        return Ok(place + 1);
                    }
                    _ => return batch::refuse(3, place),
                },
            };
        }
    }

    /// Counts a command, and fills its record where one is left.
    fn pass(&mut self, fill: impl FnOnce(&mut [u32; RECORD])) {
        self.commands += 1;
        if let Some(record) = self.records.next() {
            fill(record);
        }
    }

    /// Counts so many commands; gives their records, or those that are left.
    fn pass_all(&mut self, count: usize) -> Take<&mut IterMut<'r, [u32; RECORD]>> {
        self.commands += count as u32;
        self.records.by_ref().take(count)
    }

    /// A stretch of sound OBJECTs with one header: first they are judged, then their
    /// records are written, in two short loops. Gives what follows them.
    fn objects<'a, C: Chip>(&mut self, rest: &'a [u32], header: u32, place: u32) -> &'a [u32] {
        let passed = sound_objects::<C>(rest, header, self.state.for_objects());
        if passed > 0 {
            let number = self.state.objects;
            self.state.pass_objects(passed as u32);
            self.commands += passed as u32;
            let left = std::mem::take(&mut self.records).into_slice();
            let (records, left) = left.split_at_mut(passed.min(left.len()));
            self.records = left.iter_mut();
            object_records(records, rest, header, place, self.vfe_record, number);
        }
        &rest[passed * batch::total(header)..]
    }
}

/// How many sound OBJECTs with this header stand there whole. By itself, as the records, so
/// that the loop has all registers.
#[inline(never)]
fn sound_objects<C: Chip>(mut rest: &[u32], header: u32, mut state: State<()>) -> usize {
    let total = batch::total(header);
    let before = state.objects;
    while let Some((command, next)) = rest.split_at_checked(total) {
        match command.first_chunk() {
            Some(own) if own[0] == header => {
                if batch::whole_object::<C, _, _>(own, 0, &mut state).is_err() {
                    break;
                }
            }
            _ => break,
        }
        rest = next;
    }
    (state.objects - before) as usize
}

#[inline(never)]
fn object_records(
    records: &mut [[u32; RECORD]],
    mut rest: &[u32],
    header: u32,
    mut place: u32,
    vfe: u32,
    mut number: u32,
) {
    let total = batch::total(header);
    for record in records {
        let (command, next) = rest.split_at(total);
        let &[_, w1, w2, w3, w4, w5] = batch::whole(command);
        *record = batch::object_record([header, w1, w2, w3, w4, w5], place, vfe, number);
        rest = next;
        place += total as u32;
        number += 1;
    }
}

#[cfg(test)]
mod tests;
