//! The batch check: sections "The command words" and "Why a batch is turned
//! away" of document 01, for both chips and with the VFE's order of document 02.
//!
//! The first pass judges and writes nothing; the second decodes what the first
//! accepted. Inline data is stepped over, and nothing after END is read. Each chip
//! has code of its own: what tells them apart is known when it is compiled.

use crate::masks::{Masks, Table, GEN6, GEN7};
use std::ops::Range;

/// The longest batch, in dwords (rule 1).
pub const LIMIT: usize = 16_384;

/// Words in a record.
pub const RECORD: usize = 16;

pub const NOOP: u32 = 0x0000_0000;
pub const FLUSH: u32 = 0x0200_0000;
pub const END: u32 = 0x0500_0000;

/// Upper halves of the media headers: type, pipeline, opcode and subopcode.
pub const VFE: u32 = 0x7000;
pub const CURBE: u32 = 0x7001;
pub const DESCRIPTOR: u32 = 0x7002;
/// MEDIA_GATEWAY_STATE, Gen6 alone.
pub const GATEWAY: u32 = 0x7003;
pub const STATE_FLUSH: u32 = 0x7004;
pub const OBJECT: u32 = 0x7100;

/// Dwords of an OBJECT before its inline data.
pub(crate) const OBJECT_FIXED: usize = 6;

/// What an entry answers. On success the place is 0, on refusal commands and
/// dwords are 0. Laid out as in C, so that the library can answer with it too.
#[derive(Clone, Copy, Debug, PartialEq, Eq)]
#[repr(C)]
pub struct Answer {
    pub number: u64,
    pub place: u64,
    pub commands: u64,
    pub dwords: u64,
}

impl Answer {
    pub fn accepted(commands: usize, dwords: usize) -> Self {
        Answer {
            number: 0,
            place: 0,
            commands: commands as u64,
            dwords: dwords as u64,
        }
    }

    pub fn refused(number: u64, place: usize) -> Self {
        Answer {
            number,
            place: place as u64,
            commands: 0,
            dwords: 0,
        }
    }
}

/// Whether a caller's number names a chip; else it is refused with 18.
pub fn known(chip: u32) -> bool {
    matches!(chip, 6 | 7)
}

/// What tells the chips apart.
pub(crate) trait Chip {
    const MASKS: &'static Table;
    /// Whether MEDIA_GATEWAY_STATE is a command.
    const HAS_GATEWAY: bool;
}

pub(crate) struct Gen6;

impl Chip for Gen6 {
    const MASKS: &'static Table = &GEN6;
    const HAS_GATEWAY: bool = true;
}

pub(crate) struct Gen7;

impl Chip for Gen7 {
    const MASKS: &'static Table = &GEN7;
    const HAS_GATEWAY: bool = false;
}

/// The batch check over dwords.
pub fn check(chip: u32, batch: &[u32], capacity: u32, records: &mut [u32]) -> Answer {
    check_words(chip, batch, capacity, records.as_chunks_mut().0)
}

/// The batch check over little-endian bytes; a record takes 64 of them.
pub fn check_bytes(chip: u32, batch: &[u8], capacity: u32, records: &mut [u8]) -> Answer {
    let (words, tail) = batch.as_chunks::<4>();
    // 18 comes before 17.
    if !tail.is_empty() && known(chip) {
        return Answer::refused(17, words.len());
    }
    let (record_words, _) = records.as_chunks_mut::<4>();
    check_words(chip, words, capacity, record_words.as_chunks_mut().0)
}

fn check_words<W: Word>(
    chip: u32,
    batch: &[W],
    capacity: u32,
    records: &mut [[W; RECORD]],
) -> Answer {
    match chip {
        7 => check_for::<Gen7, W>(batch, capacity, records),
        6 => check_for::<Gen6, W>(batch, capacity, records),
        _ => Answer::refused(18, 0),
    }
}

fn check_for<C: Chip, W: Word>(batch: &[W], capacity: u32, records: &mut [[W; RECORD]]) -> Answer {
    match admit::<C, W>(batch, capacity, records) {
        Ok((accepted, records)) => {
            decode::<C, W>(batch, records);
            Answer::accepted(accepted.commands, accepted.dwords)
        }
        Err(refusal) => Answer::refused(refusal.number, refusal.place),
    }
}

/// Rules 1 to 10. Writes nothing; gives the records that `decode` is to fill. Both checks
/// call it, so that each chip's code stands once.
#[inline(never)]
pub(crate) fn admit<'a, C: Chip, W: Word>(
    batch: &[W],
    capacity: u32,
    records: &'a mut [[W; RECORD]],
) -> Result<(Accepted, &'a mut [[W; RECORD]]), Refusal> {
    let accepted = judge::<C, W>(batch, capacity)?;
    match records.get_mut(..accepted.commands) {
        Some(records) => Ok((accepted, records)),
        None => refuse(10, accepted.dwords),
    }
}

/// A dword as it lies in a lent buffer: a number, or four bytes, low first.
pub(crate) trait Word: Copy {
    fn get(self) -> u32;
    fn put(value: u32) -> Self;
}

impl Word for u32 {
    fn get(self) -> u32 {
        self
    }
    fn put(value: u32) -> Self {
        value
    }
}

impl Word for [u8; 4] {
    fn get(self) -> u32 {
        u32::from_le_bytes(self)
    }
    fn put(value: u32) -> Self {
        value.to_le_bytes()
    }
}

/// What the first pass learns of an accepted batch.
pub(crate) struct Accepted {
    pub commands: usize,
    pub dwords: usize,
    pub objects: usize,
}

pub(crate) struct Refusal {
    pub number: u64,
    pub place: usize,
}

pub(crate) fn refuse<T>(number: u64, place: usize) -> Result<T, Refusal> {
    Err(Refusal { number, place })
}

/// What rules 8 and 9 remember of the commands before.
#[derive(Clone, Copy, Debug, PartialEq, Eq)]
pub(crate) struct State<V> {
    /// The VFE in force: the last one.
    vfe: Option<V>,
    /// What stands in a later command's way: bits below.
    stands: u32,
    /// OBJECTs so far.
    pub objects: u32,
    /// The count last loaded; a VFE keeps it.
    descriptors: u32,
}

impl<V> State<V> {
    pub const START: Self = State {
        vfe: None,
        stands: 0,
        objects: 0,
        descriptors: 0,
    };

    /// What the rules ask of it for an OBJECT.
    pub fn for_objects(&self) -> State<()> {
        State {
            vfe: None,
            stands: self.stands,
            objects: self.objects,
            descriptors: self.descriptors,
        }
    }

    pub fn pass_objects(&mut self, count: u32) {
        self.stands = OBJECTS;
        self.objects += count;
    }

    /// MI_FLUSH: nothing stands.
    pub fn flush(&mut self) {
        self.stands = 0;
    }
}

/// The VFE in force as a check keeps it: where it stands, or what the rules ask of it.
pub(crate) trait InForce<'a, W>: Copy {
    fn of(command: &'a [W; 8]) -> Self;
    /// Dwords 1 to 4.
    fn dwords(self) -> [u32; 4];
}

impl<'a, W: Word> InForce<'a, W> for &'a [W; 8] {
    fn of(command: &'a [W; 8]) -> Self {
        command
    }
    fn dwords(self) -> [u32; 4] {
        [1, 2, 3, 4].map(|dword| self[dword].get())
    }
}

/// A command of kind 3, 4, 5, 7 or 8 stands since the last MI_FLUSH or the start.
const SINCE_FLUSH: u32 = 0b001;
/// One stands since the last MI_FLUSH or state flush or the start.
const SINCE_EITHER: u32 = 0b011;
/// An OBJECT stands since then.
const OBJECTS: u32 = 0b111;

/// First pass: rules 1 to 9. Writes nothing.
fn judge<C: Chip, W: Word>(batch: &[W], capacity: u32) -> Result<Accepted, Refusal> {
    if batch.len() > LIMIT {
        return refuse(1, 0);
    }
    read::<C, W>(batch, capacity, |_| {})
}

/// The inline data of every OBJECT passed, whatever rules 1, 10 and 17 say. A chip
/// that is not known passes none.
pub fn passed_inline_data(chip: u32, batch: &[u32], capacity: u32) -> Vec<Range<usize>> {
    let mut found = Vec::new();
    let passed = |inline| found.push(inline);
    // A fault stops the reading, as END and the slice's end do.
    let _ = match chip {
        7 => read::<Gen7, u32>(batch, capacity, passed),
        6 => read::<Gen6, u32>(batch, capacity, passed),
        _ => refuse(18, 0),
    };
    found
}

/// Rules 2 to 9, command by command. Tells `passed` where the inline data of each
/// OBJECT passed stands.
fn read<C: Chip, W: Word>(
    batch: &[W],
    capacity: u32,
    mut passed: impl FnMut(Range<usize>),
) -> Result<Accepted, Refusal> {
    let mut state = State::<&[W; 8]>::START;
    let mut rest = batch;
    let mut commands = 0;
    loop {
        let place = batch.len() - rest.len();
        let Some((first, next)) = rest.split_first() else {
            return refuse(2, place);
        };
        let header = first.get();
        commands += 1;
        rest = match header >> 16 {
            // A picture's OBJECTs are all of one length: while the header stays the same,
            // where the next one begins is known before it is read.
            OBJECT => loop {
                let place = batch.len() - rest.len();
                let next = object::<C, W, _>(rest, header, place, &mut state)?;
                passed(place + OBJECT_FIXED..batch.len() - next.len());
                match next.first() {
                    Some(first) if first.get() == header => rest = next,
                    _ => break next,
                }
                commands += 1;
            },
            VFE => vfe::<C, W, _>(rest, header, place, &mut state, capacity)?,
            CURBE => curbe::<C, W, _>(rest, header, place, &mut state)?,
            DESCRIPTOR => descriptor::<C, W, _>(rest, header, place, &mut state)?,
            STATE_FLUSH => state_flush::<C, W, _>(rest, header, place, &mut state)?,
            GATEWAY if C::HAS_GATEWAY => {
                let next = gateway::<C, W, _>(rest, header, place, &mut state)?;
                // Barriers are set up one after the other.
                let more = more_gateways::<C, W>(next, header);
                commands += more;
                &next[2 * more..]
            }
            // Kinds 0 to 2 match as a whole dword.
            _ => match header {
                // They come in stretches, to pad.
                NOOP => {
                    let more = next.iter().take_while(|word| word.get() == NOOP).count();
                    commands += more;
                    &next[more..]
                }
                FLUSH => {
                    state.flush();
                    next
                }
                END => {
                    return Ok(Accepted {
                        commands,
                        dwords: place + 1,
                        objects: state.objects as usize,
                    })
                }
                _ => return refuse(3, place),
            },
        };
    }
}

type Judged<'a, W> = Result<&'a [W], Refusal>;

pub(crate) fn object<'a, C: Chip, W: Word, V>(
    rest: &'a [W],
    header: u32,
    place: usize,
    state: &mut State<V>,
) -> Judged<'a, W> {
    let total = total(header);
    if total < OBJECT_FIXED {
        return refuse(4, place);
    }
    let Some((command, next)) = rest.split_at_checked(total) else {
        return refuse(5, place);
    };
    whole_object::<C, W, V>(whole(command), place, state)?;
    Ok(next)
}

/// Rules 6 to 8 for an OBJECT that is all there, by its dwords before the inline data.
pub(crate) fn whole_object<C: Chip, W: Word, V>(
    command: &[W; OBJECT_FIXED],
    place: usize,
    state: &mut State<V>,
) -> Result<(), Refusal> {
    must_be_zero(command, &C::MASKS.object, place)?;
    // A load needs a VFE, so a count above the index means that one stands earlier.
    if command[1].get() & 0x3f >= state.descriptors {
        return refuse(8, place);
    }
    state.pass_objects(1);
    Ok(())
}

pub(crate) fn vfe<'a, C: Chip, W: Word, V: InForce<'a, W>>(
    rest: &'a [W],
    header: u32,
    place: usize,
    state: &mut State<V>,
    capacity: u32,
) -> Judged<'a, W> {
    let (command, next) = fixed::<W, 8>(rest, header, place)?;
    must_be_zero(command, &C::MASKS.vfe, place)?;
    if !may_change(command, state) {
        return refuse(8, place);
    }
    let entries = command[2].get() >> 8 & 0xff;
    let entry_size = command[4].get() >> 16;
    // At most 255 x 65,535 + 65,535, so 32 bits hold it.
    if entries * entry_size + curbe_size(command) > capacity {
        return refuse(9, place);
    }
    state.vfe = Some(V::of(command));
    state.stands = SINCE_EITHER;
    Ok(next)
}

fn curbe_size<'a, W: Word>(vfe: impl InForce<'a, W>) -> u32 {
    let [_, _, _, dword_4] = vfe.dwords();
    dword_4 & 0xffff
}

/// Rule 8 for a VFE. Where it changes the scoreboard alone, a state flush is enough.
fn may_change<'a, W: Word, V: InForce<'a, W>>(command: &'a [W; 8], state: &State<V>) -> bool {
    match (state.stands, state.vfe) {
        (0, _) => true,
        (SINCE_FLUSH, Some(vfe)) => only_scoreboard(command, vfe),
        _ => false,
    }
}

/// Whether a VFE differs from the one in force in scoreboard enable, type, mask and deltas
/// at most. They fill dwords 5 to 7, but for bits that rule 6 has found zero in both.
fn only_scoreboard<'a, W: Word>(command: &'a [W; 8], in_force: impl InForce<'a, W>) -> bool {
    let both = command.dwords().into_iter().zip(in_force.dwords());
    let others = both.fold(0, |joined, (own, other)| joined | own ^ other);
    others == 0
}

pub(crate) fn curbe<'a, C: Chip, W: Word, V: InForce<'a, W>>(
    rest: &'a [W],
    header: u32,
    place: usize,
    state: &mut State<V>,
) -> Judged<'a, W> {
    let (command, next) = fixed::<W, 4>(rest, header, place)?;
    must_be_zero(command, &C::MASKS.curbe, place)?;
    let length = command[2].get() & 0x1_ffff;
    if !length.is_multiple_of(32) {
        return refuse(7, place + 2);
    }
    if !command[3].get().is_multiple_of(32) {
        return refuse(7, place + 3);
    }
    let Some(vfe) = state.vfe else {
        return refuse(8, place);
    };
    if length > 32 * curbe_size(vfe) {
        return refuse(9, place);
    }
    state.stands |= SINCE_EITHER;
    Ok(next)
}

pub(crate) fn descriptor<'a, C: Chip, W: Word, V>(
    rest: &'a [W],
    header: u32,
    place: usize,
    state: &mut State<V>,
) -> Judged<'a, W> {
    let (command, next) = fixed::<W, 4>(rest, header, place)?;
    must_be_zero(command, &C::MASKS.descriptor, place)?;
    let length = command[2].get() & 0x1_ffff;
    if !length.is_multiple_of(32) || !(32..=2048).contains(&length) {
        return refuse(7, place + 2);
    }
    if !command[3].get().is_multiple_of(32) {
        return refuse(7, place + 3);
    }
    if state.vfe.is_none() || state.stands == OBJECTS {
        return refuse(8, place);
    }
    state.stands = SINCE_EITHER;
    state.descriptors = length / 32;
    Ok(next)
}

pub(crate) fn gateway<'a, C: Chip, W: Word, V>(
    rest: &'a [W],
    header: u32,
    place: usize,
    state: &mut State<V>,
) -> Judged<'a, W> {
    let (command, next) = fixed::<W, 2>(rest, header, place)?;
    must_be_zero(command, &C::MASKS.gateway, place)?;
    if state.vfe.is_none() {
        return refuse(8, place);
    }
    state.stands |= SINCE_EITHER;
    Ok(next)
}

pub(crate) fn state_flush<'a, C: Chip, W: Word, V>(
    rest: &'a [W],
    header: u32,
    place: usize,
    state: &mut State<V>,
) -> Judged<'a, W> {
    let (command, next) = fixed::<W, 2>(rest, header, place)?;
    must_be_zero(command, &C::MASKS.state_flush, place)?;
    state.stands &= SINCE_FLUSH;
    Ok(next)
}

/// How many sound commands of the same header follow one that has passed.
pub(crate) fn more_gateways<C: Chip, W: Word>(rest: &[W], header: u32) -> usize {
    let sound = |[first, dword]: &&[W; 2]| {
        (first.get() ^ header) | (dword.get() & C::MASKS.gateway[1]) == 0
    };
    rest.as_chunks().0.iter().take_while(sound).count()
}

/// Dwords of a media command, by its length field.
pub(crate) fn total(header: u32) -> usize {
    (header & 0xffff) as usize + 2
}

/// Rules 4 and 5 for a command of `N` dwords.
fn fixed<W: Word, const N: usize>(
    rest: &[W],
    header: u32,
    place: usize,
) -> Result<(&[W; N], &[W]), Refusal> {
    if total(header) != N {
        return refuse(4, place);
    }
    match rest.split_first_chunk() {
        Some(split) => Ok(split),
        None => refuse(5, place),
    }
}

/// Rule 6. All dwords are joined first, so that a sound command costs one branch.
fn must_be_zero<W: Word, const N: usize>(
    command: &[W; N],
    masks: &Masks,
    place: usize,
) -> Result<(), Refusal> {
    let stray = (1..N).fold(0, |joined, dword| {
        joined | command[dword].get() & masks[dword]
    });
    match stray {
        0 => Ok(()),
        _ => refuse(6, place + first_stray(command, masks)),
    }
}

/// The first dword with a must-be-zero bit set. Kept out of the sound command's way.
#[cold]
#[inline(never)]
fn first_stray<W: Word>(command: &[W], masks: &Masks) -> usize {
    let mut dwords = command.iter().zip(masks);
    dwords
        .position(|(word, mask)| word.get() & mask != 0)
        .expect("a must-be-zero bit is set")
}

/// The first `N` dwords of a command already known to hold them.
pub(crate) fn whole<W: Word, const N: usize>(command: &[W]) -> &[W; N] {
    command.first_chunk().expect("a command judged whole")
}

/// Second pass: fills one record per command of a batch that `judge` accepted. Once for
/// both checks, as `admit`.
#[inline(never)]
pub(crate) fn decode<C: Chip, W: Word>(batch: &[W], records: &mut [[W; RECORD]]) {
    let commands = records.len();
    let mut records = records.iter_mut();
    let mut rest = batch;
    let mut vfe = 0;
    let mut objects = 0;
    while let Some(mut record) = records.next() {
        let place = (batch.len() - rest.len()) as u32;
        let header = rest[0].get();
        let total = match header >> 16 {
            // As in the first pass, while the header stays the same.
            OBJECT => loop {
                let place = (batch.len() - rest.len()) as u32;
                let total = total(header);
                let (command, next) = rest.split_at(total);
                *record = object_record(whole(command).map(W::get), place, vfe, objects);
                objects += 1;
                match next.first() {
                    Some(first) if first.get() == header => rest = next,
                    _ => break total,
                }
                record = records.next().expect("a record for each command");
            },
            VFE => {
                vfe_record(record, whole(rest), place);
                vfe = (commands - records.len() - 1) as u32;
                8
            }
            CURBE => {
                curbe_record(record, whole(rest), place);
                4
            }
            DESCRIPTOR => {
                descriptor_record(record, whole(rest), place);
                4
            }
            STATE_FLUSH => {
                state_flush_record(record, whole(rest), place);
                2
            }
            GATEWAY if C::HAS_GATEWAY => {
                gateway_record(record, whole(rest), place);
                while rest[2].get() == header {
                    rest = &rest[2..];
                    let place = (batch.len() - rest.len()) as u32;
                    let record = records.next().expect("a record for each command");
                    gateway_record(record, whole(rest), place);
                }
                2
            }
            _ => {
                match header {
                    NOOP => plain_record(record, 0, place),
                    FLUSH => plain_record(record, 1, place),
                    _ => plain_record(record, 2, place),
                }
                while header == NOOP && rest[1].get() == NOOP {
                    rest = &rest[1..];
                    let place = (batch.len() - rest.len()) as u32;
                    let record = records.next().expect("a record for each command");
                    plain_record(record, 0, place);
                }
                1
            }
        };
        rest = &rest[total..];
    }
}

/// Kinds 0 to 2.
pub(crate) fn plain_record<W: Word>(record: &mut [W; RECORD], kind: u32, place: u32) {
    fill(record, [kind, place, 1], []);
}

pub(crate) fn vfe_record<W: Word>(record: &mut [W; RECORD], command: &[W; 8], place: u32) {
    let [_, _, w2, _, w4, w5, w6, w7] = command.map(W::get);
    let fields = [
        w2 >> 16,
        w2 >> 8 & 0xff,
        w2 >> 6 & 1,
        w4 >> 16,
        w4 & 0xffff,
        w5,
        w6,
        w7,
    ];
    fill(record, [3, place, 8], fields);
}

pub(crate) fn curbe_record<W: Word>(record: &mut [W; RECORD], command: &[W; 4], place: u32) {
    let [_, _, w2, w3] = command.map(W::get);
    fill(record, [4, place, 4], [w2 & 0x1_ffff, w3]);
}

pub(crate) fn descriptor_record<W: Word>(record: &mut [W; RECORD], command: &[W; 4], place: u32) {
    let [_, _, w2, w3] = command.map(W::get);
    fill(record, [5, place, 4], [(w2 & 0x1_ffff) / 32, w3]);
}

pub(crate) fn state_flush_record<W: Word>(record: &mut [W; RECORD], command: &[W; 2], place: u32) {
    fill(record, [6, place, 2], [command[1].get()]);
}

pub(crate) fn gateway_record<W: Word>(record: &mut [W; RECORD], command: &[W; 2], place: u32) {
    fill(record, [8, place, 2], [command[1].get()]);
}

pub(crate) fn object_record<W: Word>(
    [header, w1, w2, w3, w4, w5]: [u32; OBJECT_FIXED],
    place: u32,
    vfe: u32,
    number: u32,
) -> [W; RECORD] {
    let inline = (header & 0xffff) - 4;
    [
        7,
        place,
        inline + 6,
        w1 & 0x3f,
        w2 >> 21 & 1,
        w2 >> 31,
        w2 >> 24 & 1,
        w4 & 0x1ff,
        w4 >> 16 & 0x1ff,
        w5 >> 16 & 0xf,
        w5 & 0xff,
        inline,
        w2 & 0x1_ffff,
        w3,
        vfe,
        number,
    ]
    .map(W::put)
}

/// Kind, place and total, the fields, then zeros.
fn fill<W: Word, const N: usize>(record: &mut [W; RECORD], start: [u32; 3], fields: [u32; N]) {
    record[..3].copy_from_slice(&start.map(W::put));
    record[3..3 + N].copy_from_slice(&fields.map(W::put));
    record[3 + N..].fill(W::put(0));
}

#[cfg(test)]
mod tests;
