//! One event of a recording, by its fields.

use crate::random::Random;
use crate::replay::EVENT;

/// Flags in byte 2; notify stands in bits 2:1.
pub const ACK: u8 = 1;
pub const END_OF_THREAD: u8 = 8;

#[derive(Clone, Copy, Default)]
pub struct Event {
    pub kind: u8,
    pub sender: u8,
    pub flags: u8,
    pub ack_register: u8,
    /// Forward: recipient; update: barrier.
    pub byte_4: u8,
    /// Open: size code; forward: length code; update: barrier byte.
    pub byte_5: u8,
    pub key: u16,
    /// Open: base; forward: offset.
    pub place: u16,
    pub zeros: [u8; 6],
    pub data: [u8; 32],
}

impl Event {
    pub fn new(kind: u8, sender: u8) -> Self {
        Event {
            kind,
            sender,
            ..Event::default()
        }
    }

    pub fn open(sender: u8, base: u16, size: u8, key: u16) -> Self {
        Event {
            byte_5: size,
            key,
            place: base,
            ..Event::new(0, sender)
        }
    }

    pub fn close(sender: u8) -> Self {
        Event::new(1, sender)
    }

    pub fn forward(sender: u8, recipient: u8, length: u8, offset: u16, key: u16) -> Self {
        Event {
            byte_4: recipient,
            byte_5: length,
            key,
            place: offset,
            ..Event::new(2, sender)
        }
    }

    pub fn barrier(sender: u8) -> Self {
        Event::new(4, sender)
    }

    pub fn update(sender: u8, barrier: u8, byte: u8) -> Self {
        Event {
            byte_4: barrier,
            byte_5: byte,
            ..Event::new(5, sender)
        }
    }

    pub fn ack(mut self, register: u8) -> Self {
        self.flags |= ACK;
        self.ack_register = register;
        self
    }

    pub fn notify(mut self, notify: u8) -> Self {
        self.flags = self.flags & !6 | notify << 1;
        self
    }

    pub fn end_of_thread(mut self) -> Self {
        self.flags |= END_OF_THREAD;
        self
    }

    /// For an open: its window lies in the registers.
    pub fn fits(&self) -> bool {
        self.byte_5 < 6 && self.place <= 128 - (1 << self.byte_5)
    }

    pub fn bytes(&self) -> [u8; EVENT] {
        let mut bytes = [0; EVENT];
        bytes[0] = self.kind;
        bytes[1] = self.sender;
        bytes[2] = self.flags;
        bytes[3] = self.ack_register;
        bytes[4] = self.byte_4;
        bytes[5] = self.byte_5;
        bytes[6..8].copy_from_slice(&self.key.to_le_bytes());
        bytes[8..10].copy_from_slice(&self.place.to_le_bytes());
        bytes[10..16].copy_from_slice(&self.zeros);
        bytes[16..].copy_from_slice(&self.data);
        bytes
    }

    /// Any content where the kind does not look.
    pub fn junk(&mut self, random: &mut Random) {
        if self.flags & ACK == 0 || matches!(self.kind, 3 | 5 | 6) {
            self.ack_register = random.word() as u8;
        }
        if !matches!(self.kind, 2 | 5) {
            self.byte_4 = random.word() as u8;
        }
        if matches!(self.kind, 1 | 3 | 4 | 6) {
            self.byte_5 = random.word() as u8;
            self.place = random.word() as u16;
        }
        if !matches!(self.kind, 0 | 2) {
            self.key = random.word() as u16;
        }
    }

    /// One fault, mostly one that is refused with 31.
    pub fn damage(&mut self, random: &mut Random, threads: usize) {
        let any = random.word() as u8;
        let any_pair = random.word() as u16;
        match random.below(14) {
            0 => self.kind = random.pick(&[7, 8, 128, 255, any]),
            1 => self.sender = random.pick(&[threads as u8, 16, 255, any]),
            2 => self.flags ^= 1 << random.between(4, 7),
            3 => self.flags |= END_OF_THREAD,
            4 => self.flags |= END_OF_THREAD | ACK,
            5 => *self = self.notify(3),
            6 => self.byte_5 = random.pick(&[6, 7, 8, 255, any]),
            7 => self.place = random.pick(&[128, 8192, 32_768, u16::MAX, any_pair]),
            8 => *self = self.ack(random.pick(&[128, 255, any])),
            9 => self.zeros[random.below(6)] = 1 << random.below(8),
            10 => self.byte_4 = random.pick(&[16, 17, 255, any]),
            11 => self.flags = any,
            12 => self.kind = random.below(8) as u8,
            _ => self.key = any_pair,
        }
    }
}
