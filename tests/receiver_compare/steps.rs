//! A call that was carried out, with the receiver before and after it.

use second::receiver::place::*;
use second::receiver::*;

use crate::call::{Call, Entry};

pub type Receiver = [u8; STATE_BYTES];

/// Every mailbox's bit.
pub const ALL: u8 = u8::MAX;

pub struct Step {
    pub entry: Entry,
    pub number: u32,
    pub value: u8,
    pub before: Receiver,
    pub after: Receiver,
    pub frame: Vec<u8>,
    pub room_before: Vec<u8>,
    pub room_after: Vec<u8>,
}

impl Step {
    /// `None` if a receiver is not whole.
    pub fn new(call: &Call, left: [&[u8]; 3]) -> Option<Step> {
        let [receiver, frame, room] = &call.slices;
        Some(Step {
            entry: call.entry,
            number: call.number,
            value: call.value,
            before: receiver.as_slice().try_into().ok()?,
            after: left[0].try_into().ok()?,
            frame: frame.clone(),
            room_before: room.clone(),
            room_after: left[2].to_vec(),
        })
    }

    pub fn is(&self, entry: Entry) -> bool {
        self.entry == entry
    }

    /// A write to this register.
    pub fn writes(&self, register: usize) -> bool {
        self.is(Entry::Write) && self.number as usize == register
    }

    pub fn reads(&self, register: usize) -> bool {
        self.is(Entry::Read) && self.number as usize == register
    }

    /// The mailbox that the register belongs to.
    pub fn mailbox(&self) -> Option<usize> {
        let at = (self.number as usize).checked_sub(FIRST_MAILBOX)?;
        Some(at / FRAME_BYTES)
    }

    /// A byte of the receiver before the call.
    pub fn had(&self, at: usize, value: u8) -> bool {
        self.before[at] == value
    }

    /// Handed in: no call makes overrun so.
    pub fn overrun_is_high(&self) -> bool {
        !matches!(self.before[OVERRUN], 0 | OVERRUN_SET)
    }

    pub fn status(&self) -> u8 {
        self.before[STATUS]
    }

    pub fn was_full(&self, mailbox: usize) -> bool {
        is_full(&self.before, mailbox)
    }

    /// The mailbox that the call filled, by the bits of status.
    pub fn filled(&self) -> Option<usize> {
        lowest_bit(self.after[STATUS] & !self.status())
    }

    /// A frame arrived and was not held.
    pub fn lost(&self) -> bool {
        self.is(Entry::Arrive) && self.filled().is_none()
    }

    /// The mailbox that a drain emptied.
    pub fn drained(&self) -> Option<usize> {
        let emptied = lowest_bit(self.status() & !self.after[STATUS]);
        emptied.filter(|_| self.is(Entry::Drain))
    }

    pub fn turn(&self) -> usize {
        turn(&self.before)
    }

    /// Handed in: no call makes the turn so.
    pub fn turn_is_high(&self) -> bool {
        usize::from(self.before[TURN]) >= MAILBOXES
    }

    /// The status with the turn's mailbox as its lowest bit, then those that come after it round
    /// the ring.
    pub fn ring(&self) -> u8 {
        self.ring_of(self.status())
    }

    fn ring_of(&self, status: u8) -> u8 {
        status.rotate_right(self.turn() as u32)
    }

    /// Whether an empty mailbox stands between full ones, from the turn's on.
    pub fn has_a_hole(&self) -> bool {
        is_parted(self.ring())
    }

    /// The same of what the call leaves.
    pub fn leaves_a_hole(&self) -> bool {
        is_parted(self.ring_of(self.after[STATUS]))
    }

    /// Mailboxes that a write to acknowledge emptied, and bits for those that were empty.
    pub fn acknowledged(&self) -> Option<(u8, u8)> {
        let (value, status) = (self.value, self.status());
        self.writes(ACKNOWLEDGE)
            .then_some((value & status, value & !status))
    }

    /// The bits that status and mask share before a question about the line.
    pub fn shared(&self) -> Option<u8> {
        let bits = self.status() & self.before[MASK];
        self.is(Entry::Line).then_some(bits)
    }
}

/// Whether a bit that is not set stands between those that are.
fn is_parted(bits: u8) -> bool {
    let ends = bits.leading_zeros() + bits.trailing_zeros();
    bits != 0 && bits.count_ones() + ends < u8::BITS
}

fn lowest_bit(bits: u8) -> Option<usize> {
    (bits != 0).then(|| bits.trailing_zeros() as usize)
}

/// The mailbox that the turn's byte means.
pub fn turn(receiver: &Receiver) -> usize {
    usize::from(receiver[TURN]) % MAILBOXES
}

pub fn is_full(receiver: &Receiver, mailbox: usize) -> bool {
    receiver[STATUS] >> mailbox & 1 == 1
}

/// The frames that a receiver holds, from the turn's mailbox on.
pub fn held(receiver: &Receiver) -> Vec<&[u8]> {
    let ring = (0..MAILBOXES).map(|step| (turn(receiver) + step) % MAILBOXES);
    let full = ring.filter(|&mailbox| is_full(receiver, mailbox));
    full.map(|mailbox| &receiver[mailbox_place(mailbox)..][..FRAME_BYTES])
        .collect()
}
