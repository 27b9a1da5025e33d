//! The receive chip of the new board (2026-02): its registers and its six calls,
//! on numbers and byte slices of any length.
//!
//! It knows frame records as 11 bytes and nothing of leads, posts or ticks. They
//! know nothing of it either: the host copies the frames that a drain hands on
//! into the input of the tick.
//!
//! Any 93 bytes are a receiver, so nothing but lengths and register numbers is
//! ever refused.

use crate::frames::RECORD_BYTES;
use std::ops::Range;

/// "Registers as bytes: status (bit n for mailbox n, from 0), overrun, interrupt
/// mask, acknowledge, then eight mailboxes of 11 bytes used in turn. Beside these
/// 92 bytes the state has only the turn."
pub mod place {
    pub const STATUS: usize = 0;
    pub const OVERRUN: usize = 1;
    pub const MASK: usize = 2;
    pub const ACKNOWLEDGE: usize = 3;
    pub const FIRST_MAILBOX: usize = 4;
    pub const TURN: usize = 92;
}

pub const MAILBOXES: usize = 8;

/// A mailbox holds a frame record as it came.
pub const FRAME_BYTES: usize = RECORD_BYTES;

/// The registers are the bytes before the turn, so a register's number is its
/// place. The turn itself has no number.
pub const REGISTERS: usize = place::FIRST_MAILBOX + FRAME_BYTES * MAILBOXES;
pub const LAST_REGISTER: u32 = REGISTERS as u32 - 1;

/// The registers and the turn.
pub const STATE_BYTES: usize = REGISTERS + 1;

/// A value that is read and the line are lent as one byte each.
pub const VALUE_BYTES: usize = 1;
pub const LINE_BYTES: usize = 1;

/// "Overrun becomes 1."
pub const OVERRUN_SET: u8 = 1;

/// The place of a mailbox's first byte; mailboxes count from 0.
pub const fn mailbox_place(mailbox: usize) -> usize {
    place::FIRST_MAILBOX + FRAME_BYTES * mailbox
}

// ---------------------------------------------------------------------------
// Refusals

pub const DONE: u32 = 0;
pub const REFUSED_RECEIVER_LENGTH: u32 = 6;
pub const REFUSED_INPUT_LENGTH: u32 = 7;
pub const REFUSED_OUTPUT_LENGTH: u32 = 8;
pub const REFUSED_REGISTER: u32 = 30;

/// The refusals of each call, in the order of asking: "30, when a register number
/// is above 91, asked before anything else", then the receiver, then what is lent
/// beside it.
pub const POWER_UP_REFUSALS: [u32; 1] = [REFUSED_RECEIVER_LENGTH];
pub const READ_REFUSALS: [u32; 3] = [
    REFUSED_REGISTER,
    REFUSED_RECEIVER_LENGTH,
    REFUSED_OUTPUT_LENGTH,
];
pub const WRITE_REFUSALS: [u32; 2] = [REFUSED_REGISTER, REFUSED_RECEIVER_LENGTH];
pub const ARRIVE_REFUSALS: [u32; 2] = [REFUSED_RECEIVER_LENGTH, REFUSED_INPUT_LENGTH];
pub const DRAIN_REFUSALS: [u32; 2] = [REFUSED_RECEIVER_LENGTH, REFUSED_OUTPUT_LENGTH];
pub const LINE_REFUSALS: [u32; 2] = [REFUSED_RECEIVER_LENGTH, REFUSED_OUTPUT_LENGTH];

/// The first no is the refusal. The answers to a call's questions stand in the
/// same order as its refusals. A call writes nothing before all of them are yes.
fn refusal<const N: usize>(refusals: &[u32; N], answers: [bool; N]) -> Option<u32> {
    let first_no = answers.iter().position(|yes| !yes)?;
    Some(refusals[first_no])
}

/// All of its 32 bits are looked at, so that 256 is not taken for status.
fn register_there(number: u32) -> bool {
    number <= LAST_REGISTER
}

fn receiver_whole(receiver: &[u8]) -> bool {
    receiver.len() == STATE_BYTES
}

fn frame_whole(frame: &[u8]) -> bool {
    frame.len() == FRAME_BYTES
}

// ---------------------------------------------------------------------------
// Mailboxes

/// "The turn, a byte read modulo 8": the mailbox that is next.
fn turn(receiver: &[u8]) -> usize {
    usize::from(receiver[place::TURN]) % MAILBOXES
}

/// "Status (bit n for mailbox n, from 0)."
fn status_bit(mailbox: usize) -> u8 {
    1 << mailbox
}

fn full(receiver: &[u8], mailbox: usize) -> bool {
    receiver[place::STATUS] & status_bit(mailbox) != 0
}

/// "An emptied mailbox keeps its bytes."
fn empty(receiver: &mut [u8], mailboxes: u8) {
    receiver[place::STATUS] &= !mailboxes;
}

fn mailbox_bytes(mailbox: usize) -> Range<usize> {
    mailbox_place(mailbox)..mailbox_place(mailbox + 1)
}

/// The mailbox with "the frame held longest", `None` if none is held.
///
/// Mailboxes are filled in turn, and the turn's own is the next. Its last filling
/// therefore lies furthest back, then that of the one after it, and so on round
/// the ring. The first full one on this way has waited longest, however many on
/// it were emptied. Bytes handed in tell no other order, so it holds there too.
fn held_longest(receiver: &[u8]) -> Option<usize> {
    let next = turn(receiver);
    let mut ring = (0..MAILBOXES).map(|step| (next + step) % MAILBOXES);
    ring.find(|&mailbox| full(receiver, mailbox))
}

// ---------------------------------------------------------------------------
// The six calls

/// "At power-up every register is 0 and the first mailbox is next."
pub fn power_up(receiver: &mut [u8]) -> u32 {
    let answers = [receiver_whole(receiver)];
    if let Some(refusal) = refusal(&POWER_UP_REFUSALS, answers) {
        return refusal;
    }
    receiver.fill(0);
    DONE
}

/// "Acknowledge reads 0", whatever its byte holds. Every other register reads as
/// its byte.
pub fn read(receiver: &[u8], number: u32, value: &mut [u8]) -> u32 {
    let answers = [
        register_there(number),
        receiver_whole(receiver),
        value.len() == VALUE_BYTES,
    ];
    if let Some(refusal) = refusal(&READ_REFUSALS, answers) {
        return refusal;
    }
    value[0] = match number as usize {
        place::ACKNOWLEDGE => 0,
        at => receiver[at],
    };
    DONE
}

/// "Writing a 1 bit to acknowledge empties that mailbox. Writing the mask sets it,
/// any write to overrun makes it 0, and other writes change nothing." The byte of
/// acknowledge is not among what they change.
pub fn write(receiver: &mut [u8], number: u32, value: u8) -> u32 {
    let answers = [register_there(number), receiver_whole(receiver)];
    if let Some(refusal) = refusal(&WRITE_REFUSALS, answers) {
        return refusal;
    }
    match number as usize {
        place::ACKNOWLEDGE => empty(receiver, value),
        place::MASK => receiver[place::MASK] = value,
        place::OVERRUN => receiver[place::OVERRUN] = 0,
        _ => {}
    }
    DONE
}

/// "An arriving frame fills the next mailbox. If that one is full, the frame is
/// lost, overrun becomes 1 and the turn does not move." Nothing in the frame is
/// judged, and a frame that is lost is no refusal.
pub fn arrive(receiver: &mut [u8], frame: &[u8]) -> u32 {
    let answers = [receiver_whole(receiver), frame_whole(frame)];
    if let Some(refusal) = refusal(&ARRIVE_REFUSALS, answers) {
        return refusal;
    }
    let next = turn(receiver);
    if full(receiver, next) {
        // The turn's byte stays as it is, even if it is not below 8.
        receiver[place::OVERRUN] = OVERRUN_SET;
    } else {
        receiver[mailbox_bytes(next)].copy_from_slice(frame);
        receiver[place::STATUS] |= status_bit(next);
        // "Below 8 once moved."
        receiver[place::TURN] = ((next + 1) % MAILBOXES) as u8;
    }
    DONE
}

/// "A drain hands the tick the frame held longest and empties its mailbox; with
/// none held it does nothing", and the lent frame keeps its bytes. It looks neither
/// at the mask nor at overrun, and it doesn't move the turn.
pub fn drain(receiver: &mut [u8], frame: &mut [u8]) -> u32 {
    let answers = [receiver_whole(receiver), frame_whole(frame)];
    if let Some(refusal) = refusal(&DRAIN_REFUSALS, answers) {
        return refusal;
    }
    if let Some(mailbox) = held_longest(receiver) {
        frame.copy_from_slice(&receiver[mailbox_bytes(mailbox)]);
        empty(receiver, status_bit(mailbox));
    }
    DONE
}

/// "The line is up exactly when status and mask share a bit." Up is 1, down is 0.
pub fn line(receiver: &[u8], line: &mut [u8]) -> u32 {
    let answers = [receiver_whole(receiver), line.len() == LINE_BYTES];
    if let Some(refusal) = refusal(&LINE_REFUSALS, answers) {
        return refusal;
    }
    let up = receiver[place::STATUS] & receiver[place::MASK] != 0;
    line[0] = u8::from(up);
    DONE
}
