//! What is worth comparing, as rows of the table: a text, a test, and how often it has to occur in
//! which parts.

use second::frames::FRAME_LENGTH;
use second::receiver::place::*;
use second::receiver::*;
use shared::coverage::{Counts, EveryFact, Fact, Table};

use crate::call::{slice_of, Entry, ENTRIES};
use crate::made::Made;
use crate::moods::MOODS;
use crate::sessions::Past;
use crate::steps::{is_full, turn, Step, ALL};

use Entry::*;

/// The parts in which a thing has to occur, and how often at factor 1.
const SESSIONS: Counts = [5, 0, 0];
const HANDED_IN: Counts = [0, 5, 0];
const GARBLED: Counts = [0, 0, 5];
const REACHED: Counts = [5, 5, 0];
const WITH_REFUSALS: Counts = [5, 0, 5];
const SELDOM: Counts = [0, 0, 2];
/// With one pair of bytes alone, which is handed in once.
const ONE_PAIR: Counts = [5, 1, 0];

// All calls

#[rustfmt::skip]
pub fn of_calls() -> Table<Made> {
    let mut table: Table<Made> = Table::of(&[]);
    for entry in ENTRIES {
        let (name, refusals) = (entry.name(), entry.refusals());
        table.row([100, 1_000, 100], format!("{name} is carried out"), move |made| made.entry == entry && made.answer == DONE);
        table.refusals(WITH_REFUSALS, name, refusals, move |made| (made.entry == entry).then_some((made.answer, &made.fits)));
        for &refusal in refusals {
            if let Some(slice) = slice_of(refusal) {
                add_lengths(&mut table, entry, refusal, slice);
            }
        }
        if refusals.contains(&REFUSED_REGISTER) {
            add_numbers(&mut table, entry);
        }
    }
    table.add(REFUSED);
    table
}

/// Refused though there is nothing to do, and though there is.
#[rustfmt::skip]
const REFUSED: &[Fact<Made>] = &[
    (GARBLED, "arrival refused for its frame, where it would be lost", |made| made.alone(Arrive, REFUSED_INPUT_LENGTH)
        && made.has_receiver(|receiver| is_full(receiver, turn(receiver)))),
    (GARBLED, "arrival refused for its frame, where it would be held", |made| made.alone(Arrive, REFUSED_INPUT_LENGTH)
        && made.has_receiver(|receiver| !is_full(receiver, turn(receiver)))),
    (GARBLED, "drain refused for its room, where none is held", |made| made.alone(Drain, REFUSED_OUTPUT_LENGTH)
        && made.has_receiver(|receiver| receiver[STATUS] == 0)),
    (GARBLED, "drain refused for its room, where frames are held", |made| made.alone(Drain, REFUSED_OUTPUT_LENGTH)
        && made.has_receiver(|receiver| receiver[STATUS] != 0)),
    (GARBLED, "line refused for its room, where it is down", |made| made.alone(Line, REFUSED_OUTPUT_LENGTH)
        && made.has_receiver(|receiver| receiver[STATUS] & receiver[MASK] == 0)),
    (GARBLED, "line refused for its room, where it is up", |made| made.alone(Line, REFUSED_OUTPUT_LENGTH)
        && made.has_receiver(|receiver| receiver[STATUS] & receiver[MASK] != 0)),
    (GARBLED, "read of acknowledge refused for its room", |made| made.alone_at(Read, REFUSED_OUTPUT_LENGTH, ACKNOWLEDGE)),
    (GARBLED, "read of acknowledge refused for the receiver", |made| made.alone_at(Read, REFUSED_RECEIVER_LENGTH, ACKNOWLEDGE)),
    (GARBLED, "write to acknowledge refused for the receiver", |made| made.alone_at(Write, REFUSED_RECEIVER_LENGTH, ACKNOWLEDGE)),
    (GARBLED, "write to the mask refused for the receiver", |made| made.alone_at(Write, REFUSED_RECEIVER_LENGTH, MASK)),
    (GARBLED, "write to overrun refused for the receiver", |made| made.alone_at(Write, REFUSED_RECEIVER_LENGTH, OVERRUN)),
    (GARBLED, "write to status refused for the receiver", |made| made.alone_at(Write, REFUSED_RECEIVER_LENGTH, STATUS)),
    (GARBLED, "write to a mailbox refused for the receiver", |made| made.alone(Write, REFUSED_RECEIVER_LENGTH)
        && made.number >= FIRST_MAILBOX as u32),
];

/// Lengths on either side of the right one, and those that it would be again with bits cut off.
#[rustfmt::skip]
fn add_lengths(table: &mut Table<Made>, entry: Entry, refusal: u32, slice: usize) {
    let (name, right) = (entry.name(), entry.lengths()[slice]);
    let mut lengths = vec![0, 1, right - 1, right + 1, right + (1 << 8), right + (1 << 16)];
    lengths.retain(|&length| length != right);
    lengths.dedup();
    for length in lengths {
        let least = if length > 1 << 16 { SELDOM } else { GARBLED };
        table.row(least, format!("{name} returns {refusal} for {length} bytes"), move |made|
            made.alone(entry, refusal) && made.lengths[slice] == length);
    }
    table.row(GARBLED, format!("{name} returns {refusal} for much more"), move |made|
        made.alone(entry, refusal) && made.lengths[slice] > right + 100);
}

/// Numbers next to the last one, and those that would be a register again with bits cut off.
#[rustfmt::skip]
fn add_numbers(table: &mut Table<Made>, entry: Entry) {
    let name = entry.name();
    for number in [LAST_REGISTER + 1, LAST_REGISTER + 2, 255, 256, 257, u32::MAX] {
        table.row(SELDOM, format!("{name} returns {REFUSED_REGISTER} for {number}"), move |made|
            made.alone(entry, REFUSED_REGISTER) && made.number == number);
    }
    for (register, text) in [(STATUS, "status"), (OVERRUN, "overrun"), (MASK, "mask"), (ACKNOWLEDGE, "acknowledge")] {
        for bits in [8, 16] {
            table.row(GARBLED, format!("{name} returns {REFUSED_REGISTER}, low {bits} bits those of {text}"), move |made|
                made.alone(entry, REFUSED_REGISTER) && made.number % (1 << bits) == register as u32);
        }
    }
    for bits in [8, 16] {
        table.row(GARBLED, format!("{name} returns {REFUSED_REGISTER}, low {bits} bits those of a mailbox"), move |made| {
            let low = (made.number % (1 << bits)) as usize;
            made.alone(entry, REFUSED_REGISTER) && (FIRST_MAILBOX..REGISTERS).contains(&low)
        });
    }
}

// Calls that are carried out

#[rustfmt::skip]
pub fn of_steps() -> Table<Step> {
    let mut table = Table::of(POWER_UPS);
    for facts in [ARRIVALS, DRAINS, READS, WRITES, ACKNOWLEDGES, LINES] {
        table.add(facts);
    }
    for mailbox in 0..MAILBOXES {
        let bit = 1 << mailbox;
        let mut row = |text: &str, holds: fn(&Step, usize, u8) -> bool| {
            table.row(REACHED, format!("mailbox {mailbox}: {text}"), move |step| holds(step, mailbox, bit));
        };
        row("filled", |step, mailbox, _| step.is(Arrive) && step.filled() == Some(mailbox));
        row("full, a frame is lost", |step, mailbox, _| step.lost() && step.turn() == mailbox);
        row("drained", |step, mailbox, _| step.drained() == Some(mailbox));
        row("next, with none held nothing is drained", |step, mailbox, _| step.is(Drain) && step.status() == 0 && step.turn() == mailbox);
        row("drained as the last", |step, mailbox, bit| step.drained() == Some(mailbox) && step.status() == bit);
        row("acknowledged alone", |step, _, bit| step.acknowledged() == Some((bit, 0)));
        row("acknowledged alone, but empty", |step, _, bit| step.acknowledged() == Some((0, bit)));
        row("read while full", |step, mailbox, _| step.is(Read) && step.mailbox() == Some(mailbox) && step.was_full(mailbox));
        row("read while empty, its bytes kept", |step, mailbox, _|
            step.is(Read) && step.mailbox() == Some(mailbox) && !step.was_full(mailbox) && step.room_after != [0]);
        row("written while full, which changes nothing", |step, mailbox, _|
            step.is(Write) && step.mailbox() == Some(mailbox) && step.was_full(mailbox) && step.has_other_value());
        row("written while empty, which changes nothing", |step, mailbox, _|
            step.is(Write) && step.mailbox() == Some(mailbox) && !step.was_full(mailbox) && step.has_other_value());
        row("alone raises the line", |step, _, bit| step.shared() == Some(bit));
        row("full, not in the mask, the line is down", |step, _, bit|
            step.shared() == Some(0) && step.status() & bit != 0 && step.before[MASK] & bit == 0);
        row("in the mask, not full, the line is down", |step, _, bit|
            step.shared() == Some(0) && step.status() & bit == 0 && step.before[MASK] & bit != 0);
    }
    for steps in 0..MAILBOXES as u32 {
        table.row(REACHED, format!("drain {steps} mailboxes on from the turn"), move |step|
            step.drained().is_some() && step.ring().trailing_zeros() == steps);
        table.row(REACHED, format!("arrival with {steps} held"), move |step|
            step.is(Arrive) && step.filled().is_some() && step.status().count_ones() == steps);
    }
    table
}

impl Step {
    /// A write of something else than stands in the register.
    fn has_other_value(&self) -> bool {
        self.value != self.before[self.number as usize]
    }

    /// All bytes of the mailboxes are what they were.
    fn keeps_mailboxes(&self) -> bool {
        self.before[FIRST_MAILBOX..TURN] == self.after[FIRST_MAILBOX..TURN]
    }
}

#[rustfmt::skip]
const POWER_UPS: &[Fact<Step>] = &[
    (REACHED, "power-up where frames are held", |step| step.is(PowerUp) && step.status() != 0),
    (REACHED, "power-up where none is held, but mailboxes keep bytes", |step| step.is(PowerUp) && step.status() == 0
        && !step.keeps_mailboxes()),
    (REACHED, "power-up where the turn is another mailbox's", |step| step.is(PowerUp) && step.turn() != 0),
    (REACHED, "power-up where overrun is 1", |step| step.is(PowerUp) && step.had(OVERRUN, OVERRUN_SET)),
    (REACHED, "power-up where there is a mask", |step| step.is(PowerUp) && !step.had(MASK, 0)),
    (HANDED_IN, "power-up where the byte of acknowledge is not 0", |step| step.is(PowerUp) && !step.had(ACKNOWLEDGE, 0)),
    (HANDED_IN, "power-up where the turn's byte is above 7", |step| step.is(PowerUp) && step.turn_is_high()),
];

#[rustfmt::skip]
const ARRIVALS: &[Fact<Step>] = &[
    (REACHED, "arrival fills the last empty mailbox", |step| step.is(Arrive) && step.filled().is_some() && step.after[STATUS] == ALL),
    (REACHED, "arrival with none held, the turn another mailbox's", |step| step.is(Arrive) && step.status() == 0 && step.turn() != 0),
    (REACHED, "arrival moves the turn from the last mailbox to the first", |step| step.is(Arrive) && step.filled() == Some(MAILBOXES - 1)
        && step.after[TURN] == 0),
    (REACHED, "arrival in a mailbox between full ones", |step| step.is(Arrive) && step.filled().is_some()
        && step.ring() & 0b10 != 0 && step.ring() & 1 << (MAILBOXES - 1) != 0),
    (REACHED, "arrival over bytes that an emptied mailbox keeps", |step| step.is(Arrive) && step.filled().is_some()
        && step.before[mailbox_place(step.turn())..][..FRAME_BYTES] != [0; FRAME_BYTES]),
    (REACHED, "arrival leaves overrun 1", |step| step.is(Arrive) && step.filled().is_some() && step.had(OVERRUN, OVERRUN_SET)),
    (HANDED_IN, "arrival leaves overrun above 1", |step| step.is(Arrive) && step.filled().is_some() && step.overrun_is_high()),
    (HANDED_IN, "arrival leaves the byte of acknowledge, not 0", |step| step.is(Arrive) && step.filled().is_some()
        && !step.had(ACKNOWLEDGE, 0)),
    (HANDED_IN, "arrival brings a turn above 7 below 8", |step| step.is(Arrive) && step.filled().is_some() && step.turn_is_high()),
    (REACHED, "arrival of a frame of another length than the tick takes", |step| step.is(Arrive)
        && matches!(step.frame[..], [_, _, length, ..] if length != FRAME_LENGTH)),
    (SESSIONS, "arrival of a frame of zeros", |step| step.is(Arrive) && step.frame == [0; FRAME_BYTES]),
    (SESSIONS, "arrival of the frame that stands there already", |step| step.is(Arrive) && step.filled().is_some() && step.keeps_mailboxes()),
    (REACHED, "loss with all eight full", |step| step.lost() && step.status() == ALL),
    (REACHED, "loss while others are empty", |step| step.lost() && step.status() != ALL),
    (REACHED, "loss while all others are empty", |step| step.lost() && step.ring() == 1),
    (REACHED, "loss where overrun is 0", |step| step.lost() && step.had(OVERRUN, 0)),
    (REACHED, "loss where overrun is 1", |step| step.lost() && step.had(OVERRUN, OVERRUN_SET)),
    (HANDED_IN, "loss where overrun is above 1", |step| step.lost() && step.overrun_is_high()),
    (HANDED_IN, "loss where overrun is 255", |step| step.lost() && step.had(OVERRUN, 255)),
    (HANDED_IN, "loss with a turn above 7, which stays", |step| step.lost() && step.turn_is_high()),
    (HANDED_IN, "loss where the byte of acknowledge is not 0", |step| step.lost() && !step.had(ACKNOWLEDGE, 0)),
];

#[rustfmt::skip]
const DRAINS: &[Fact<Step>] = &[
    (REACHED, "drain with none held, the lent frame untouched", |step| step.is(Drain) && step.status() == 0
        && step.room_before == step.room_after && !step.room_before.contains(&0)),
    (REACHED, "drain with none held, overrun 1", |step| step.is(Drain) && step.status() == 0 && step.had(OVERRUN, OVERRUN_SET)),
    (HANDED_IN, "drain with none held, turn above 7", |step| step.is(Drain) && step.status() == 0 && step.turn_is_high()),
    (REACHED, "drain with all eight held", |step| step.is(Drain) && step.status() == ALL),
    (REACHED, "drain goes round the ring", |step| step.drained().is_some_and(|mailbox| mailbox < step.turn())),
    (REACHED, "drain of another mailbox than the lowest full one", |step|
        step.drained().is_some_and(|mailbox| mailbox as u32 != step.status().trailing_zeros())),
    (REACHED, "drain of another mailbox than the highest full one", |step|
        step.drained().is_some_and(|mailbox| mailbox as u32 != u8::BITS - 1 - step.status().leading_zeros())),
    (REACHED, "drain with a hole in the ring", |step| step.is(Drain) && step.has_a_hole()),
    (REACHED, "drain with a hole in the ring, round it", |step| step.has_a_hole()
        && step.drained().is_some_and(|mailbox| mailbox < step.turn())),
    (REACHED, "drain leaves overrun 1", |step| step.drained().is_some() && step.had(OVERRUN, OVERRUN_SET)),
    (HANDED_IN, "drain leaves overrun above 1", |step| step.drained().is_some() && step.overrun_is_high()),
    (HANDED_IN, "drain leaves the byte of acknowledge, not 0", |step| step.drained().is_some() && !step.had(ACKNOWLEDGE, 0)),
    (HANDED_IN, "drain leaves a turn above 7", |step| step.drained().is_some() && step.turn_is_high()),
    (REACHED, "drain with the line down", |step| step.drained().is_some() && step.status() & step.before[MASK] == 0),
    (REACHED, "drain with the line up", |step| step.drained().is_some() && step.status() & step.before[MASK] != 0),
    (REACHED, "drain leaves a mailbox with bytes", |step| step.drained().is_some() && step.room_after != [0; FRAME_BYTES]
        && step.keeps_mailboxes()),
];

#[rustfmt::skip]
const READS: &[Fact<Step>] = &[
    (REACHED, "read of status, not 0", |step| step.reads(STATUS) && step.status() != 0),
    (REACHED, "read of overrun, 0", |step| step.reads(OVERRUN) && step.had(OVERRUN, 0)),
    (REACHED, "read of overrun, 1", |step| step.reads(OVERRUN) && step.had(OVERRUN, OVERRUN_SET)),
    (HANDED_IN, "read of overrun, above 1", |step| step.reads(OVERRUN) && step.overrun_is_high()),
    (REACHED, "read of the mask, not 0", |step| step.reads(MASK) && !step.had(MASK, 0)),
    (REACHED, "read of acknowledge", |step| step.reads(ACKNOWLEDGE) && step.room_before != [0]),
    (HANDED_IN, "read of acknowledge, its byte not 0", |step| step.reads(ACKNOWLEDGE) && !step.had(ACKNOWLEDGE, 0)),
    (REACHED, "read of the last register", |step| step.is(Read) && step.number == LAST_REGISTER),
];

#[rustfmt::skip]
const WRITES: &[Fact<Step>] = &[
    (REACHED, "write to status of less, which changes nothing", |step| step.writes(STATUS) && step.status() & !step.value != 0),
    (REACHED, "write to status of more, which changes nothing", |step| step.writes(STATUS) && step.value & !step.status() != 0),
    (REACHED, "write of 0 to overrun, which is 1", |step| step.writes(OVERRUN) && step.value == 0 && step.had(OVERRUN, OVERRUN_SET)),
    (REACHED, "write of 1 to overrun, which is 1", |step| step.writes(OVERRUN) && step.value == 1 && step.had(OVERRUN, OVERRUN_SET)),
    (REACHED, "write of 1 to overrun, which is 0", |step| step.writes(OVERRUN) && step.value == 1 && step.had(OVERRUN, 0)),
    (REACHED, "write of more to overrun, which is 1", |step| step.writes(OVERRUN) && step.value > 1 && step.had(OVERRUN, OVERRUN_SET)),
    (REACHED, "write of more to overrun, which is 0", |step| step.writes(OVERRUN) && step.value > 1 && step.had(OVERRUN, 0)),
    (HANDED_IN, "write to overrun, which is above 1", |step| step.writes(OVERRUN) && step.overrun_is_high()),
    (REACHED, "write of another mask", |step| step.writes(MASK) && step.has_other_value()),
    (REACHED, "write of bits to the mask that it hasn't, leaving out some that it has", |step| step.writes(MASK)
        && step.value & !step.before[MASK] != 0 && step.before[MASK] & !step.value != 0),
    (REACHED, "write of 0 to a mask", |step| step.writes(MASK) && step.value == 0 && !step.had(MASK, 0)),
    (REACHED, "write of a mask that raises the line", |step| step.writes(MASK)
        && step.status() & step.before[MASK] == 0 && step.status() & step.value != 0),
    (HANDED_IN, "write where the turn is above 7", |step| step.is(Write) && step.turn_is_high() && !step.writes(ACKNOWLEDGE)),
    (HANDED_IN, "write beside acknowledge, its byte not 0", |step| step.is(Write) && !step.writes(ACKNOWLEDGE)
        && !step.had(ACKNOWLEDGE, 0)),
];

#[rustfmt::skip]
const ACKNOWLEDGES: &[Fact<Step>] = &[
    (REACHED, "acknowledge of 0 where frames are held", |step| step.writes(ACKNOWLEDGE) && step.value == 0 && step.status() != 0),
    (REACHED, "acknowledge of empty mailboxes alone, where frames are held", |step| step.status() != 0
        && step.acknowledged().is_some_and(|(full, empty)| full == 0 && empty != 0)),
    (REACHED, "acknowledge of some held, not all", |step|
        step.acknowledged().is_some_and(|(full, empty)| full.count_ones() > 1 && empty == 0 && full != step.status())),
    (REACHED, "acknowledge of all that are held", |step|
        step.acknowledged().is_some_and(|(full, empty)| full == step.status() && full.count_ones() > 1 && empty == 0)),
    (REACHED, "acknowledge of full and of empty ones at once", |step|
        step.acknowledged().is_some_and(|(full, empty)| full != 0 && empty != 0)),
    (ONE_PAIR, "acknowledge of eight held", |step| step.acknowledged() == Some((ALL, 0))),
    (ONE_PAIR, "acknowledge of eight, none held", |step| step.acknowledged() == Some((0, ALL))),
    (REACHED, "acknowledge of one of eight", |step| step.status() == ALL
        && step.acknowledged().is_some_and(|(full, _)| full.is_power_of_two())),
    (REACHED, "acknowledge empties the turn's mailbox, others stay full", |step|
        step.acknowledged().is_some_and(|(full, _)| full >> step.turn() & 1 == 1 && full != step.status())),
    (REACHED, "acknowledge leaves a hole in the ring", |step| !step.has_a_hole()
        && step.writes(ACKNOWLEDGE) && step.leaves_a_hole()),
    (REACHED, "acknowledge leaves overrun 1", |step| step.writes(ACKNOWLEDGE) && step.had(OVERRUN, OVERRUN_SET)),
    (HANDED_IN, "acknowledge leaves overrun above 1", |step| step.writes(ACKNOWLEDGE) && step.overrun_is_high()),
    (HANDED_IN, "acknowledge leaves its byte, not 0", |step| step.writes(ACKNOWLEDGE) && !step.had(ACKNOWLEDGE, 0)
        && !step.had(ACKNOWLEDGE, step.value)),
    (HANDED_IN, "acknowledge leaves a turn above 7", |step| step.turn_is_high() && step.acknowledged().is_some_and(|(full, _)| full != 0)),
];

#[rustfmt::skip]
const LINES: &[Fact<Step>] = &[
    (ONE_PAIR, "line, neither status nor mask", |step| step.is(Line) && step.status() == 0 && step.had(MASK, 0)),
    (REACHED, "line, status only", |step| step.is(Line) && step.status() != 0 && step.had(MASK, 0)),
    (REACHED, "line, mask only", |step| step.is(Line) && step.status() == 0 && !step.had(MASK, 0)),
    (REACHED, "line, both without a shared bit", |step| step.shared() == Some(0) && step.status() != 0 && !step.had(MASK, 0)),
    (REACHED, "line, both with one shared bit and others", |step| step.shared().is_some_and(u8::is_power_of_two)
        && step.status().count_ones() > 1 && step.before[MASK].count_ones() > 1),
    (REACHED, "line, both with several shared bits", |step| step.shared().is_some_and(|bits| bits.count_ones() > 1)),
    (REACHED, "line down where overrun is 1", |step| step.shared() == Some(0) && step.had(OVERRUN, OVERRUN_SET)),
    (REACHED, "line down over a lent byte that is not 0", |step| step.shared() == Some(0) && step.room_before != [0]),
    (REACHED, "line up over a lent byte that is not 1", |step| step.shared().is_some_and(|bits| bits != 0) && step.room_before != [1]),
    (HANDED_IN, "line down where the byte of acknowledge is not 0", |step| step.shared() == Some(0) && !step.had(ACKNOWLEDGE, 0)),
];

// Lists of calls from power-up on

#[rustfmt::skip]
pub fn of_pasts() -> Table<Past> {
    let mut table = Table::of(PASTS);
    for mood in MOODS {
        table.row(SESSIONS, format!("list of the mood '{}'", mood.name), move |past| past.mood == mood.name);
    }
    for held in 0..=MAILBOXES {
        table.row([2, 0, 0], format!("list without a loss or an acknowledge, at its end {held} held"), move |past|
            past.claimed && past.losses == 0 && past.held == held);
    }
    table
}

const ROUND: u64 = MAILBOXES as u64;

#[rustfmt::skip]
const PASTS: &[Fact<Past>] = &[
    (SESSIONS, "list with a whole round of the ring, no loss or acknowledge", |past| past.claimed && past.losses == 0 && past.fills >= ROUND),
    (SESSIONS, "list with ten rounds of the ring, no loss or acknowledge", |past|
        past.claimed && past.losses == 0 && past.fills >= 10 * ROUND),
    (SESSIONS, "list with a whole round, never all eight held", |past|
        past.claimed && past.fills >= ROUND && past.most_held < MAILBOXES),
    (SESSIONS, "list with all eight held at once, no loss", |past| past.claimed && past.losses == 0 && past.most_held == MAILBOXES),
    (SESSIONS, "list with losses, then a whole round", |past| past.claimed && past.losses > 0 && past.fills >= 2 * ROUND),
    (SESSIONS, "list with acknowledges and losses", |past| !past.claimed && past.losses > 0),
    (SESSIONS, "list with acknowledges and a whole round", |past| !past.claimed && past.fills >= ROUND),
    (SESSIONS, "list with more than 100 frames handed on", |past| past.claimed && past.handed_on > 100),
];

// Of which every kind has to occur

const IN_SESSIONS: [bool; 3] = [true, false, false];
const IN_HANDED_IN: [bool; 3] = [false, true, false];
const IN_BOTH: [bool; 3] = [true, true, false];

const BYTES: usize = 1 << 8;
const PAIRS: usize = BYTES * BYTES;

/// A place in a list of all pairs.
fn pair(first: u8, second: u8) -> usize {
    usize::from(u16::from_le_bytes([first, second]))
}

#[rustfmt::skip]
pub const EVERY: &[EveryFact<Step>] = &[
    (IN_HANDED_IN, PAIRS, "pairs of status and turn at an arrival", |step| step.is(Arrive).then(|| pair(step.status(), step.before[TURN]))),
    (IN_HANDED_IN, PAIRS, "pairs of status and turn at a drain", |step| step.is(Drain).then(|| pair(step.status(), step.before[TURN]))),
    (IN_HANDED_IN, PAIRS, "pairs of status and mask at a line", |step| step.is(Line).then(|| pair(step.status(), step.before[MASK]))),
    (IN_HANDED_IN, PAIRS, "pairs of status and value at an acknowledge", |step| step.writes(ACKNOWLEDGE).then(|| pair(step.status(), step.value))),
    (IN_HANDED_IN, BYTES, "bytes of status read", |step| step.reads(STATUS).then_some(step.before[STATUS].into())),
    (IN_HANDED_IN, BYTES, "bytes of overrun read", |step| step.reads(OVERRUN).then_some(step.before[OVERRUN].into())),
    (IN_HANDED_IN, BYTES, "bytes of the mask read", |step| step.reads(MASK).then_some(step.before[MASK].into())),
    (IN_HANDED_IN, BYTES, "bytes of acknowledge read", |step| step.reads(ACKNOWLEDGE).then_some(step.before[ACKNOWLEDGE].into())),
    (IN_HANDED_IN, BYTES, "values written to status", |step| step.writes(STATUS).then_some(step.value.into())),
    (IN_HANDED_IN, BYTES, "values written to overrun", |step| step.writes(OVERRUN).then_some(step.value.into())),
    (IN_HANDED_IN, BYTES, "values written to the mask", |step| step.writes(MASK).then_some(step.value.into())),
    (IN_BOTH, REGISTERS, "registers read", |step| step.is(Read).then_some(step.number as usize)),
    (IN_HANDED_IN, REGISTERS, "registers written", |step| step.is(Write).then_some(step.number as usize)),
    (IN_SESSIONS, MAILBOXES, "turns at the filling of the last empty mailbox", |step|
        (step.is(Arrive) && step.filled().is_some() && step.after[STATUS] == ALL).then(|| step.turn())),
];
