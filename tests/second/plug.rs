//! Sensing a GB/T plug (2026-07): the millivolts of detection point 1 come in, a
//! plug bit goes out, and one bool is kept from one value to the next.
//!
//! It knows nothing of leads, posts, frames or the receiver. They know nothing of
//! it either: the host puts the bit into bit 0 of a lead's contacts, where the tick
//! finds it like any other plug contact.
//!
//! `sense` is the rule, by value. `plug_sense` is the entry, on a number and byte
//! slices of any length.

use std::ops::RangeInclusive;

// ---------------------------------------------------------------------------
// Ranges

/// "Its plug contact comes from detection point 1 in millivolts, by Table B.2:
/// 11,200–12,800, 5,200–6,800, 3,200–4,800, ends included." The table's own names
/// are U1a, U1b and U1c, nominally 12, 6 and 4 V.
pub const U1A_MIN: u32 = 11_200;
pub const U1A_MAX: u32 = 12_800;
pub const U1B_MIN: u32 = 5_200;
pub const U1B_MAX: u32 = 6_800;
pub const U1C_MIN: u32 = 3_200;
pub const U1C_MAX: u32 = 4_800;

/// U1b is the middle range, U1c the lowest. U1a is open like all else, so that the
/// rule has no word for it.
pub const U1A: RangeInclusive<u32> = U1A_MIN..=U1A_MAX;
pub const U1B: RangeInclusive<u32> = U1B_MIN..=U1B_MAX;
pub const U1C: RangeInclusive<u32> = U1C_MIN..=U1C_MAX;

/// The largest value that is accepted.
pub const MOST_MILLIVOLTS: u32 = 20_000;

// ---------------------------------------------------------------------------
// The rule

/// What comes of a value.
#[derive(Clone, Copy, Debug, PartialEq, Eq)]
pub struct Sensed {
    /// The plug bit.
    pub closed: bool,
    /// The bool that is kept: this value lay in the lowest range. To the next value
    /// it is `was_lowest`.
    pub lowest: bool,
}

/// The bool tells where the last value lay, not which bit it gave: a lowest and then
/// a middle value are both closed, yet a second middle one is open.
///
/// It answers for any number. Which values are accepted is the entry's question.
pub fn sense(was_lowest: bool, millivolts: u32) -> Sensed {
    if U1C.contains(&millivolts) {
        // "The lowest range is closed."
        Sensed {
            closed: true,
            lowest: true,
        }
    } else if U1B.contains(&millivolts) {
        // "The middle range is closed only in the tick just after the lowest; a
        // second in a row is open (200 ms in the source)."
        Sensed {
            closed: was_lowest,
            lowest: false,
        }
    } else {
        // "All else is open": the 12 V range and the gaps. A middle value after one
        // of these is no longer just after the lowest.
        Sensed {
            closed: false,
            lowest: false,
        }
    }
}

// ---------------------------------------------------------------------------
// State, plug and refusals

/// "The new part keeps one bool, false at first, as its own state." There are just
/// these two states.
pub const STATE_BYTES: usize = 1;
pub const FRESH: [u8; STATE_BYTES] = [0];
pub const AFTER_LOWEST: [u8; STATE_BYTES] = [1];

/// The plug is lent as one byte, and one of these two is written.
pub const PLUG_BYTES: usize = 1;
pub const OPEN: [u8; PLUG_BYTES] = [0];
pub const CLOSED: [u8; PLUG_BYTES] = [1];

pub const DONE: u32 = 0;
pub const REFUSED_STATE: u32 = 6;
pub const REFUSED_PLUG_LENGTH: u32 = 8;
pub const REFUSED_MILLIVOLTS: u32 = 31;

/// The refusals in the order of asking: "31, for a value above 20,000, asked before
/// the state is looked at", then the state, then the plug.
pub const PLUG_SENSE_REFUSALS: [u32; 3] = [REFUSED_MILLIVOLTS, REFUSED_STATE, REFUSED_PLUG_LENGTH];

// ---------------------------------------------------------------------------
// The entry

/// All 32 bits of the value are looked at. A refused call changes no byte of state
/// or plug, so that the next value comes just after the last accepted one.
pub fn plug_sense(state: &mut [u8], millivolts: u32, plug: &mut [u8]) -> u32 {
    // In the order of the refusals. The first no is the refusal.
    let answers: [bool; PLUG_SENSE_REFUSALS.len()] = [
        millivolts <= MOST_MILLIVOLTS,
        state == FRESH || state == AFTER_LOWEST,
        plug.len() == PLUG_BYTES,
    ];
    if let Some(first_no) = answers.iter().position(|yes| !yes) {
        return PLUG_SENSE_REFUSALS[first_no];
    }
    let sensed = sense(state == AFTER_LOWEST, millivolts);
    state.copy_from_slice(if sensed.lowest { &AFTER_LOWEST } else { &FRESH });
    plug.copy_from_slice(if sensed.closed { &CLOSED } else { &OPEN });
    DONE
}
