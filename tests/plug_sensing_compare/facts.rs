//! What is worth comparing, as rows of the table: a text, a test, and how often it has to occur in
//! which parts.

use second::plug::*;
use shared::coverage::{Counts, EveryFact, Fact, Table};

use crate::kinds::{kind_of, KINDS, LOWEST, MIDDLE};
use crate::made::Made;
use crate::sessions::Heard;

/// The parts in which a thing has to occur, and how often at factor 1.
const SESSIONS: Counts = [5, 0, 0];
const GARBLED: Counts = [0, 0, 5];
const WITH_REFUSALS: Counts = [5, 0, 5];
const REACHED: Counts = [5, 5, 0];
/// With one value alone, which is handed in once.
const ONE_VALUE: Counts = [5, 1, 0];

const STATES: [[u8; STATE_BYTES]; 2] = [FRESH, AFTER_LOWEST];

// All calls

#[rustfmt::skip]
pub fn of_calls() -> Table<Made> {
    let mut table: Table<Made> = Table::of(&[]);
    table.row([1_000, 1_000, 100], "call is carried out".to_string(), |made| made.answer == DONE);
    table.refusals(WITH_REFUSALS, "call", &PLUG_SENSE_REFUSALS, |made| Some((made.answer, &made.fits)));
    add_millivolts(&mut table);
    table.add(REFUSED);
    add_lengths(&mut table);
    add_done(&mut table);
    table
}

/// Values next to the largest one, and those that would be taken with bits cut off.
#[rustfmt::skip]
fn add_millivolts(table: &mut Table<Made>) {
    for millivolts in [MOST_MILLIVOLTS + 1, MOST_MILLIVOLTS + 2, 65_535, 65_536, 1 << 31, u32::MAX] {
        table.row(GARBLED, format!("call returns {REFUSED_MILLIVOLTS} for {millivolts}"), move |made|
            made.alone(REFUSED_MILLIVOLTS) && made.call.millivolts == millivolts);
    }
    for (name, range) in KINDS {
        table.row(GARBLED, format!("call returns {REFUSED_MILLIVOLTS}, low 16 bits: {name}"), move |made|
            made.alone(REFUSED_MILLIVOLTS) && range.contains(&(made.call.millivolts % (1 << 16))));
    }
    for state in STATES {
        table.row(WITH_REFUSALS, format!("call returns {REFUSED_MILLIVOLTS} on state {}", state[0]), move |made|
            made.alone(REFUSED_MILLIVOLTS) && made.call.state == state);
    }
}

/// Refused where a call that was carried out would leave another state, or another bit.
#[rustfmt::skip]
const REFUSED: &[Fact<Made>] = &[
    (WITH_REFUSALS, "call returns 8 in the lowest range, on state 0", |made|
        made.alone(REFUSED_PLUG_LENGTH) && made.call.state == FRESH && kind_of(made.call.millivolts) == LOWEST),
    (WITH_REFUSALS, "call returns 8 in the middle range, on state 1", |made|
        made.alone(REFUSED_PLUG_LENGTH) && made.call.state == AFTER_LOWEST && kind_of(made.call.millivolts) == MIDDLE),
    (GARBLED, "call returns 6 in the lowest range", |made| made.alone(REFUSED_STATE) && kind_of(made.call.millivolts) == LOWEST),
    (GARBLED, "call returns 6 in the middle range", |made| made.alone(REFUSED_STATE) && kind_of(made.call.millivolts) == MIDDLE),
    (GARBLED, "call returns 6 for two bytes, the first 0", |made| made.alone(REFUSED_STATE) && made.call.state.len() == 2 && made.call.state[0] == 0),
    (GARBLED, "call returns 6 for two bytes, the first 1", |made| made.alone(REFUSED_STATE) && made.call.state.len() == 2 && made.call.state[0] == 1),
];

/// Lengths on either side of the right one, and those that it would be again with bits cut off.
#[rustfmt::skip]
fn add_lengths(table: &mut Table<Made>) {
    for (refusal, right, length_of) in [
        (REFUSED_STATE, STATE_BYTES, (|made| made.call.state.len()) as fn(&Made) -> usize),
        (REFUSED_PLUG_LENGTH, PLUG_BYTES, |made| made.call.plug.len()),
    ] {
        for length in [right - 1, right + 1, right + (1 << 8), right + (1 << 16)] {
            table.row(GARBLED, format!("call returns {refusal} for {length} bytes"), move |made| made.alone(refusal) && length_of(made) == length);
        }
    }
}

/// Every kind of value on either state, with the bit that it gives; every end of a range from both sides.
#[rustfmt::skip]
fn add_done(table: &mut Table<Made>) {
    for state in STATES {
        let byte = state[0];
        for (kind, (name, range)) in KINDS.into_iter().enumerate() {
            let is_closed = kind == LOWEST || kind == MIDDLE && state == AFTER_LOWEST;
            let bit = if is_closed { CLOSED } else { OPEN };
            let (first, last) = range.into_inner();
            table.row(REACHED, format!("state {byte}, {name}: {}", bit[0]), move |made|
                made.done(state) && kind_of(made.call.millivolts) == kind && made.left == bit);
            for end in [first, last] {
                table.row(ONE_VALUE, format!("state {byte}, {end} millivolts"), move |made| made.done(state) && made.call.millivolts == end);
            }
        }
    }
    for bit in [OPEN, CLOSED] {
        for before in [OPEN, CLOSED] {
            table.row(REACHED, format!("{} written over {}", bit[0], before[0]), move |made|
                made.answer == DONE && made.left == bit && made.call.plug == before);
        }
        table.row(REACHED, format!("{} written over what no call writes", bit[0]), move |made|
            made.answer == DONE && made.left == bit && made.call.plug != OPEN && made.call.plug != CLOSED);
    }
}

// Values of lists

#[rustfmt::skip]
pub fn of_heard() -> Table<Heard> {
    let mut table = Table::of(HEARD);
    for (kind, (name, _)) in KINDS.into_iter().enumerate() {
        table.row(SESSIONS, format!("list: {name} at first"), move |heard| heard.before.is_none() && heard.kind == kind);
        for (before, (name_before, _)) in KINDS.into_iter().enumerate() {
            table.row(SESSIONS, format!("list: {name_before}, then {name}"), move |heard| heard.before == Some(before) && heard.kind == kind);
        }
    }
    for refusal in PLUG_SENSE_REFUSALS {
        table.row(SESSIONS, format!("list: the lowest range, refused with {refusal}, the middle range: closed"), move |heard|
            heard.before == Some(LOWEST) && heard.refused == [refusal] && heard.kind == MIDDLE && heard.closed);
        table.row(SESSIONS, format!("list: the middle range, refused with {refusal}, the middle range: open"), move |heard|
            heard.before == Some(MIDDLE) && heard.refused == [refusal] && heard.kind == MIDDLE && !heard.closed);
        table.row(SESSIONS, format!("list: refused with {refusal} at first, the middle range: open"), move |heard|
            heard.before.is_none() && heard.refused == [refusal] && heard.kind == MIDDLE && !heard.closed);
    }
    table
}

#[rustfmt::skip]
const HEARD: &[Fact<Heard>] = &[
    (SESSIONS, "list: the lowest range, the middle range twice: open", |heard|
        heard.before_that == Some(LOWEST) && heard.before == Some(MIDDLE) && heard.kind == MIDDLE && !heard.closed),
    (SESSIONS, "list: the lowest range, the middle range, the lowest range: closed", |heard|
        heard.before_that == Some(LOWEST) && heard.before == Some(MIDDLE) && heard.kind == LOWEST && heard.closed),
    (SESSIONS, "list: the middle range twice and no lowest before: open", |heard|
        heard.before_that.is_some_and(|kind| kind != LOWEST) && heard.before == Some(MIDDLE) && heard.kind == MIDDLE && !heard.closed),
    (SESSIONS, "list: the lowest range, three calls refused or more, the middle range: closed", |heard|
        heard.before == Some(LOWEST) && heard.refused.len() >= 3 && heard.kind == MIDDLE && heard.closed),
];

// Of which every kind has to occur

const HANDED_IN: [bool; 3] = [false, true, false];
const IN_GARBLED: [bool; 3] = [false, false, true];

const TAKEN: usize = MOST_MILLIVOLTS as usize + 1;
const WRONG_BYTES: usize = (1 << 8) - STATES.len();

#[rustfmt::skip]
pub const EVERY: &[EveryFact<Made>] = &[
    (HANDED_IN, TAKEN, "values taken, on state 0", |made| made.done(FRESH).then_some(made.call.millivolts as usize)),
    (HANDED_IN, TAKEN, "values taken, on state 1", |made| made.done(AFTER_LOWEST).then_some(made.call.millivolts as usize)),
    (IN_GARBLED, WRONG_BYTES, "bytes refused as a state", |made|
        (made.alone(REFUSED_STATE) && made.call.state.len() == STATE_BYTES).then(|| usize::from(made.call.state[0]) - STATES.len())),
];
