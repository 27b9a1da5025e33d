//! Allowance orders from the site manager (2026-09): a text of the energy desk comes
//! in, 1,024 bytes hold the orders in force, and with a tick's number they give the
//! allowance that the tick uses.
//!
//! It knows numbers and bytes and nothing of leads, posts or frames: the host holds the
//! bytes and counts the ticks. `post`'s tick does not take orders so far.
//!
//! Any bytes have an allowance, so nothing but lengths and texts is ever refused.

use std::array;

// ---------------------------------------------------------------------------
// Places

/// "64 times the four numbers, 4 bytes each, in the text's order."
pub const MOST_ORDERS: usize = 64;
pub const PLACE_BYTES: usize = 16;
pub const ORDERS_BYTES: usize = PLACE_BYTES * MOST_ORDERS;

/// Where the four numbers of a place begin. "In the text's order" is said of the
/// fields of a line and of the lines.
pub mod place {
    pub const NUMBER: usize = 0;
    pub const FIRST: usize = 4;
    pub const LAST: usize = 8;
    pub const WATTS: usize = 12;
}

pub type Place = [u8; PLACE_BYTES];

/// "Unused places 0 with first tick 1": the first is after the last, so that no tick
/// is covered.
pub const UNUSED: Place = {
    let mut place = [0; PLACE_BYTES];
    place[place::FIRST] = 1;
    place
};

/// "No lines, no orders."
pub const NO_ORDERS: [u8; ORDERS_BYTES] = {
    let mut orders = [0; ORDERS_BYTES];
    let mut at = 0;
    while at < ORDERS_BYTES {
        orders[at] = UNUSED[at % PLACE_BYTES];
        at += 1;
    }
    orders
};

/// What a line says and a place holds.
#[derive(Clone, Copy)]
struct Order {
    number: u32,
    first: u32,
    last: u32,
    watts: u32,
}

impl Order {
    fn read(place: &Place) -> Order {
        let number_at = |at| u32::from_le_bytes(array::from_fn(|offset| place[at + offset]));
        Order {
            number: number_at(place::NUMBER),
            first: number_at(place::FIRST),
            last: number_at(place::LAST),
            watts: number_at(place::WATTS),
        }
    }

    fn write(&self, place: &mut Place) {
        for (at, number) in [
            (place::NUMBER, self.number),
            (place::FIRST, self.first),
            (place::LAST, self.last),
            (place::WATTS, self.watts),
        ] {
            place[at..at + 4].copy_from_slice(&number.to_le_bytes());
        }
    }

    /// Both ends are in. All 64 bits of the tick's number are compared, so that from
    /// 4,294,967,296 on nothing covers. "A place with first after last covers
    /// nothing": no number is at least the one and at most the other.
    fn covers(&self, tick: u64) -> bool {
        u64::from(self.first) <= tick && tick <= u64::from(self.last)
    }
}

// ---------------------------------------------------------------------------
// The allowance

/// "For a tick, the covering order with the highest number gives the allowance that
/// the tick uses; without one the tick's input does."
///
/// It answers for any bytes: the places are the whole 16s of them, and a shorter
/// rest is no place. Which length is accepted is the entries' question.
pub fn allowance(orders: &[u8], number: u64, input_allowance: u32) -> u32 {
    let mut highest: Option<Order> = None;
    for place in orders.as_chunks().0 {
        let order = Order::read(place);
        // "Of equal numbers the earlier place counts": of those that cover, as they
        // alone come this far.
        if order.covers(number) && highest.is_none_or(|earlier| earlier.number < order.number) {
            highest = Some(order);
        }
    }
    highest.map_or(input_allowance, |order| order.watts)
}

// ---------------------------------------------------------------------------
// Refusals

pub const DONE: u32 = 0;
/// "A line not of that form or with first after last."
pub const REFUSED_FORM: u32 = 33;
/// "An order number used twice."
pub const REFUSED_USED_TWICE: u32 = 34;
/// "A 65th line."
pub const REFUSED_65TH_LINE: u32 = 35;
/// "Those bytes not 1,024, asked before the text's lines, and by the tick after 9": so
/// far by take_orders alone.
pub const REFUSED_ORDERS_LENGTH: u32 = 43;

/// The refusals of a text, in the order of asking: the bytes once, then "line by line
/// as 35, 33, 34".
pub const TAKE_ORDERS_REFUSALS: [u32; 4] = [
    REFUSED_ORDERS_LENGTH,
    REFUSED_65TH_LINE,
    REFUSED_FORM,
    REFUSED_USED_TWICE,
];

/// Why a text is dropped, and at which of its lines, which count from 1.
struct Refused {
    refusal: u32,
    line: u32,
}

// ---------------------------------------------------------------------------
// Lines

/// Takes a number off the text: "decimal digits without a needless leading zero",
/// "from 0 to 4,294,967,295". Whatever stands behind the digits is left.
fn take_number(text: &mut &[u8]) -> Option<u32> {
    let field = *text;
    let mut number = 0u32;
    while let [digit @ b'0'..=b'9', rest @ ..] = *text {
        number = number
            .checked_mul(10)?
            .checked_add(u32::from(digit - b'0'))?;
        *text = rest;
    }
    // A zero that others follow is needless.
    match &field[..field.len() - text.len()] {
        [] | [b'0', _, ..] => None,
        _ => Some(number),
    }
}

fn take_tab(text: &mut &[u8]) -> Option<()> {
    *text = text.strip_prefix(b"\t")?;
    Some(())
}

/// "A line feed ends each line but perhaps the last."
fn take_end(text: &mut &[u8]) -> Option<()> {
    if !text.is_empty() {
        *text = text.strip_prefix(b"\n")?;
    }
    Some(())
}

/// Takes a line off the text: "tab-parted: order number, first tick, last tick,
/// watts". `None` for one "not of that form or with first after last".
fn take_line(text: &mut &[u8]) -> Option<Order> {
    let number = take_number(text)?;
    take_tab(text)?;
    let first = take_number(text)?;
    take_tab(text)?;
    let last = take_number(text)?;
    take_tab(text)?;
    let watts = take_number(text)?;
    take_end(text)?;
    let order = Order {
        number,
        first,
        last,
        watts,
    };
    (first <= last).then_some(order)
}

/// The places that a text fills, and the unused ones behind them. "Asked line by line
/// as 35, 33, 34": a line is asked all three before the next one is looked at.
fn read_text(mut text: &[u8]) -> Result<[Place; MOST_ORDERS], Refused> {
    let mut places = [UNUSED; MOST_ORDERS];
    let mut numbers = [0; MOST_ORDERS];
    let mut taken = 0;
    // What follows the last line feed is no line if it is empty.
    while !text.is_empty() {
        let refused = |refusal| Refused {
            refusal,
            line: taken as u32 + 1,
        };
        if taken == MOST_ORDERS {
            return Err(refused(REFUSED_65TH_LINE));
        }
        let order = take_line(&mut text).ok_or(refused(REFUSED_FORM))?;
        if numbers[..taken].contains(&order.number) {
            return Err(refused(REFUSED_USED_TWICE));
        }
        numbers[taken] = order.number;
        order.write(&mut places[taken]);
        taken += 1;
    }
    Ok(places)
}

// ---------------------------------------------------------------------------
// The entries

/// An accepted text replaces all orders in force. Of a refused one "the whole text is
/// then dropped and the orders in force before it remain": no byte changes.
pub fn take_orders(text: &[u8], orders: &mut [u8]) -> u32 {
    if orders.len() != ORDERS_BYTES {
        return REFUSED_ORDERS_LENGTH;
    }
    match read_text(text) {
        Ok(places) => {
            orders.copy_from_slice(places.as_flattened());
            DONE
        }
        Err(refused) => refused.refusal,
    }
}

/// The number of the line at which a text is refused, 0 if it is accepted.
pub fn refused_line(text: &[u8]) -> u32 {
    read_text(text).map_or_else(|refused| refused.line, |_| 0)
}
