//! What is worth comparing, as rows of the table: a text, a test, and how often it has to occur in
//! which parts.

use second::orders::*;
use shared::coverage::{Counts, EveryFact, Fact, Table};

use crate::call::Entry;
use crate::flaws::{
    self, Flaw, BYTE_KINDS, CARRIAGE_RETURN, EMPTY, FIELD_KINDS, FOR_LINE_FEED, FOR_TAB, KINDS,
    PLACES_IN_FIELD,
};
use crate::garbled::LENGTHS;
use crate::made::{Made, Refused};
use crate::reading::{Order, FIELDS, MOST_DIGITS};
use crate::sessions::Heard;
use crate::texts::{EDGES, MOST_TEXT};

use Entry::*;

/// The parts in which a thing has to occur, and how often at factor 1.
const SESSIONS: Counts = [5, 0, 0];
const HANDED_IN: Counts = [0, 5, 0];
const GARBLED: Counts = [0, 0, 5];
const ACCEPTED: Counts = [5, 5, 5];
const REFUSED: Counts = [5, 0, 5];
const EACH: Counts = [1_000, 1_000, 1_000];

const ENTRIES: [(&str, Entry); 2] = [("take", Take), ("line", Line)];
/// Of a line, in the order of asking.
const OF_LINES: [u32; 3] = [REFUSED_65TH_LINE, REFUSED_FORM, REFUSED_USED_TWICE];
const AFTER_MOST: usize = MOST_ORDERS + 1;

// All calls

#[rustfmt::skip]
pub fn of_calls() -> Table<Made> {
    let mut table: Table<Made> = Table::of(&[]);
    table.row(EACH, "take is carried out".to_string(), Made::taken);
    table.row(EACH, "line is 0".to_string(), |made| made.entry == Line && made.answer == DONE);
    table.refusals(REFUSED, "take", &TAKE_ORDERS_REFUSALS, |made| {
        let fits = made.fits.as_ref().filter(|_| made.entry == Take)?;
        Some((made.answer, &fits[..]))
    });
    add_same_line(&mut table);
    add_later_line(&mut table);
    add_lengths(&mut table);
    add_places(&mut table);
    add_numbers_of_lines(&mut table);
    add_flaws(&mut table);
    table.add(USED_TWICE);
    table.add(TOO_MANY);
    table.add(TEXTS);
    add_alike(&mut table);
    add_before(&mut table);
    table
}

/// The line in which more than one refusal fits.
#[rustfmt::skip]
fn add_same_line(table: &mut Table<Made>) {
    let fitting: [&'static [u32]; 4] = [
        &[REFUSED_65TH_LINE, REFUSED_FORM],
        &[REFUSED_65TH_LINE, REFUSED_USED_TWICE],
        &[REFUSED_FORM, REFUSED_USED_TWICE],
        &OF_LINES,
    ];
    for fits in fitting {
        table.row(REFUSED, format!("line is named, where {fits:?} fit in it"), move |made|
            made.entry == Line && made.fits.as_deref() == Some(fits) && made.answer == made.fits_at[0].0 as u32);
    }
    table.row(REFUSED, format!("take returns {REFUSED_65TH_LINE}, where {OF_LINES:?} fit"), |made|
        made.entry == Take && made.answer == REFUSED_65TH_LINE && made.fits.as_deref() == Some(&OF_LINES[..]));
}

/// A refusal before one of a later line, whatever that is.
#[rustfmt::skip]
fn add_later_line(table: &mut Table<Made>) {
    for first in [REFUSED_FORM, REFUSED_USED_TWICE] {
        for later in OF_LINES {
            for (name, entry) in ENTRIES {
                let answered = move |made: &Made, line: usize| made.entry == entry
                    && made.answer == if entry == Take { first } else { line as u32 };
                table.row(REFUSED, format!("{name} is refused with {first}, where {later} fits in the next line"), move |made|
                    matches!(made.fits_at[..], [(line, a), (next, b)] if (a, b, next) == (first, later, line + 1) && answered(made, line)));
                table.row(GARBLED, format!("{name} is refused with {first}, where {later} fits further on"), move |made|
                    matches!(made.fits_at[..], [(line, a), (next, b)] if (a, b) == (first, later) && next > line + 1 && answered(made, line)));
            }
        }
    }
}

/// Wrong lengths, with a text that is accepted, with none, and with refused ones.
#[rustfmt::skip]
fn add_lengths(table: &mut Table<Made>) {
    let refusal = REFUSED_ORDERS_LENGTH;
    for length in LENGTHS {
        table.row(REFUSED, format!("take returns {refusal} for {length} bytes"), move |made| made.wrong_length() && made.orders.len() == length);
        table.row(GARBLED, format!("take returns {refusal} for {length} bytes, with a refused text"), move |made|
            made.entry == Take && made.answer == refusal && made.orders.len() == length && !made.fits_at.is_empty());
    }
    for lines in [0, 1, MOST_ORDERS] {
        table.row(REFUSED, format!("take returns {refusal} for a text of {lines} lines"), move |made| made.wrong_length() && made.text.lines == lines);
    }
    for first in OF_LINES {
        table.row(REFUSED, format!("take returns {refusal}, where {first} fits in line 1 or in the 65th"), move |made|
            made.entry == Take && made.answer == refusal && made.fits_at.first().is_some_and(|&fit|
                fit == (1, first) || fit == (AFTER_MOST, first) || first == REFUSED_USED_TWICE && fit == (2, first)));
    }
}

/// Where in the text the refused line stands.
#[rustfmt::skip]
fn add_places(table: &mut Table<Made>) {
    for (name, entry) in ENTRIES {
        for refusal in [REFUSED_FORM, REFUSED_USED_TWICE] {
            for (place, is_it) in [
                ("line 1", (|line| line == 1) as fn(usize) -> bool),
                ("line 2", |line| line == 2),
                ("a line from 3 to 62", |line| (3..MOST_ORDERS - 1).contains(&line)),
                ("line 63", |line| line == MOST_ORDERS - 1),
                ("line 64", |line| line == MOST_ORDERS),
            ] {
                if (refusal, place) == (REFUSED_USED_TWICE, "line 1") {
                    continue;
                }
                table.row(GARBLED, format!("{name}: {refusal} in {place}"), move |made|
                    made.entry == entry && made.alone(refusal).is_some_and(|refused| is_it(refused.line)));
            }
            table.row(REFUSED, format!("{name}: {refusal} in a last line without a line feed"), move |made|
                made.entry == entry && made.alone(refusal).is_some_and(|refused| !refused.ends));
            table.row(REFUSED, format!("{name}: {refusal} in a last line with a line feed"), move |made| made.entry == entry
                && made.alone(refusal).is_some_and(|refused| refused.ends && refused.line == made.text.lines));
        }
        table.row(REFUSED, format!("{name}: {REFUSED_65TH_LINE} in line 65"), move |made|
            made.entry == entry && made.alone(REFUSED_65TH_LINE).is_some_and(|refused| refused.line == AFTER_MOST));
    }
}

#[rustfmt::skip]
fn add_numbers_of_lines(table: &mut Table<Made>) {
    table.row(ACCEPTED, "take of no bytes".to_string(), |made| made.taken() && made.text.bytes == 0);
    for lines in [1, 2, MOST_ORDERS - 1, MOST_ORDERS] {
        for (end, ends) in [("with the last line feed", true), ("without the last line feed", false)] {
            table.row(ACCEPTED, format!("take of {lines} lines, {end}"), move |made|
                made.taken() && made.text.lines == lines && made.text.ends == ends);
        }
    }
    for (name, entry) in ENTRIES {
        for (end, ends) in [("with the last line feed", true), ("without the last line feed", false)] {
            table.row(REFUSED, format!("{name} of 65 lines, {end}"), move |made| made.entry == entry
                && made.alone(REFUSED_65TH_LINE).is_some() && made.text.lines == AFTER_MOST && made.text.ends == ends);
            table.row(REFUSED, format!("{name} of more lines, {end}"), move |made| made.entry == entry
                && made.alone(REFUSED_65TH_LINE).is_some() && made.text.lines > AFTER_MOST && made.text.ends == ends);
        }
    }
}

/// Each alone in a text.
#[rustfmt::skip]
fn add_flaws(table: &mut Table<Made>) {
    for (name, entry) in ENTRIES {
        for kind in 0..KINDS {
            table.row(GARBLED, format!("{name}: {REFUSED_FORM} for {}", flaws::name(kind)), move |made|
                made.entry == entry && has_flaw(made, |flaw| flaw.kind == kind));
        }
    }
}

fn has_flaw(made: &Made, holds: impl Fn(&Flaw) -> bool) -> bool {
    let refused = made.alone(REFUSED_FORM);
    refused.is_some_and(|refused| refused.flaw.as_ref().is_some_and(holds))
}

fn twice(made: &Made, holds: impl Fn(&Refused, &Order, usize) -> bool) -> bool {
    let Some(refused) = made.alone(REFUSED_USED_TWICE) else {
        return false;
    };
    let (order, twice) = (refused.order.as_ref(), refused.twice.as_ref());
    order
        .zip(twice)
        .is_some_and(|(order, twice)| holds(refused, order, twice.line))
}

#[rustfmt::skip]
const USED_TWICE: &[Fact<Made>] = &[
    (REFUSED, "number of the line before", |made| twice(made, |refused, _, line| line + 1 == refused.line)),
    (REFUSED, "number of the first line", |made| twice(made, |refused, _, line| line == 1 && refused.line > 2)),
    (REFUSED, "number of a line between", |made| twice(made, |refused, _, line| line > 1 && line + 1 < refused.line)),
    (REFUSED, "line 64 has the number of line 1", |made| twice(made, |refused, _, line| line == 1 && refused.line == MOST_ORDERS)),
    (REFUSED, "line 64 has the number of line 63", |made| twice(made, |refused, _, line| line == MOST_ORDERS - 1 && refused.line == MOST_ORDERS)),
    (REFUSED, "number 0 used twice", |made| twice(made, |_, order, _| order[0] == 0)),
    (REFUSED, "number 1 used twice", |made| twice(made, |_, order, _| order[0] == 1)),
    (REFUSED, "number 4294967295 used twice", |made| twice(made, |_, order, _| order[0] == u32::MAX)),
    (REFUSED, "number used twice by lines alike", |made| made.alone(REFUSED_USED_TWICE).is_some_and(|refused|
        refused.twice.as_ref().is_some_and(|twice| twice.alike))),
    (REFUSED, "number used twice by other lines", |made| made.alone(REFUSED_USED_TWICE).is_some_and(|refused|
        refused.twice.as_ref().is_some_and(|twice| !twice.alike))),
    (REFUSED, "a used number, and first after last by one", |made| in_one_line(made, &[REFUSED_FORM, REFUSED_USED_TWICE], |refused|
        refused.flaw.is_some_and(|flaw| flaws::name(flaw.kind) == "first after last by one"))),
    (REFUSED, "a used number, and a tab at the end", |made| in_one_line(made, &[REFUSED_FORM, REFUSED_USED_TWICE], |refused|
        refused.flaw.is_some_and(|flaw| flaws::name(flaw.kind) == "a tab at the end"))),
    (REFUSED, "a used number, and no other field", |made| in_one_line(made, &[REFUSED_FORM, REFUSED_USED_TWICE], |refused|
        refused.flaw.is_some_and(|flaw| flaws::name(flaw.kind) == "one field"))),
    (REFUSED, "a used number, and flawed watts", |made| in_one_line(made, &[REFUSED_FORM, REFUSED_USED_TWICE], |refused|
        refused.flaw.is_some_and(|flaw| flaw.field == Some(3)))),
];

/// Refused where all of these fit in one line, and nothing else.
fn in_one_line(made: &Made, fitting: &[u32], holds: impl Fn(&Refused) -> bool) -> bool {
    let refused = made.text.refused.as_ref();
    made.fits.as_deref() == Some(fitting) && refused.is_some_and(holds)
}

const TOO_MANY_AND_FORM: &[u32] = &[REFUSED_65TH_LINE, REFUSED_FORM];
const TOO_MANY_AND_TWICE: &[u32] = &[REFUSED_65TH_LINE, REFUSED_USED_TWICE];

#[rustfmt::skip]
const TOO_MANY: &[Fact<Made>] = &[
    (REFUSED, "65th line is empty", |made| in_one_line(made, TOO_MANY_AND_FORM, |refused| refused.bytes == 0)),
    (REFUSED, "65th line is empty, the last", |made| made.text.lines == AFTER_MOST && in_one_line(made, TOO_MANY_AND_FORM, |refused| refused.bytes == 0)),
    (REFUSED, "65th line is garbled", |made| in_one_line(made, TOO_MANY_AND_FORM, |refused| refused.bytes > 0)),
    (REFUSED, "65th line has first after last", |made| in_one_line(made, TOO_MANY_AND_FORM, |refused|
        refused.flaw.is_some_and(|flaw| flaws::name(flaw.kind).starts_with("first after last")))),
    (REFUSED, "65th line has the number of line 1", |made| in_one_line(made, TOO_MANY_AND_TWICE, |refused|
        refused.twice.as_ref().is_some_and(|twice| twice.line == 1))),
    (REFUSED, "65th line has the number of line 64", |made| in_one_line(made, TOO_MANY_AND_TWICE, |refused|
        refused.twice.as_ref().is_some_and(|twice| twice.line == MOST_ORDERS))),
    (REFUSED, "65th line is good, the one behind it garbled", |made| made.alone(REFUSED_65TH_LINE).is_some_and(|refused| refused.flawed_behind)),
    (GARBLED, "65th line is one byte", |made| made.text.lines == AFTER_MOST && in_one_line(made, TOO_MANY_AND_FORM, |refused| refused.bytes == 1)),
    (GARBLED, "65 lines and more, refused before with 33 in line 1", |made| made.answer == REFUSED_FORM
        && made.text.lines >= AFTER_MOST && made.fits_at.starts_with(&[(1, REFUSED_FORM)])),
    (GARBLED, "65 lines and more, refused before with 33 in line 64", |made| made.answer == REFUSED_FORM
        && made.text.lines >= AFTER_MOST && made.fits_at.starts_with(&[(MOST_ORDERS, REFUSED_FORM)])),
    (GARBLED, "65 lines and more, refused before with 34 in line 64", |made| made.answer == REFUSED_USED_TWICE
        && made.text.lines >= AFTER_MOST && made.fits_at.starts_with(&[(MOST_ORDERS, REFUSED_USED_TWICE)])),
];

fn is_empty_line(flaw: &Flaw) -> bool {
    flaw.kind == EMPTY
}

#[rustfmt::skip]
const TEXTS: &[Fact<Made>] = &[
    (GARBLED, "a lone line feed", |made| made.text.bytes == 1 && has_flaw(made, is_empty_line)),
    (GARBLED, "two line feeds at the end", |made| made.text.lines > 1 && made.alone(REFUSED_FORM).is_some_and(|refused|
        refused.line == made.text.lines && refused.bytes == 0)),
    (GARBLED, "an empty line between others", |made| has_flaw(made, is_empty_line)
        && made.alone(REFUSED_FORM).is_some_and(|refused| refused.line > 1 && refused.line < made.text.lines)),
    (GARBLED, "an empty line before all others", |made| made.text.lines > 1 && has_flaw(made, is_empty_line)
        && made.alone(REFUSED_FORM).is_some_and(|refused| refused.line == 1)),
    (GARBLED, "a carriage return before a line feed", |made| has_flaw(made, |flaw| flaw.kind == CARRIAGE_RETURN && (flaw.field, flaw.place) == (Some(3), Some(2)))
        && made.alone(REFUSED_FORM).is_some_and(|refused| refused.ends)),
    (GARBLED, "a carriage return at the end of the text", |made| has_flaw(made, |flaw| flaw.kind == CARRIAGE_RETURN && (flaw.field, flaw.place) == (Some(3), Some(2)))
        && made.alone(REFUSED_FORM).is_some_and(|refused| !refused.ends)),
    (GARBLED, "a carriage return before each line feed", |made| made.text.lines > 2 && made.answer == REFUSED_FORM
        && (1..made.text.lines.min(MOST_ORDERS)).all(|line| made.fits_at.get(line - 1) == Some(&(line, REFUSED_FORM)))),
    (GARBLED, "one byte, refused", |made| made.text.bytes == 1 && made.answer == REFUSED_FORM),
    (GARBLED, "the shortest line", |made| made.taken() && made.text.bytes == 2 * FIELDS - 1),
    (GARBLED, "the shortest line with a line feed", |made| made.taken() && made.text.bytes == 2 * FIELDS && made.text.lines == 1),
    (ACCEPTED, "the longest text", |made| made.taken() && made.text.bytes == MOST_TEXT),
    (ACCEPTED, "the longest text but for its line feed", |made| made.taken() && made.text.bytes == MOST_TEXT - 1 && !made.text.ends),
    (GARBLED, "more than 4096 bytes, refused with 33", |made| made.entry == Take && made.answer == REFUSED_FORM && made.text.bytes > 4_096),
    (GARBLED, "more than 65536 bytes, refused with 33", |made| made.entry == Take && made.answer == REFUSED_FORM && made.text.bytes > 65_536),
    (GARBLED, "more than 65536 bytes, refused with 35", |made| made.entry == Take && made.answer == REFUSED_65TH_LINE && made.text.bytes > 65_536),
    (GARBLED, "a line of more than 65536 bytes", |made| made.entry == Take && made.text.refused.as_ref().is_some_and(|refused| refused.bytes > 65_536)),
    (GARBLED, "more than 65536 lines", |made| made.entry == Take && made.text.lines > 65_536),
    (ACCEPTED, "an order number is another line's first tick", |made| made.taken() && has_number_of(made, 1)),
    (ACCEPTED, "an order number is another line's last tick", |made| made.taken() && has_number_of(made, 2)),
    (ACCEPTED, "an order number is another line's watts", |made| made.taken() && has_number_of(made, 3)),
    (ACCEPTED, "lines alike but for their numbers", |made| made.taken() && is_pair(made, |a, b| a[1..] == b[1..])),
];

/// Whether a number stands in this field of a later line.
fn has_number_of(made: &Made, field: usize) -> bool {
    is_pair(made, |earlier, later| later[field] == earlier[0])
}

/// Whether this holds of two orders, one of them in a later line.
fn is_pair(made: &Made, holds: impl Fn(&Order, &Order) -> bool) -> bool {
    let orders = &made.text.orders;
    let later = |at: usize| orders[at + 1..].iter();
    (0..orders.len()).any(|at| later(at).any(|later| holds(&orders[at], later)))
}

/// Numbers that would be used twice if a byte of them were not looked at.
#[rustfmt::skip]
fn add_alike(table: &mut Table<Made>) {
    for byte in 0..4 {
        table.row(ACCEPTED, format!("take of numbers alike but for byte {byte}"), move |made| made.taken()
            && is_pair(made, |a, b| (a[0] ^ b[0]) & !(0xFF << (8 * byte)) == 0));
    }
}

/// What was in the orders before, which no text looks at.
#[rustfmt::skip]
fn add_before(table: &mut Table<Made>) {
    for (name, is_it) in [
        ("no orders", (|orders| orders == NO_ORDERS) as fn(&[u8]) -> bool),
        ("zeros", |orders| orders.iter().all(|&byte| byte == 0)),
        ("bytes of 255", |orders| orders.iter().all(|&byte| byte == 0xFF)),
        ("any bytes", |orders| orders != NO_ORDERS && orders[0] != orders[1]),
    ] {
        let whole = move |made: &Made| made.entry == Take && made.orders.len() == ORDERS_BYTES && is_it(&made.orders);
        table.row(HANDED_IN, format!("take of no lines over {name}"), move |made| whole(made) && made.taken() && made.text.lines == 0);
        table.row(HANDED_IN, format!("take of 1 to 63 lines over {name}"), move |made|
            whole(made) && made.taken() && (1..MOST_ORDERS).contains(&made.text.lines));
        table.row(HANDED_IN, format!("take of 64 lines over {name}"), move |made| whole(made) && made.taken() && made.text.lines == MOST_ORDERS);
        for refusal in OF_LINES {
            table.row(GARBLED, format!("take returns {refusal} over {name}"), move |made| whole(made) && made.answer == refusal);
        }
    }
}

// Orders of accepted texts

/// An order, and the line that has it.
pub struct Placed {
    pub order: Order,
    pub line: usize,
}

pub fn of_placed() -> Table<Placed> {
    Table::of(PLACED)
}

#[rustfmt::skip]
const PLACED: &[Fact<Placed>] = &[
    (ACCEPTED, "order: first is last", |Placed { order, .. }| order[1] == order[2]),
    (ACCEPTED, "order: first is last, both 0", |Placed { order, .. }| order[1] == order[2] && order[1] == 0),
    (ACCEPTED, "order: first is last, both 4294967295", |Placed { order, .. }| order[1] == order[2] && order[1] == u32::MAX),
    (ACCEPTED, "order: first just before last", |Placed { order, .. }| order[1].checked_add(1) == Some(order[2])),
    (ACCEPTED, "order: first 9, last 10", |Placed { order, .. }| order[1..3] == [9, 10]),
    (ACCEPTED, "order: every tick of 32 bits", |Placed { order, .. }| order[1..3] == [0, u32::MAX]),
    (ACCEPTED, "order: all four numbers alike", |Placed { order, .. }| order[..] == [order[0]; FIELDS]),
    (ACCEPTED, "order: number 0 in line 1", |placed| placed.order[0] == 0 && placed.line == 1),
    (ACCEPTED, "order: number 0 in a later line", |placed| placed.order[0] == 0 && (2..MOST_ORDERS).contains(&placed.line)),
    (ACCEPTED, "order: number 0 in line 64", |placed| placed.order[0] == 0 && placed.line == MOST_ORDERS),
    (ACCEPTED, "order: ten digits in each number", |placed| placed.order.into_iter().all(|number| digits(number) == MOST_DIGITS)),
    (ACCEPTED, "order: the bytes of each number differ", |placed| placed.order.into_iter().all(|number| {
        let [a, b, c, d] = number.to_le_bytes();
        a != b && b != c && c != d && a != d
    })),
];

fn digits(number: u32) -> usize {
    number.checked_ilog10().unwrap_or(0) as usize + 1
}

// Texts of sessions

#[rustfmt::skip]
pub fn of_heard() -> Table<Heard> {
    let mut table = Table::of(HEARD);
    let answers = || [DONE].into_iter().chain(TAKE_ORDERS_REFUSALS);
    for answer in answers() {
        table.row(SESSIONS, format!("session: {answer} at first"), move |heard| heard.answer == answer && heard.before.is_none());
        for before in answers() {
            table.row(SESSIONS, format!("session: {before}, then {answer}"), move |heard| heard.answer == answer && heard.before == Some(before));
        }
        table.row(SESSIONS, format!("session: {answer} with orders in force"), move |heard| heard.answer == answer && !heard.in_force.is_empty());
        table.row(SESSIONS, format!("session: {answer} with all places used"), move |heard| heard.answer == answer && heard.in_force.len() == MOST_ORDERS);
    }
    table
}

fn replaced(heard: &Heard, holds: impl Fn(&[Order], &[Order]) -> bool) -> bool {
    heard.answer == DONE && holds(&heard.in_force, &heard.orders)
}

#[rustfmt::skip]
const HEARD: &[Fact<Heard>] = &[
    (SESSIONS, "session: more orders than before", |heard| replaced(heard, |before, orders| before.len() < orders.len() && !before.is_empty())),
    (SESSIONS, "session: fewer orders than before", |heard| replaced(heard, |before, orders| before.len() > orders.len() && !orders.is_empty())),
    (SESSIONS, "session: no orders after some", |heard| replaced(heard, |before, orders| orders.is_empty() && !before.is_empty())),
    (SESSIONS, "session: no orders after 64", |heard| replaced(heard, |before, orders| orders.is_empty() && before.len() == MOST_ORDERS)),
    (SESSIONS, "session: 64 orders after none", |heard| replaced(heard, |before, orders| before.is_empty() && orders.len() == MOST_ORDERS)),
    (SESSIONS, "session: 64 orders after 64", |heard| replaced(heard, |before, orders| before.len() == MOST_ORDERS && orders.len() == MOST_ORDERS)),
    (SESSIONS, "session: a number in force comes again", |heard| replaced(heard, |before, orders|
        orders.iter().any(|order| before.iter().any(|before| before[0] == order[0])))),
    (SESSIONS, "session: a number in force comes again with other watts", |heard| replaced(heard, |before, orders|
        orders.iter().any(|order| before.iter().any(|before| before[0] == order[0] && before[3] != order[3])))),
    (SESSIONS, "session: the same orders in another order of lines", |heard| replaced(heard, |before, orders|
        before != orders && before.len() == orders.len() && orders.iter().all(|order| before.iter().any(|before| before[0] == order[0])))),
];

// Of which every kind has to occur

const IN_HANDED_IN: [bool; 3] = [false, true, false];
const IN_GARBLED: [bool; 3] = [false, false, true];
const ANYWHERE: [bool; 3] = [true, true, true];

/// The first line, one between, the 64th, and the 65th, where what else is wrong does not count.
const PLACES: usize = 4;

fn place(line: usize) -> usize {
    match line {
        1 => 0,
        MOST_ORDERS => 2,
        AFTER_MOST => 3,
        _ => 1,
    }
}

/// Of the refused line, if one thing is wrong with it; and the line.
fn flawed(made: &Made) -> Option<(Flaw, usize)> {
    let one_thing = made.entry == Take && made.answer != REFUSED_ORDERS_LENGTH;
    let refused = made.text.refused.as_ref().filter(|_| one_thing)?;
    refused.flaw.map(|flaw| (flaw, refused.line))
}

/// The kind of the byte that stands for another.
fn flawed_for(made: &Made, kind: usize) -> Option<usize> {
    let (flaw, _) = flawed(made)?;
    flaw.byte
        .filter(|_| flaw.kind == kind)
        .and_then(flaws::kind_of)
}

/// Bytes that no good text has: all but digits, tab and line feed.
const ODD_BYTES: usize = (1 << 8) - 12;

fn odd_byte(byte: u8) -> Option<usize> {
    let is_odd = |byte: &u8| !byte.is_ascii_digit() && !b"\t\n".contains(byte);
    is_odd(&byte).then(|| (0..byte).filter(is_odd).count())
}

#[rustfmt::skip]
pub const EVERY_MADE: &[EveryFact<Made>] = &[
    (ANYWHERE, MOST_ORDERS + 1, "numbers of lines taken", |made| made.taken().then_some(made.text.lines)),
    (IN_HANDED_IN, MOST_ORDERS, "numbers of lines taken without the last line feed", |made|
        (made.taken() && made.text.lines > 0 && !made.text.ends).then(|| made.text.lines - 1)),
    (IN_GARBLED, MOST_ORDERS, "lines refused with 33 by take", |made| made.alone(REFUSED_FORM).filter(|_| made.entry == Take).map(|refused| refused.line - 1)),
    (IN_GARBLED, MOST_ORDERS, "lines refused with 33, by line", |made| made.alone(REFUSED_FORM).filter(|_| made.entry == Line).map(|refused| refused.line - 1)),
    (IN_GARBLED, MOST_ORDERS - 1, "lines refused with 34 by take", |made| made.alone(REFUSED_USED_TWICE).filter(|_| made.entry == Take).map(|refused| refused.line - 2)),
    (IN_GARBLED, MOST_ORDERS - 1, "lines refused with 34, by line", |made| made.alone(REFUSED_USED_TWICE).filter(|_| made.entry == Line).map(|refused| refused.line - 2)),
    (IN_GARBLED, MOST_ORDERS - 1, "lines whose number line 64 uses again", |made| made.alone(REFUSED_USED_TWICE)
        .filter(|refused| refused.line == MOST_ORDERS)?.twice.as_ref().map(|twice| twice.line - 1)),
    (IN_GARBLED, KINDS * PLACES, "flaws in the first line, between, in the 64th and the 65th", |made|
        flawed(made).map(|(flaw, line)| flaw.kind * PLACES + place(line))),
    (IN_GARBLED, FIELD_KINDS * FIELDS, "flaws of a field, in each field", |made| {
        let (flaw, _) = flawed(made)?;
        Some(flaw.kind * FIELDS + flaw.field?)
    }),
    (IN_GARBLED, BYTE_KINDS * PLACES_IN_FIELD, "bytes at the start of a field, between digits, at the end and alone", |made| {
        let (flaw, _) = flawed(made)?;
        Some(flaw.kind * PLACES_IN_FIELD + flaw.place?)
    }),
    (IN_GARBLED, ODD_BYTES, "bytes refused in a field", |made| {
        let (flaw, _) = flawed(made)?;
        flaw.place.and(flaw.byte).and_then(odd_byte)
    }),
    (IN_GARBLED, BYTE_KINDS, "kinds of bytes refused for a tab", |made| flawed_for(made, FOR_TAB)),
    (IN_GARBLED, BYTE_KINDS, "kinds of bytes refused for a line feed", |made| flawed_for(made, FOR_LINE_FEED)),
];

fn edge(number: u32) -> Option<usize> {
    EDGES.iter().position(|edge| *edge == number)
}

#[rustfmt::skip]
pub const EVERY_PLACED: &[EveryFact<Placed>] = &[
    (ANYWHERE, EDGES.len(), "ends of what a number is", |placed| edge(placed.order[0])),
    (ANYWHERE, EDGES.len(), "ends of what a first tick is", |placed| edge(placed.order[1])),
    (ANYWHERE, EDGES.len(), "ends of what a last tick is", |placed| edge(placed.order[2])),
    (ANYWHERE, EDGES.len(), "ends of what watts are", |placed| edge(placed.order[3])),
    (ANYWHERE, MOST_DIGITS, "digits of a number", |placed| Some(digits(placed.order[0]) - 1)),
    (ANYWHERE, MOST_DIGITS, "digits of a first tick", |placed| Some(digits(placed.order[1]) - 1)),
    (ANYWHERE, MOST_DIGITS, "digits of a last tick", |placed| Some(digits(placed.order[2]) - 1)),
    (ANYWHERE, MOST_DIGITS, "digits of watts", |placed| Some(digits(placed.order[3]) - 1)),
];
