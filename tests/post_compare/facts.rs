//! What is worth comparing, as rows of the table: a text, a test, and the parts in which it has to
//! occur.

use std::collections::BTreeSet;
use std::ops::RangeInclusive;

use second::frames::{
    Heard, CAR_STATUS, ENABLED, FAULTS, FRAME_LENGTH, MOST_AMPERES_SHOWN, RECORD_BYTES,
    SYSTEM_FAULT,
};
use second::lead::*;
use second::post::*;
use second::readings::{Tenths, MOST_AMPERES, MOST_CABLE_RESISTANCE, MOST_ERROR, MOST_VOLTS};
use second::sharing::MOST_LEADS;
use shared::coverage::{pairs, Counts, Fact, Table};
use shared::lead_input::KNOWN;
use shared::meter::{largest, largest_within, Shown};
use shared::numbers::{Numbers, TINY};
use shared::post::number;
use shared::stops::reasons;

use crate::causes::{head_flaw, lead_flaw, lead_input_flaws, BadLead, Setup, Tick};
use crate::turns::{charging, wanted, Turn};

/// The parts in which a thing has to occur.
const SESSIONS: Counts = [1, 0, 0];
const HANDED_IN: Counts = [0, 1, 0];
const GARBLED: Counts = [0, 0, 1];
const REACHED: Counts = [1, 1, 0];
const WITH_REFUSALS: Counts = [1, 0, 1];
const EVERYWHERE: Counts = [1, 1, 1];

// Setups

#[rustfmt::skip]
pub fn of_setups() -> Table<Setup> {
    let mut table = Table::of(SETUPS);
    for answer in [DONE].into_iter().chain(SETUP_REFUSALS) {
        table.row(WITH_REFUSALS, format!("setup returns {answer}"), move |setup| setup.number == answer);
        table.row(WITH_REFUSALS, format!("setup returns {answer} where a lead charges"), move |setup|
            setup.number == answer && setup.charges);
    }
    table.refusals(GARBLED, "setup", &SETUP_REFUSALS, |setup| Some((setup.number, &setup.fits)));
    for (name, number, least, most) in SETUP_EDGES {
        for value in [least, most] {
            table.row(GARBLED, format!("setup with {name} {value}"), move |setup| setup.number == DONE && number(&setup.numbers) == value);
        }
        for value in [least - 1, most + 1] {
            table.row(GARBLED, format!("setup refused for {name} {value}"), move |setup| setup.alone() && number(&setup.numbers) == value);
        }
    }
    for (name, ohms, taken) in SETUP_OHMS {
        let kind = if taken { "with" } else { "refused for" };
        table.row(GARBLED, format!("setup {kind} {name} ohms"), move |setup|
            setup.numbers.resistance == ohms.to_bits() && (setup.number == DONE || setup.alone() && !taken));
    }
    for (name, errors) in ERRORS {
        for value in GOOD_ERRORS {
            table.row(WITH_REFUSALS, format!("setup with {name} {value}"), move |setup| setup.number == DONE && errors(&setup.numbers)[0] == value);
        }
        table.row(WITH_REFUSALS, format!("setup with {name} above the other"), move |setup| {
            let [error, other] = errors(&setup.numbers);
            setup.number == DONE && error > other
        });
        for value in BAD_ERRORS {
            table.row(GARBLED, format!("setup refused for {name} {value}"), move |setup|
                setup.alone() && only_error_is(errors(&setup.numbers), value));
        }
    }
    table
}

/// The error of a meter, and that of the other.
type Errors = fn(&Numbers) -> [u32; 2];

#[rustfmt::skip]
const ERRORS: [(&str, Errors); 2] = [
    ("the volts' error", |numbers| [numbers.volts_error, numbers.amperes_error]),
    ("the amperes' error", |numbers| [numbers.amperes_error, numbers.volts_error]),
];

const GOOD_ERRORS: [u32; 4] = [0, 1, MOST_ERROR.0 - 1, MOST_ERROR.0];

/// Some are good ones again if bits are cut off, or taken for a sign.
#[rustfmt::skip]
const BAD_ERRORS: [u32; 7] = [MOST_ERROR.0 + 1, 0xFF, 0x100, 0x100 + MOST_ERROR.0, 0x1_0000, 1 << 31, u32::MAX];

/// The other one is good.
fn only_error_is([error, other]: [u32; 2], value: u32) -> bool {
    error == value && other <= MOST_ERROR.0
}

fn both_are_bad(numbers: &Numbers) -> bool {
    numbers.volts_error.min(numbers.amperes_error) > MOST_ERROR.0
}

#[rustfmt::skip]
const SETUP_EDGES: [(&str, fn(&Numbers) -> u32, u32, u32); 3] = [
    ("leads", |numbers| numbers.leads, 1, MOST_LEADS as u32),
    ("volts", |numbers| numbers.volts, LEAST_RATED_VOLTS, MOST_RATED_VOLTS),
    ("amperes", |numbers| numbers.amperes, LEAST_RATED_AMPERES, MOST_RATED_AMPERES),
];

/// Resistances that are taken, and others.
#[rustfmt::skip]
const SETUP_OHMS: [(&str, f32, bool); 8] = [
    ("0", 0.0, true), ("minus zero", -0.0, true), ("subnormal", TINY, true), ("1", MOST_CABLE_RESISTANCE, true),
    ("just below 0", -TINY, false), ("just above 1", MOST_CABLE_RESISTANCE.next_up(), false),
    ("infinite", f32::INFINITY, false), ("NaN", f32::NAN, false),
];

#[rustfmt::skip]
const SETUPS: &[Fact<Setup>] = &[
    ([1_000, 0, 10_000], "setups", |_| true),
    (GARBLED, "setup refused for volts above two bytes", |setup| setup.alone() && setup.numbers.volts > 0xFFFF),
    (GARBLED, "setup refused for amperes above a byte", |setup| setup.alone() && setup.numbers.amperes > 0xFF),
    (GARBLED, "setup refused for both errors", |setup| setup.alone() && both_are_bad(&setup.numbers)),
    (GARBLED, "setup refused for both errors, of which the low bytes are good", |setup| setup.alone() && both_are_bad(&setup.numbers)
        && ERRORS.iter().all(|(_, errors)| u32::from(errors(&setup.numbers)[0] as u8) <= MOST_ERROR.0)),
    (GARBLED, "setup refused for an empty state", |setup| setup.alone() && setup.length == 0),
    (GARBLED, "setup refused for a byte too few", |setup| setup.alone() && setup.length + 1 == setup.right_length()),
    (GARBLED, "setup refused for a byte too many", |setup| setup.alone() && setup.length == setup.right_length() + 1),
];

// Ticks refused

#[rustfmt::skip]
pub fn of_ticks() -> Table<Tick> {
    let mut table = Table::of(&[([200_000, 100_000, 5_000], "tick is carried out", |tick: &Tick| tick.number == DONE)]);
    for answer in TICK_REFUSALS {
        table.row(EVERYWHERE, format!("tick returns {answer}"), move |tick| tick.number == answer);
        table.row(REACHED, format!("tick returns {answer} where a lead charges"), move |tick| tick.number == answer && tick.charges);
    }
    for (first, later) in pairs(&TICK_REFUSALS) {
        table.row(WITH_REFUSALS, format!("tick returns {first}, where {later} fits too"), move |tick|
            tick.number == first && tick.fits.contains(&later));
    }
    let mut flaws: Vec<String> = SETUP_REFUSALS.into_iter().map(head_flaw).collect();
    // A record with every flaw, and one with the least count that is too high.
    let mut flawed = [0; INPUT_BYTES];
    flawed[input_place::COUNT] = FRAME_RECORDS as u8 + 1;
    for lead in 0..MOST_LEADS {
        flaws.extend(GOOD.iter().map(|condition| lead_flaw(condition.text, lead)));
        flaws.extend(lead_input_flaws(&[0xFF; INPUT_BYTES], lead));
        flaws.extend(lead_input_flaws(&flawed, lead));
    }
    for flaw in flaws {
        table.row(HANDED_IN, flaw.clone(), move |tick| tick.flaws == [flaw.as_str()]);
    }
    for (name, errors) in ERRORS {
        for value in BAD_ERRORS.into_iter().filter(|&value| value <= 0xFF) {
            table.row(HANDED_IN, format!("6 alone: {name} {value}"), move |tick|
                tick.bad_head.is_some_and(|head| only_error_is(errors(&head), value)));
        }
    }
    table.row(HANDED_IN, "6 alone: both errors".to_string(), |tick| tick.bad_head.is_some_and(|head| both_are_bad(&head)));
    for at in place::SPARE..STATE_BYTES {
        table.row(HANDED_IN, format!("6 alone: of the spare bytes only {at}"), move |tick|
            tick.has_bad_lead(|lead| alone(&lead.record[place::SPARE..], at - place::SPARE)));
    }
    for bit in SEEN_ALL.count_ones()..8 {
        table.row(HANDED_IN, format!("6 alone: seen bit {bit}"), move |tick|
            tick.has_bad_lead(|lead| lead.record[place::SEEN] & !SEEN_ALL == 1 << bit));
    }
    for phase in (0..=LAST_PHASE).filter(|phase| !matches!(phase, 6 | 7)) {
        table.row(HANDED_IN, format!("6 alone: command 1 in {phase}"), move |tick|
            tick.has_bad_lead(|lead| lead.has(place::PHASE, phase) && lead.has(place::COMMAND, 1)));
    }
    for phase in 2..=7 {
        table.row(HANDED_IN, format!("6 alone: threshold 0 in {phase}"), move |tick|
            tick.has_bad_lead(|lead| lead.has(place::PHASE, phase) && lead.threshold() == 0));
    }
    for (least, text, holds) in BAD_LEADS {
        table.row(*least, text.to_string(), move |tick| tick.has_bad_lead(holds));
    }
    table
}

/// Whether of these bytes the one in this place is not 0, and no other.
fn alone(bytes: &[u8], place: usize) -> bool {
    let mut places = bytes.iter().enumerate();
    places.all(|(at, &byte)| (byte != 0) == (at == place))
}

impl BadLead {
    fn has(&self, at: usize, value: u8) -> bool {
        self.record[at] == value
    }

    fn threshold(&self) -> u16 {
        number(&self.record, place::THRESHOLD)
    }
}

#[rustfmt::skip]
const BAD_LEADS: &[Fact<BadLead>] = &[
    (HANDED_IN, "6 alone: the first phase that there isn't", |lead| lead.has(place::PHASE, LAST_PHASE + 1)),
    (HANDED_IN, "6 alone: phase 255", |lead| lead.has(place::PHASE, 255)),
    (HANDED_IN, "6 alone: reason below the least", |lead| lead.has(place::REASON, reasons()[0] - 1)),
    (HANDED_IN, "6 alone: reason above the highest", |lead| lead.has(place::REASON, reasons()[1] + 1)),
    (HANDED_IN, "6 alone: command rated + 1", |lead| lead.has(place::COMMAND, lead.rating.amperes + 1)),
    (HANDED_IN, "6 alone: seen 255", |lead| lead.has(place::SEEN, 255)),
    (HANDED_IN, "6 alone: threshold 49", |lead| lead.threshold() == LEAST_VOLTS - 1),
    (HANDED_IN, "6 alone: threshold rated + 1", |lead| lead.threshold() == lead.rating.volts + 1),
    (HANDED_IN, "6 alone: threshold 50 in 1", |lead| lead.threshold() == LEAST_VOLTS && lead.has(place::PHASE, 1)),
];

// Posts in ticks that are carried out

#[rustfmt::skip]
pub fn of_posts() -> Table<[Turn]> {
    let mut table = Table::of(POSTS);
    for leads in 1..=MOST_LEADS {
        table.row(EVERYWHERE, format!("leads: {leads}"), move |turns| turns.len() == leads);
        table.row(REACHED, format!("leads in 6 or 7 at once: {leads}"), move |turns|
            turns.iter().filter(|turn| matches!(turn.after.phase, 6 | 7)).count() == leads);
        // The level is found in one step a want that is met, and one more where not all are.
        for met in 0..=leads {
            table.row(REACHED, format!("wants above 0: {leads}, of these met: {met}"), move |turns| wants_and_met(turns) == [leads, met]);
        }
        table.row(REACHED, format!("energy of lead {leads} grows"), move |turns| turns.get(leads - 1).is_some_and(Turn::grows));
    }
    for order in orders() {
        let numbers = order.map(|at| (at + 1).to_string()).join(", ");
        table.row(REACHED, format!("power short, four different wants, smallest first those of leads {numbers}"), move |turns|
            any_short(turns) && wants_rise(turns, order));
    }
    for (name, ohms) in CABLES {
        table.row(REACHED, format!("cable resistance {name}"), move |turns|
            turns[0].standing.rating.cable_resistance.to_bits() == ohms.to_bits());
    }
    for value in GOOD_ERRORS.map(Tenths) {
        table.row(REACHED, format!("volts' error {}", value.0), move |turns| turns[0].standing.rating.volts_error == value);
        table.row(REACHED, format!("amperes' error {}", value.0), move |turns| turns[0].standing.rating.amperes_error == value);
    }
    table
}

#[rustfmt::skip]
const CABLES: [(&str, f32); 5] = [("0", 0.0), ("minus zero", -0.0), ("subnormal", TINY), ("0.5", 0.5), ("1", 1.0)];

fn any_short(turns: &[Turn]) -> bool {
    turns.iter().any(Turn::is_short)
}

/// How many wants are above 0, and how many of these are met.
fn wants_and_met(turns: &[Turn]) -> [usize; 2] {
    let wanting = || turns.iter().filter(|turn| turn.want > 0);
    [wanting().count(), wanting().filter(|turn| !turn.is_short()).count()]
}

/// All orders of the places of four leads.
fn orders() -> impl Iterator<Item = [usize; MOST_LEADS]> {
    let places = (0..MOST_LEADS.pow(4)).map(|mix| [64, 16, 4, 1].map(|worth| mix / worth % MOST_LEADS));
    places.filter(|order| (0..MOST_LEADS).all(|at| order.contains(&at)))
}

/// Whether four leads want something, each more than the one before it in an order.
fn wants_rise(turns: &[Turn], order: [usize; MOST_LEADS]) -> bool {
    turns.len() == MOST_LEADS
        && turns[order[0]].want > 0
        && order.windows(2).all(|pair| turns[pair[0]].want < turns[pair[1]].want)
}

fn any_wants_in(turns: &[Turn], phase: u8) -> bool {
    let mut those = turns.iter().filter(|turn| turn.after.phase == phase);
    those.any(|turn| turn.want > 0)
}

const MOST_WATTS: u32 = MOST_LEADS as u32 * MOST_RATED_VOLTS * MOST_RATED_AMPERES;

#[rustfmt::skip]
const POSTS: &[Fact<[Turn]>] = &[
    (REACHED, "a want is the level exactly, another is above it", |turns| any_short(turns)
        && turns.iter().any(|turn| turn.want > 0 && turn.want == turn.level)),
    (REACHED, "a want is just below the level, another is above it", |turns| any_short(turns)
        && turns.iter().any(|turn| turn.want > 0 && turn.want < turn.level && turn.level - turn.want == 1)),
    (REACHED, "a want is just above the level", |turns| turns.iter().any(|turn| turn.is_short() && turn.want - turn.level == 1)),
    (REACHED, "equal wants that are not met", |turns| turns.iter().enumerate().any(|(at, turn)|
        turn.is_short() && turns[..at].iter().any(|other| other.want == turn.want))),
    (HANDED_IN, "the most watts are met", |turns| wanted(turns) == MOST_WATTS && !any_short(turns)),
    (HANDED_IN, "the most watts are not met", |turns| wanted(turns) == MOST_WATTS && any_short(turns)),
    (REACHED, "a lead ramps down while another charges", |turns| any_wants_in(turns, 7) && any_wants_in(turns, 6)),
    (SESSIONS, "a lead starts anew while another charges", |turns| any_wants_in(turns, 6)
        && turns.iter().any(|turn| turn.moved_from(0) && turn.before.reason != 0)),
    (REACHED, "two energies grow by different watts", |turns| turns.iter().any(|turn|
        turn.grows() && turns.iter().any(|other| other.grows() && other.watts() != turn.watts()))),
    (REACHED, "one energy grows, another is cleared", |turns| turns.iter().any(Turn::grows) && turns.iter().any(Turn::clears)),
    (HANDED_IN, "one energy grows, another is cut short", |turns| turns.iter().any(|turn| turn.grows() && turn.watts() < turn.room())
        && turns.iter().any(|turn| turn.grows() && turn.watts() > turn.room())),
    (REACHED, "leads in 6 are offered different amperes", |turns| charging(turns).any(|turn| charging(turns).any(|other|
        turn.offer() != other.offer()))),
    (REACHED, "leads in 6 are offered the same, not the rating, and command different amperes", |turns|
        charging(turns).any(|turn| turn.offer() < turn.rated() && charging(turns).any(|other|
            turn.offer() == other.offer() && turn.after.command != other.after.command))),
    // The level is the allowance then.
    (REACHED, "all wants are met, and the offers in 6 come to more than the allowance", |turns| !any_short(turns)
        && charging(turns).map(|turn| turn.offer() * turn.volts()).sum::<u32>() > turns[0].level),
    (REACHED, "another cable resistance", |turns| !CABLES.iter().any(|cable| cable.1 == turns[0].standing.rating.cable_resistance)),
];

// Leads in ticks that are carried out

#[rustfmt::skip]
pub fn of_turns() -> Table<Turn> {
    let mut table = Table::of(TURNS);
    for phase in 0..=LAST_PHASE {
        table.row(REACHED, format!("phase {phase}"), move |turn| turn.after.phase == phase);
        table.row(REACHED, format!("stay in {phase}"), move |turn| turn.stayed_in(phase));
        // Only a stop ends 6.
        if phase != 6 {
            table.row(REACHED, format!("move from {phase}"), move |turn| turn.moved_from(phase));
        }
        table.row(HANDED_IN, format!("age 4,294,967,295 in {phase}"), move |turn| turn.at_age(phase, u32::MAX));
    }
    for question in &QUESTIONS {
        let number = question.number;
        // In 7 and 8 none is.
        table.row(REACHED, format!("reason {number} recorded"), move |turn|
            turn.stopped_for(number) && turn.after.reason == number && !turn.began_in(7..=8));
        for phase in question.first..=question.last {
            table.row(REACHED, format!("stop {number} from {phase}"), move |turn| turn.stopped_for(number) && turn.before.phase == phase);
        }
    }
    for (kind, is_urgent) in [("urgent", true), ("ordinary", false)] {
        let questions = QUESTIONS.iter().filter(|question| question.urgent == is_urgent);
        let phases: BTreeSet<u8> = questions.flat_map(|question| question.first..=question.last).collect();
        for phase in phases {
            table.row(REACHED, format!("{kind} stop from {phase}"), move |turn| turn.stopped_as(is_urgent, phase));
            table.row(with_energy(phase), format!("energy kept by an {kind} stop from {phase}"), move |turn|
                turn.stopped_as(is_urgent, phase) && turn.keeps_energy());
        }
    }
    for (phase, limit) in (0..).zip(AGE_LIMITS).skip(1) {
        for age in [limit - 1, limit] {
            table.row(REACHED, format!("age {age} in {phase}"), move |turn| turn.at_age(phase, age));
        }
    }
    for phase in [4, 9] {
        table.row(REACHED, format!("safe volts exactly, and 0 A, in {phase}"), move |turn|
            turn.before.phase == phase && turn.value(VOLTS) == Some(largest(SAFE_VOLTS_IN_TENTHS)) && turn.value(AMPERES) == Some(0.0));
    }
    for bit in 0..FAULTS.count_ones() {
        table.row(REACHED, format!("stop 20 for fault {bit} alone"), move |turn| turn.stopped_for_faults(1 << bit, 0));
    }
    add_upper_ends(&mut table);
    add_energies(&mut table);
    add_offers(&mut table);
    add_withdrawals(&mut table);
    // A session leaves phase 1 after all three frames.
    for seen in 0..SEEN_ALL {
        table.row(HANDED_IN, format!("seen {seen} in 2-6"), move |turn| turn.before.seen == seen && turn.began_in(2..=6));
    }
    for count in 0..=FRAME_RECORDS as u8 {
        table.row(REACHED, format!("frame count {count}"), move |turn| turn.input[input_place::COUNT] == count);
    }
    for flag in 0..6 {
        for (word, set) in [("set", 1), ("clear", 0)] {
            table.row(REACHED, format!("H'109 flag {flag} {word}"), move |turn|
                matches!(turn.after.phase, 1..=9) && turn.h109(5) >> flag & 1 == set);
        }
    }
    for (name, heard) in FRAMES {
        for (phases, began) in [("1", 1..=1), ("2-6", 2..=6), ("7 or 8", 7..=8)] {
            table.row(REACHED, format!("{name} in {phases}"), move |turn| heard(&turn.sent) && turn.began_in(began.clone()));
        }
        table.row(REACHED, format!("{name} in 0, 9, 10"), move |turn| heard(&turn.sent) && matches!(turn.before.phase, 0 | 9 | 10));
        table.row(REACHED, format!("{name} past the count"), move |turn| heard(&turn.past_the_count));
    }
    for (unit, in_minutes, at) in [("tens of seconds", false, 6), ("minutes", true, 7)] {
        table.row(REACHED, format!("remaining {unit} in 2-5"), move |turn| turn.keeps_time(2..=5, in_minutes) && turn.h109(at) > 0);
        table.row(REACHED, format!("remaining {unit} in 6"), move |turn| turn.keeps_time(6..=6, in_minutes) && turn.h109(at) > 0);
        table.row(REACHED, format!("no remaining {unit} in 6"), move |turn| turn.keeps_time(6..=6, in_minutes) && turn.h109(at) == 0);
        table.row(HANDED_IN, format!("last of the charging time in {unit}"), move |turn|
            turn.stayed_in(6) && turn.keeps_time(6..=6, in_minutes) && turn.charging_time_left() == Some(1));
        table.row(HANDED_IN, format!("end of the charging time in {unit}"), move |turn|
            turn.stopped_for(29) && turn.keeps_time(7..=7, in_minutes) && turn.charging_time_left() == Some(0));
    }
    for (name, reading) in READINGS {
        for (kind, holds) in KINDS {
            table.row(REACHED, format!("{name} {kind}"), move |turn| holds(turn.value(reading)));
        }
    }
    for (name, reading, most) in [("volts", VOLTS, MOST_VOLTS), ("amperes", AMPERES, MOST_AMPERES)] {
        for (kind, value) in [("at their most", most), ("just above it", most.next_up()), ("just below 0", -TINY)] {
            table.row(REACHED, format!("{name} {kind}"), move |turn| turn.value(reading) == Some(value));
        }
    }
    table
}

/// The tests that judge the upper end of a reading, on either side of their limits.
#[rustfmt::skip]
fn add_upper_ends(table: &mut Table<Turn>) {
    for (name, meter, limit, passes, fails) in JUDGED {
        for (text, holds) in PASSING {
            table.row(REACHED, format!("{name}, yes: {text}"), move |turn| passes(turn) && meter(turn).is_some_and(|of| holds(&of, limit(turn))));
        }
        for (text, holds) in FAILING {
            table.row(REACHED, format!("{name}, no: {text}"), move |turn| fails(turn) && meter(turn).is_some_and(|of| holds(&of, limit(turn))));
        }
        // No amperes end 7 then.
        if name != END_OF_7 {
            table.row(REACHED, format!("{name}, yes: the upper end at the limit, by the largest error"), move |turn|
                passes(turn) && meter(turn).is_some_and(|of| of.error == MOST_ERROR && of.is_at_by_error(limit(turn))));
        }
    }
    for (number, (_, meter, limit, ..)) in [16, 17].into_iter().zip(JUDGED) {
        for phase in 5..=7 {
            table.row(REACHED, format!("stop {number} from {phase} by the error alone"), move |turn| turn.stopped_for(number)
                && turn.before.phase == phase && meter(turn).is_some_and(|of| of.is_above_by_error(limit(turn))));
        }
    }
    // Where the error alone is above the limit, question 17 gets no yes.
    for rated in [1, 2] {
        let limit = Tenths::of_whole(rated) + AMPERES_OVER_RATED_IN_TENTHS;
        let shows_0 = move |turn: &Turn, error: Tenths| turn.rated() == rated.into() && turn.began_in(5..=7)
            && meter_of_amperes(turn).is_some_and(|of| of.tenths == Tenths(0) && of.error == error);
        table.row(REACHED, format!("0 A are no stop, rated {rated} A, error {}", limit.0), move |turn| shows_0(turn, limit) && !turn.stopped_for(17));
        for error in [limit + Tenths(1), MOST_ERROR] {
            table.row(REACHED, format!("stop 17 at 0 A, rated {rated} A, error {}", error.0), move |turn|
                shows_0(turn, error) && turn.stopped_for(17));
        }
    }
}

fn meter_of_volts(turn: &Turn) -> Option<Shown> {
    let rating = &turn.standing.rating;
    turn.measured.map(|of| Shown::volts(of, rating))
}

fn meter_of_amperes(turn: &Turn) -> Option<Shown> {
    let rating = &turn.standing.rating;
    turn.measured.map(|of| Shown::amperes(of, rating))
}

/// What one of the two shows, where the reading is good.
type Meter = fn(&Turn) -> Option<Shown>;

/// A name, the meter that is judged, the limit, and whether the answer was yes, or no.
type Judged = (
    &'static str,
    Meter,
    fn(&Turn) -> Tenths,
    fn(&Turn) -> bool,
    fn(&Turn) -> bool,
);

const END_OF_7: &str = "7 to 8 by amperes";

#[rustfmt::skip]
const JUDGED: [Judged; 5] = [
    ("question 16", meter_of_volts, |turn| turn.standing.most_volts(), |turn| turn.began_in(5..=7) && !turn.is_stopped(),
        |turn| turn.stopped_for(16)),
    ("question 17", meter_of_amperes, |turn| turn.standing.most_amperes(), |turn| turn.began_in(5..=7) && !turn.is_stopped(),
        |turn| turn.stopped_for(17)),
    ("4 to 5", meter_of_volts, |_| SAFE_VOLTS_IN_TENTHS, |turn| turn.moved_from(4), |turn| turn.stayed_in(4)),
    ("9 to 10", meter_of_volts, |_| SAFE_VOLTS_IN_TENTHS, |turn| turn.moved_from(9), |turn| turn.stayed_in(9)),
    (END_OF_7, meter_of_amperes, |_| SAFE_AMPERES_IN_TENTHS, |turn| turn.moved_from(7) && turn.before.age < RAMP_DOWN_LIMIT,
        |turn| turn.stayed_in(7) && turn.before.command == 0),
];

/// On which side of the limit a meter's tenths and their upper end are.
type Side = (&'static str, fn(&Shown, Tenths) -> bool);

#[rustfmt::skip]
const PASSING: [Side; 4] = [
    ("at the limit, error 0", |of, limit| of.is_exact() && of.tenths == limit),
    ("at the limit, error 0, the other above it", |of, limit| of.is_exact() && of.tenths == limit && of.other_end() > limit),
    ("the upper end at the limit", |of, limit| of.is_at_by_error(limit)),
    ("the upper end at the limit, above it by the other error", |of, limit| of.is_at_by_error(limit) && of.other_end() > limit),
];

#[rustfmt::skip]
const FAILING: [Side; 5] = [
    ("a tenth above the limit, error 0", |of, limit| of.is_exact() && of.tenths == limit + Tenths(1)),
    ("at the limit, error 1", |of, limit| of.error == Tenths(1) && of.tenths == limit),
    ("below the limit, the upper end a tenth above it", |of, limit| of.tenths < limit && of.upper_end() == limit + Tenths(1)),
    ("the upper end a tenth above the limit, not by the other error", |of, limit| of.upper_end() == limit + Tenths(1) && of.other_end() <= limit),
    ("above the limit, the lower end not", |of, limit| of.tenths > limit && of.tenths <= limit + of.error),
];

/// What H'108 offers, by phase and level.
#[rustfmt::skip]
fn add_offers(table: &mut Table<Turn>) {
    // Where there is no threshold yet, or none any more.
    table.row(REACHED, "the rating offered in 1".to_string(), |turn| turn.after.phase == 1 && turn.offer() == turn.rated());
    table.row(HANDED_IN, "the rating offered in 8 or 9 without a threshold".to_string(), |turn|
        matches!(turn.after.phase, 8 | 9) && turn.volts() == 0 && turn.offer() == turn.rated());
    for phase in [2, 3, 4, 5, 7, 8, 9] {
        table.row(REACHED, format!("the rating offered in {phase}, where the level carries less"), move |turn|
            turn.after.phase == phase && turn.level_below_rated() && turn.offer() == turn.rated());
    }
    for phase in [0, 10] {
        table.row(REACHED, format!("nothing offered in {phase}, where the level carries something"), move |turn|
            turn.after.phase == phase && turn.volts() > 0 && turn.level > turn.volts() && turn.offer() == 0);
    }
    for (word, into) in [("ordinary", 7), ("urgent", 9)] {
        table.row(REACHED, format!("the rating offered by an {word} stop from 6, where the level carries less"), move |turn|
            turn.stopped_in(6) && turn.after.phase == into && turn.level_below_rated() && turn.offer() == turn.rated());
    }
}

/// Permission that opens where the car says so in the same tick, and where it does not.
#[rustfmt::skip]
fn add_withdrawals(table: &mut Table<Turn>) {
    for phase in (0..=LAST_PHASE).filter(|&phase| matters_in(phase)) {
        table.row(REACHED, format!("permission opens in {phase}, not enabled"), move |turn| turn.before.phase == phase && turn.withdraws());
        table.row(REACHED, format!("permission opens in {phase}, enabled"), move |turn|
            turn.before.phase == phase && turn.opens() && turn.sent.status.is_some_and(|status| status.enabled()));
        table.row(REACHED, format!("permission opens in {phase}, no H'102"), move |turn|
            turn.before.phase == phase && turn.opens() && turn.sent.status.is_none());
    }
    for earlier in QUESTIONS.iter().map(|question| question.number).take_while(|&number| number < 14) {
        table.row(REACHED, format!("stop {earlier} in 2-6, where permission opens too, not enabled"), move |turn| turn.stopped_for(earlier)
            && matters_in(turn.before.phase) && turn.is_open(contact::CHARGE_PERMISSION) && turn.sent.withdraws());
    }
    for (later, gets_no) in BESIDE_14 {
        let asked = QUESTIONS.iter().find(|question| question.number == later).expect("a question");
        table.row(REACHED, format!("permission opens in 2-6, not enabled, and {later} gets a no too"), move |turn|
            turn.withdraws() && turn.began_in(asked.first..=asked.last) && gets_no(turn));
    }
    for (phase, word) in [(1, "waits"), (8, "goes on")] {
        table.row(REACHED, format!("permission is open in {phase}, not enabled, and the lead {word}"), move |turn|
            turn.before.phase == phase && turn.is_open(contact::CHARGE_PERMISSION) && turn.sent.withdraws() && !turn.is_stopped());
    }
}

/// Whether it matters in the phase that the car says so.
fn matters_in(phase: u8) -> bool {
    reason_of_no(14, phase, true) != reason_of_no(14, phase, false)
}

/// The questions from 15 to 22, and when each gets a no where it is asked. With an H'102 there is
/// no silence, which is 19.
#[rustfmt::skip]
const BESIDE_14: [(u8, fn(&Turn) -> bool); 7] = [
    (15, |turn| turn.measured.is_none()),
    (16, |turn| meter_of_volts(turn).is_some_and(|of| of.upper_end() > turn.standing.most_volts())),
    (17, |turn| meter_of_amperes(turn).is_some_and(|of| of.upper_end() > turn.standing.most_amperes())),
    (18, |turn| turn.is_open(contact::CONNECTOR_LOCK)),
    (20, |turn| !turn.after.car.faults_clear()),
    (21, |turn| turn.after.seen == SEEN_ALL && turn.after.car.target_voltage > turn.standing.threshold),
    (22, |turn| !turn.after.car.in_park()),
];

/// Energies kept and at their edges, phase by phase and byte by byte.
#[rustfmt::skip]
fn add_energies(table: &mut Table<Turn>) {
    for phase in 0..=LAST_PHASE {
        // A start clears it, and no move ends 6.
        if !matches!(phase, 0 | 6) {
            table.row(with_energy(phase), format!("energy kept by the move from {phase}"), move |turn|
                turn.moved_from(phase) && turn.keeps_energy());
        }
        table.row(with_energy(phase), format!("energy kept in {phase}"), move |turn| turn.stayed_in(phase) && turn.keeps_energy());
        table.row(HANDED_IN, format!("good: energy of eight bytes in {phase}"), move |turn|
            turn.before.phase == phase && !turn.before.energy.to_le_bytes().contains(&0));
    }
    for phase in [6, 7] {
        for (kind, holds) in ROOMS {
            table.row(HANDED_IN, format!("energy {kind} in {phase}"), move |turn|
                turn.after.phase == phase && turn.watts() > 0 && holds(turn.room(), turn.watts()));
        }
    }
    for at in place::ENERGY..place::SPARE {
        table.row(HANDED_IN, format!("good: byte {at} of the energy alone"), move |turn|
            alone(&turn.before.energy.to_le_bytes(), at - place::ENERGY));
    }
    for at in place::ENERGY + 1..place::SPARE {
        let below = (1 << (8 * (at - place::ENERGY))) - 1;
        table.row(HANDED_IN, format!("energy just doesn't carry into byte {at}"), move |turn|
            turn.grows() && turn.after.energy & below == below && turn.after.energy != u64::MAX);
        table.row(HANDED_IN, format!("energy just carries into byte {at}"), move |turn|
            turn.grows() && turn.after.energy & below == 0 && turn.before.energy & below != 0);
    }
}

/// A session's lead has no energy between its start and 6.
const fn with_energy(phase: u8) -> Counts {
    match phase {
        1..=5 => HANDED_IN,
        _ => REACHED,
    }
}

/// How much more the energy can be, and the watts that come to it. No session lasts so long.
#[rustfmt::skip]
const ROOMS: [(&str, fn(u64, u64) -> bool); 5] = [
    ("comes to one short of its largest value", |room, watts| room == watts + 1),
    ("comes to its largest value exactly", |room, watts| room == watts),
    ("is cut short by 1", |room, watts| room == watts - 1),
    ("is cut short to 1", |room, watts| room == 1 && watts > 2),
    ("stays at its largest value", |room, _| room == 0),
];

/// What a car sends. H'100 and H'101 are heard in 1, H'102 in 1 to 8.
#[rustfmt::skip]
const FRAMES: [(&str, fn(&Heard) -> bool); 3] = [
    ("H'100", |heard| heard.maximum_voltage.is_some()),
    ("H'101", |heard| heard.charging_time.is_some()),
    ("H'102", |heard| heard.status.is_some()),
];

/// A reading of an input: present bit and place.
type Reading = (u8, usize);

const VOLTS: Reading = (present::VOLTS, input_place::VOLTS);
const AMPERES: Reading = (present::AMPERES, input_place::AMPERES);
const OHMS: Reading = (present::RESISTANCE, input_place::OHMS);
const READINGS: [(&str, Reading); 3] = [("volts", VOLTS), ("amperes", AMPERES), ("ohms", OHMS)];

#[rustfmt::skip]
const KINDS: [(&str, fn(Option<f32>) -> bool); 6] = [
    ("missing", |value| value.is_none()),
    ("NaN", |value| value.is_some_and(f32::is_nan)),
    ("plus infinity", |value| value == Some(f32::INFINITY)),
    ("minus infinity", |value| value == Some(f32::NEG_INFINITY)),
    ("minus zero", |value| value.is_some_and(|value| value.to_bits() == (-0.0f32).to_bits())),
    ("subnormal", |value| value.is_some_and(|value| value.is_subnormal() && value > 0.0)),
];

impl Turn {
    fn began_in(&self, phases: RangeInclusive<u8>) -> bool {
        phases.contains(&self.before.phase)
    }

    fn at_age(&self, phase: u8, age: u32) -> bool {
        self.before.phase == phase && self.before.age == age
    }

    fn stayed_in(&self, phase: u8) -> bool {
        self.decision == Decision::Stayed && self.before.phase == phase
    }

    fn moved_from(&self, phase: u8) -> bool {
        matches!(self.decision, Decision::Moved { from, .. } if from == phase)
    }

    fn is_stopped(&self) -> bool {
        matches!(self.decision, Decision::Stopped { .. })
    }

    fn stopped_for(&self, number: u8) -> bool {
        matches!(self.decision, Decision::Stopped { question, .. } if question == number)
    }

    fn stopped_in(&self, phase: u8) -> bool {
        matches!(self.decision, Decision::Stopped { from, .. } if from == phase)
    }

    fn stopped_as(&self, is_urgent: bool, phase: u8) -> bool {
        matches!(self.decision, Decision::Stopped { urgent, from, .. } if urgent == is_urgent && from == phase)
    }

    fn is_open(&self, contact: u8) -> bool {
        self.input[input_place::CONTACTS] & contact == 0
    }

    /// A stop for permission, in a phase in which it matters whether the car says so.
    fn opens(&self) -> bool {
        self.stopped_for(14) && matters_in(self.before.phase)
    }

    /// Such a stop, and this tick's H'102 says not enabled.
    fn withdraws(&self) -> bool {
        self.opens() && self.sent.withdraws()
    }

    /// What each H'102 of the right length says of enabled, or each of another length.
    fn enabled_by(&self, right_length: bool) -> impl Iterator<Item = bool> + '_ {
        let statuses = self.frames().filter(|record| number(*record, 0) == CAR_STATUS);
        let those = statuses.filter(move |record| (record[2] == FRAME_LENGTH) == right_length);
        those.map(|record| record[8] & ENABLED != 0)
    }

    /// These and no others.
    fn stopped_for_faults(&self, faults: u8, system_fault: u8) -> bool {
        let car = &self.after.car;
        let found = (car.faults & FAULTS, car.status & SYSTEM_FAULT);
        self.stopped_for(20) && found == (faults, system_fault)
    }

    fn is_short(&self) -> bool {
        self.want > self.level
    }

    /// In energy.
    fn grows(&self) -> bool {
        self.after.energy > self.before.energy
    }

    /// Its energy, by a start.
    fn clears(&self) -> bool {
        self.moved_from(0) && self.before.energy > 0
    }

    /// How much energy it could take before the tick.
    fn room(&self) -> u64 {
        u64::MAX - self.before.energy
    }

    /// It has some, and nothing comes to it.
    fn keeps_energy(&self) -> bool {
        self.before.energy > 0 && self.after.energy == self.before.energy && self.watts() == 0
    }

    fn lowered_into(&self, phase: u8) -> bool {
        self.after.phase == phase && self.after.command < self.before.command
    }

    /// Those of a known identifier: whether their lengths are right.
    fn lengths_right(&self, known: u16) -> impl Iterator<Item = bool> + '_ {
        let is_known = move |record: &&[u8; RECORD_BYTES]| number(*record, 0) == known;
        let records = self.frames().filter(is_known);
        records.map(|record| record[2] == FRAME_LENGTH)
    }

    fn frames(&self) -> impl Iterator<Item = &[u8; RECORD_BYTES]> {
        let (records, _) = self.input[input_place::FRAMES..].as_chunks();
        records.iter().take(self.input[input_place::COUNT].into())
    }

    /// A known identifier twice or more, the first of the right length.
    fn twice(&self, last_is_right: bool) -> bool {
        KNOWN.iter().any(|&known| {
            let mut right = self.lengths_right(known);
            right.next() == Some(true) && right.last() == Some(last_is_right)
        })
    }

    /// A value of the input, if it is there.
    fn value(&self, (bit, at): Reading) -> Option<f32> {
        let bytes = self.input[at..].first_chunk()?;
        (self.input[input_place::PRESENT] & bit != 0).then(|| f32::from_le_bytes(*bytes))
    }

    /// The most amperes whose upper end is no more than so many tenths.
    fn most_amperes_within(&self, limit: Tenths) -> Option<f32> {
        largest_within(limit, self.standing.rating.amperes_error)
    }

    /// Above the highest value of a good reading, by the error.
    fn ends_above(&self, meter: Meter, most: f32) -> bool {
        let most = Tenths::of_whole(most as u16);
        meter(self).is_some_and(|of| of.is_above_by_error(most))
    }

    fn shows_no_amperes(&self, error: Tenths) -> bool {
        meter_of_amperes(self).is_some_and(|of| of.tenths == Tenths(0) && of.error == error)
    }

    /// A good reading in H'109, both meters' errors above 0, of which this holds.
    fn shows(&self, holds: impl Fn([Shown; 2]) -> bool) -> bool {
        let both = meter_of_volts(self).zip(meter_of_amperes(self));
        let shown = both.is_some_and(|(volts, amperes)| {
            !volts.is_exact() && !amperes.is_exact() && holds([volts, amperes])
        });
        matches!(self.after.phase, 1..=9) && shown
    }

    /// Byte 3 of H'108.
    fn offer(&self) -> u32 {
        self.output[output_place::H108 + 3].into()
    }

    fn rated(&self) -> u32 {
        self.standing.rating.amperes.into()
    }

    fn volts(&self) -> u32 {
        self.after.threshold.into()
    }

    /// Whether the level carries fewer than the rated amperes.
    fn level_below_rated(&self) -> bool {
        self.level < self.rated() * self.volts()
    }

    /// Whether the lead charges after the tick at a level below its rating, and how many watts are
    /// left over then by whole amperes.
    fn left_over(&self) -> Option<u32> {
        (self.after.phase == 6 && self.level_below_rated()).then(|| self.level % self.volts())
    }

    fn h109(&self, at: usize) -> u8 {
        self.output[output_place::H109 + at]
    }

    /// Before the tick.
    fn charging_time_left(&self) -> Option<u32> {
        let ticks = self.after.charging_time.ticks().0;
        ticks.checked_sub(self.before.age)
    }

    /// The phase after the tick, and the unit of the kept H'101.
    fn keeps_time(&self, phases: RangeInclusive<u8>, in_minutes: bool) -> bool {
        phases.contains(&self.after.phase) && self.after.charging_time.in_minutes() == in_minutes
    }
}

fn is_whole(tenths: Tenths) -> bool {
    tenths == Tenths(tenths.rounded_up() * Tenths::IN_A_WHOLE)
}

#[rustfmt::skip]
const TURNS: &[Fact<Turn>] = &[
    (REACHED, "command raised", |turn| turn.after.command > turn.before.command),
    (REACHED, "command raised by less than wanted", |turn| turn.after.command > turn.before.command && turn.is_short()),
    (REACHED, "command held in 6", |turn| turn.after.phase == 6 && turn.after.command > 0 && turn.after.command == turn.before.command),
    (REACHED, "command lowered in 6 by the request", |turn| turn.lowered_into(6) && !turn.is_short()),
    (REACHED, "command lowered in 6 by the level", |turn| turn.lowered_into(6) && turn.is_short()),
    (REACHED, "command lowered in 7", |turn| turn.lowered_into(7) && !turn.is_short() && turn.after.command > 0),
    (REACHED, "command lowered in 7 by the level too", |turn| turn.lowered_into(7) && turn.is_short()),
    (REACHED, "command cut off by an urgent stop", |turn| turn.lowered_into(9)),
    // A session's command is 0 long before: 200 A take 20 ticks.
    (HANDED_IN, "command cut off in 7 at age 30", |turn| turn.lowered_into(8)),
    (REACHED, "more wanted in 6 than the level", |turn| turn.after.phase == 6 && turn.is_short()),
    (REACHED, "more wanted in 7 than the level", |turn| turn.after.phase == 7 && turn.is_short()),
    (REACHED, "level 0 in 6", |turn| turn.after.phase == 6 && turn.is_short() && turn.level == 0),

    (REACHED, "energy grows in 6", |turn| turn.stayed_in(6) && turn.grows()),
    (REACHED, "energy grows in 7", |turn| turn.stayed_in(7) && turn.grows()),
    (REACHED, "energy grows by the move from 5", |turn| turn.moved_from(5) && turn.grows()),
    (HANDED_IN, "energy above 0 grows by the move from 5", |turn| turn.moved_from(5) && turn.grows() && turn.before.energy > 0),
    (REACHED, "energy grows by a stop from 6", |turn| turn.stopped_in(6) && turn.grows()),
    (REACHED, "energy grows by a raised command", |turn| turn.grows() && turn.after.command > turn.before.command),
    (REACHED, "energy grows by a lowered command in 6", |turn| turn.grows() && turn.lowered_into(6)),
    (REACHED, "energy grows by less than the level", |turn| turn.grows() && turn.is_short() && turn.watts() < turn.level.into()),
    (REACHED, "energy grows at less than rated volts", |turn| turn.grows() && turn.after.threshold < turn.standing.rating.volts),
    (REACHED, "energy grows at less than the maximum voltage", |turn| turn.grows() && turn.after.threshold < turn.after.maximum_voltage),
    (REACHED, "energy grows at more than the target voltage", |turn| turn.grows() && turn.after.threshold > turn.after.car.target_voltage),
    (REACHED, "energy kept by an urgent stop that cuts a command off", |turn| turn.lowered_into(9) && turn.keeps_energy()),
    (HANDED_IN, "energy kept at age 30 with a command cut off", |turn| turn.lowered_into(8) && turn.keeps_energy()),
    (REACHED, "energy cleared by a start", |turn| turn.clears()),
    (HANDED_IN, "energy cleared from its largest value", |turn| turn.clears() && turn.room() == 0),
    (REACHED, "energy kept in 0, start button pressed", |turn| turn.stayed_in(0) && turn.keeps_energy()
        && turn.input[input_place::CONTACTS] & contact::START_BUTTON != 0),

    (REACHED, "offered less than the rating by the move from 5", |turn| turn.moved_from(5) && turn.offer() < turn.rated()),
    (REACHED, "the level in 6 is the rating's watts", |turn| turn.after.phase == 6 && turn.level == turn.rated() * turn.volts()),
    (REACHED, "the level in 6 is a watt below the rating's watts", |turn| turn.after.phase == 6
        && turn.level + 1 == turn.rated() * turn.volts()),
    (REACHED, "the level in 6 is above the rating's watts", |turn| turn.after.phase == 6 && turn.level > turn.rated() * turn.volts()),
    (REACHED, "the level in 6 carries more than a byte of amperes, its low byte less than the rating", |turn| turn.after.phase == 6
        && turn.level / turn.volts() > 0xFF && turn.level / turn.volts() % 0x100 < turn.rated()),
    (REACHED, "the level in 6 is whole amperes below the rating", |turn| turn.left_over() == Some(0) && turn.offer() > 0),
    (REACHED, "the level in 6 is a watt above whole amperes", |turn| turn.left_over() == Some(1) && turn.offer() > 0),
    (REACHED, "the level in 6 is a watt below whole amperes", |turn| turn.left_over() == Some(turn.volts() - 1) && turn.offer() > 0),
    (REACHED, "the level in 6 is above 0 and below an ampere", |turn| turn.after.phase == 6 && turn.level > 0 && turn.level < turn.volts()),
    (REACHED, "nothing asked for in 6, and nothing offered", |turn| turn.after.phase == 6 && turn.want == 0 && turn.offer() == 0),
    (REACHED, "nothing asked for in 6, and less than the rating offered", |turn| turn.left_over().is_some() && turn.want == 0 && turn.offer() > 0),
    (REACHED, "offered more than commanded in 6 and less than the rating", |turn| turn.left_over().is_some()
        && turn.offer() > turn.after.command.into()),
    (REACHED, "offered less than wanted in 6, and commanded just that", |turn| turn.left_over().is_some() && turn.is_short()
        && turn.offer() > 0 && turn.offer() == turn.after.command.into()),

    (REACHED, "reason remains in 7", |turn| turn.stopped_in(7) && turn.before.reason != 0 && turn.after.reason == turn.before.reason),
    (REACHED, "reason remains in 8", |turn| turn.stopped_in(8) && turn.before.reason != 0 && turn.after.reason == turn.before.reason),
    // A session enters 7 and 8 by a stop only, and 1 to 6 without a reason.
    (HANDED_IN, "reason 0 remains in 7", |turn| turn.stopped_in(7) && turn.after.reason == 0),
    (HANDED_IN, "reason 0 remains in 8", |turn| turn.stopped_in(8) && turn.after.reason == 0),
    (HANDED_IN, "reason overwritten in 1-6", |turn| turn.before.reason != 0 && turn.after.reason != 0
        && turn.before.reason != turn.after.reason),
    (HANDED_IN, "reason handed in stays in 1-6", |turn| turn.decision == Decision::Stayed && turn.began_in(1..=6)
        && turn.before.reason != 0 && turn.after.reason == turn.before.reason),
    (REACHED, "reason cleared by a start", |turn| turn.moved_from(0) && turn.before.reason != 0),
    (REACHED, "reason shown in 0", |turn| turn.stayed_in(0) && turn.before.reason != 0),
    (REACHED, "stop 20 for a system fault alone", |turn| turn.stopped_for_faults(0, SYSTEM_FAULT)),

    (REACHED, "permission opens in 2-6, enabled after an earlier H'102 that was not", |turn| turn.opens()
        && turn.sent.status.is_some_and(|status| status.enabled()) && turn.enabled_by(true).any(|enabled| !enabled)),
    (REACHED, "permission opens in 2-6, not enabled after an earlier H'102 that was", |turn| turn.withdraws()
        && turn.enabled_by(true).any(|enabled| enabled)),
    (REACHED, "permission opens in 2-6, not enabled only by a wrong length", |turn| turn.opens()
        && turn.enabled_by(true).all(|enabled| enabled) && turn.enabled_by(false).any(|enabled| !enabled)),
    (REACHED, "permission opens in 2-6, enabled only by a wrong length", |turn| turn.withdraws()
        && turn.enabled_by(true).all(|enabled| !enabled) && turn.enabled_by(false).any(|enabled| enabled)),
    (REACHED, "permission opens in 2-6, not enabled only past the count", |turn| turn.opens()
        && turn.enabled_by(true).all(|enabled| enabled) && turn.past_the_count.withdraws()),
    (REACHED, "permission opens in 2-6, enabled only past the count", |turn| turn.withdraws()
        && turn.enabled_by(true).all(|enabled| !enabled) && turn.past_the_count.status.is_some_and(|status| status.enabled())),
    (HANDED_IN, "permission opens in 2-6, not enabled only as remembered", |turn| turn.opens()
        && turn.sent.status.is_none() && !turn.after.car.enabled()),
    (HANDED_IN, "permission opens in 2-6, not enabled now and as remembered", |turn| turn.withdraws() && !turn.before.car.enabled()),
    (REACHED, "command cut off where permission opens, not enabled", |turn| turn.withdraws() && turn.lowered_into(9)),
    (REACHED, "reason remains where permission opens in 7, not enabled", |turn| turn.stopped_for(14) && turn.began_in(7..=7)
        && turn.sent.withdraws() && turn.before.reason != 0 && turn.after.reason == turn.before.reason),
    (HANDED_IN, "reason 0 remains where permission opens in 7, not enabled", |turn| turn.stopped_for(14) && turn.began_in(7..=7)
        && turn.sent.withdraws() && turn.after.reason == 0),
    (HANDED_IN, "reason overwritten where permission opens in 2-6, not enabled", |turn| turn.withdraws() && turn.before.reason != 0
        && turn.before.reason != turn.after.reason),

    (REACHED, "age 29 doesn't end 7", |turn| turn.stayed_in(7) && turn.before.age == RAMP_DOWN_LIMIT - 1),
    (REACHED, "7 to 8 at age 30 with more than 49 tenths", |turn| turn.moved_from(7)
        && turn.before.age == RAMP_DOWN_LIMIT && turn.measured.is_some_and(|of| of.amperes > SAFE_AMPERES_IN_TENTHS)),
    (REACHED, "age 39 doesn't end 8", |turn| turn.stayed_in(8) && turn.before.age == CONTACTOR_OPENING_LIMIT - 1),
    (REACHED, "8 to 9 at age 40, contactor closed", |turn| turn.moved_from(8)
        && turn.before.age == CONTACTOR_OPENING_LIMIT && !turn.after.car.contactor_open()),
    // No session is so long, and no silence of one passes 141: 99 ticks in 1, one in 2, 41 in 8.
    (HANDED_IN, "age 4,294,967,294 grows", |turn| turn.before.age == u32::MAX - 1 && turn.after.age == u32::MAX),
    (HANDED_IN, "age 4,294,967,295 stays", |turn| turn.before.age == u32::MAX && turn.after.age == u32::MAX),
    (HANDED_IN, "silence 254 grows", |turn| turn.before.silence == 254 && turn.after.silence == 255),
    (HANDED_IN, "silence 255 stays", |turn| turn.before.silence == 255 && turn.after.silence == 255 && turn.began_in(1..=8)),
    (HANDED_IN, "silence 255 ends", |turn| turn.before.silence == 255 && turn.after.silence == 0),
    (REACHED, "silence just below the limit in 2-6", |turn| turn.after.silence == SILENCE_LIMIT - 1 && turn.began_in(2..=6)),
    (REACHED, "silence at the limit in 1", |turn| turn.after.silence == SILENCE_LIMIT && turn.began_in(1..=1)),
    (REACHED, "silence at the limit in 7 or 8", |turn| turn.after.silence == SILENCE_LIMIT && turn.began_in(7..=8)),
    (REACHED, "silence kept in 0, 9, 10", |turn| turn.before.silence.min(turn.after.silence) > 0
        && matches!(turn.before.phase, 0 | 9 | 10)),

    (REACHED, "two frames of one identifier", |turn| turn.twice(true)),
    (REACHED, "a wrong length", |turn| KNOWN.iter().any(|&known| turn.lengths_right(known).any(|right| !right))),
    (REACHED, "a wrong length after a right one", |turn| turn.twice(false)),
    (REACHED, "another identifier", |turn| turn.frames().any(|record| !KNOWN.contains(&number(record, 0)))),

    (REACHED, "connector volts 0 of a negative difference", |turn| turn.measured.is_some()
        && turn.value(AMPERES).map(|amperes| turn.standing.rating.cable_resistance * amperes) > turn.value(VOLTS)),
    (REACHED, "the most amperes up to rated + 2.5 in 5-7", |turn| turn.began_in(5..=7) && !turn.is_stopped()
        && turn.value(AMPERES) == turn.most_amperes_within(turn.standing.most_amperes())),
    (REACHED, "amperes just above rated + 2.5", |turn| turn.stopped_for(17)
        && turn.value(AMPERES) == turn.most_amperes_within(turn.standing.most_amperes()).map(f32::next_up)),
    (REACHED, "stop 16 by an upper end above 1,000 V", |turn| turn.stopped_for(16) && turn.ends_above(meter_of_volts, MOST_VOLTS)),
    (REACHED, "4 stays by an upper end above 1,000 V", |turn| turn.stayed_in(4) && turn.ends_above(meter_of_volts, MOST_VOLTS)),
    (REACHED, "9 stays by an upper end above 1,000 V", |turn| turn.stayed_in(9) && turn.ends_above(meter_of_volts, MOST_VOLTS)),
    (REACHED, "stop 17 by an upper end above 400 A", |turn| turn.stopped_for(17) && turn.ends_above(meter_of_amperes, MOST_AMPERES)),
    // Question 15 asks about the reading itself.
    (REACHED, "1,000 V and 400 A are good in 3, both errors above 0", |turn| turn.began_in(3..=3) && !turn.is_stopped()
        && turn.value(VOLTS) == Some(MOST_VOLTS) && turn.value(AMPERES) == Some(MOST_AMPERES) && turn.shows(|_| true)),
    (REACHED, "amperes 255 shown as they are", |turn| matches!(turn.after.phase, 1..=9)
        && turn.measured.is_some_and(|of| of.amperes.rounded_up() == MOST_AMPERES_SHOWN.into())),
    (REACHED, "amperes above 255 shown as 255", |turn| matches!(turn.after.phase, 1..=9)
        && turn.measured.is_some_and(|of| of.amperes > Tenths::of_whole(MOST_AMPERES_SHOWN)) && u16::from(turn.h109(3)) == MOST_AMPERES_SHOWN),
    (REACHED, "49 tenths end 7", |turn| turn.moved_from(7) && turn.value(AMPERES) == Some(largest(SAFE_AMPERES_IN_TENTHS))
        && turn.before.age < RAMP_DOWN_LIMIT),
    // The float nearest to 4.9. Ten times it, worked out in f32, would be 49.
    (REACHED, "4.9 A, which are 50 tenths, don't end 7", |turn| turn.stayed_in(7) && turn.before.command == 0
        && turn.value(AMPERES) == Some(largest(SAFE_AMPERES_IN_TENTHS).next_up())),
    (REACHED, "0 A end 7 with an error of 49", |turn| turn.moved_from(7) && turn.before.age < RAMP_DOWN_LIMIT
        && turn.shows_no_amperes(SAFE_AMPERES_IN_TENTHS)),
    (REACHED, "0 A don't end 7 with an error of 50", |turn| turn.stayed_in(7) && turn.before.command == 0 && turn.shows_no_amperes(MOST_ERROR)),
    (REACHED, "0 A, and 7 to 8 at age 30 with an error of 50", |turn| turn.moved_from(7) && turn.before.age == RAMP_DOWN_LIMIT
        && turn.before.command == 0 && turn.shows_no_amperes(MOST_ERROR)),
    (REACHED, "H'109 with fewer volts and amperes than their upper ends", |turn|
        turn.shows(|both| both.iter().all(|of| of.tenths.rounded_up() < of.upper_end().rounded_up()))),
    (REACHED, "H'109 with 0 V and 0 A, both errors above 0", |turn| turn.shows(|both| both.iter().all(|of| of.tenths == Tenths(0)))),
    (REACHED, "amperes up to 255 shown, the upper end above it", |turn| turn.shows(|[_, of]| {
        let most = Tenths::of_whole(MOST_AMPERES_SHOWN);
        of.tenths <= most && of.upper_end() > most
    })),
    (REACHED, "H'109 with volts and amperes rounded up", |turn| matches!(turn.after.phase, 1..=9)
        && turn.measured.is_some_and(|of| !is_whole(of.connector_volts) && !is_whole(of.amperes))),
    (REACHED, "H'109 with whole volts and amperes above 0", |turn| matches!(turn.after.phase, 1..=9)
        && turn.measured.is_some_and(|of| is_whole(of.connector_volts) && is_whole(of.amperes) && of.connector_volts.min(of.amperes) > Tenths(0))),
    (REACHED, "no good reading in 9", |turn| turn.stayed_in(9) && turn.measured.is_none()),
    (REACHED, "insulation at its least", |turn| turn.moved_from(3) && turn.value(OHMS) == Some(turn.standing.least_ohms())),
    (REACHED, "insulation just below its least", |turn| turn.stopped_for(27)
        && turn.value(OHMS) == Some(turn.standing.least_ohms().next_down())),
    (REACHED, "insulation plus infinity", |turn| turn.moved_from(3) && turn.value(OHMS) == Some(f32::INFINITY)),

    (REACHED, "test volts", |turn| number(&turn.output, output_place::TEST_VOLTS) != 0),
    (REACHED, "no remaining time in 1 or 7-9, H'FF kept", |turn| turn.keeps_time(7..=9, true) || turn.keeps_time(1..=1, true)),

    (HANDED_IN, "good: threshold 50", |turn| turn.before.threshold == LEAST_VOLTS),
    (HANDED_IN, "good: threshold rated", |turn| turn.before.threshold == turn.standing.rating.volts),
    (HANDED_IN, "good: threshold 0 in 8-10", |turn| turn.before.threshold == 0 && turn.began_in(8..=10)),
    (HANDED_IN, "good: command rated", |turn| turn.before.command == turn.standing.rating.amperes),
    (HANDED_IN, "good: the least reason", |turn| turn.before.reason == reasons()[0]),
    (HANDED_IN, "good: the highest reason", |turn| turn.before.reason == reasons()[1]),
];
