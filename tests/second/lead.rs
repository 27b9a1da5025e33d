//! One lead: its record in the state, its input, its tick, its output.
//!
//! A tick of a lead has two halves, as the division of the allowance lies
//! between them: `advance` hears, asks and moves; `take` commands what the
//! level allows and counts its energy. `output` then shows the state after the
//! tick, but for the energy, which is not shown, and beside it the amperes that
//! the level lets the lead offer, which are not remembered.

use crate::frames::{self, CarStatus, ChargerFlags, ChargingTime, Heard, Record, Ticks};
use crate::readings::{insulation_holds, Measured, Meter, Reading, Tenths};

pub const STATE_BYTES: usize = 32;
pub const INPUT_BYTES: usize = 104;
pub const OUTPUT_BYTES: usize = 24;

/// Places in a lead's part of the state.
pub mod place {
    pub const PHASE: usize = 0;
    pub const REASON: usize = 1;
    pub const COMMAND: usize = 2;
    pub const REQUEST: usize = 3;
    pub const FAULTS: usize = 4;
    pub const STATUS: usize = 5;
    pub const SILENCE: usize = 6;
    pub const SEEN: usize = 7;
    pub const THRESHOLD: usize = 8;
    pub const MAXIMUM_VOLTAGE: usize = 10;
    pub const TARGET_VOLTAGE: usize = 12;
    pub const TIME_BYTE_1: usize = 14;
    pub const TIME_BYTE_2: usize = 15;
    pub const AGE: usize = 16;
    /// 2026-01: "a count of watt-ticks in eight of the lead's spare state bytes
    /// (20–27)."
    pub const ENERGY: usize = 20;
    pub const SPARE: usize = 28;
}

/// Places in a lead's part of the input.
pub mod input_place {
    pub const CONTACTS: usize = 0;
    pub const PRESENT: usize = 1;
    pub const COUNT: usize = 2;
    pub const SPARE: usize = 3;
    pub const VOLTS: usize = 4;
    pub const AMPERES: usize = 8;
    pub const OHMS: usize = 12;
    pub const FRAMES: usize = 16;
}

/// Places in a lead's part of the output.
pub mod output_place {
    pub const PHASE: usize = 0;
    pub const REASON: usize = 1;
    pub const COMMAND: usize = 2;
    pub const SWITCHES: usize = 3;
    pub const TEST_VOLTS: usize = 4;
    pub const SPARE: usize = 6;
    pub const H108: usize = 8;
    pub const H109: usize = 16;
}

/// Output byte 3.
pub mod switch {
    pub const D1: u8 = 1 << 0;
    pub const D2: u8 = 1 << 1;
    pub const LOCK: u8 = 1 << 2;
    pub const FRAMES: u8 = 1 << 3;
}

/// Seen bits.
pub const SEEN_LIMITS: u8 = 1 << 0;
pub const SEEN_TIMES: u8 = 1 << 1;
pub const SEEN_STATUS: u8 = 1 << 2;
pub const SEEN_ALL: u8 = SEEN_LIMITS | SEEN_TIMES | SEEN_STATUS;

/// Contacts closed or pressed, byte 0 of a lead's input.
pub mod contact {
    pub const PLUG: u8 = 1 << 0;
    pub const CHARGE_PERMISSION: u8 = 1 << 1;
    pub const CONNECTOR_LOCK: u8 = 1 << 2;
    pub const EMERGENCY_STOP: u8 = 1 << 3;
    pub const STOP_BUTTON: u8 = 1 << 4;
    pub const START_BUTTON: u8 = 1 << 5;
    pub const GROUND_FAULT: u8 = 1 << 6;
    pub const SPARE: u8 = 1 << 7;
}

/// Readings present, byte 1 of a lead's input.
pub mod present {
    pub const VOLTS: u8 = 1 << 0;
    pub const AMPERES: u8 = 1 << 1;
    pub const RESISTANCE: u8 = 1 << 2;
    pub const SPARE: u8 = 0xF8;
}

/// A lead's input holds eight frame records.
pub const FRAME_RECORDS: usize = 8;

pub const LAST_PHASE: u8 = 10;
pub const REASON_NONE: u8 = 0;

/// Question 21, and the least threshold that is kept.
pub const LEAST_VOLTS: u16 = 50;
/// 2026-04: "Question 17 allows rated + 2.5 A."
pub const AMPERES_OVER_RATED_IN_TENTHS: Tenths = Tenths(25);
/// Question 19: "silence below 10".
pub const SILENCE_LIMIT: u8 = 10;
/// Question 28, phases 1 to 5; there is no phase 0 in its bracket.
pub const AGE_LIMITS: [u32; 6] = [0, 100, 20, 150, 50, 100];
/// The moves 4 to 5 and 9 to 10: "connector volts at most 10".
pub const SAFE_VOLTS_IN_TENTHS: Tenths = Tenths::of_whole(10);
/// The move 7 to 8. 2026-04: "phase 7's ampere limit is 49 tenths."
pub const SAFE_AMPERES_IN_TENTHS: Tenths = Tenths(49);
/// The move 7 to 8: "or age 30 or more".
pub const RAMP_DOWN_LIMIT: u32 = 30;
/// The move 8 to 9: "age 40 or more".
pub const CONTACTOR_OPENING_LIMIT: u32 = 40;
/// The wants in 6 and 7: "command + 2", "command − 10".
pub const RAMP_UP: u8 = 2;
pub const RAMP_DOWN: u8 = 10;

/// What a lead is built for. The post gives it.
#[derive(Clone, Copy, Debug)]
pub struct Rating {
    pub volts: u16,
    pub amperes: u8,
    pub cable_resistance: f32,
    /// 2026-08: how far the meters may be off.
    pub volts_error: Tenths,
    pub amperes_error: Tenths,
}

// ---------------------------------------------------------------------------
// The lead's state

#[derive(Clone, Copy, Debug, PartialEq, Eq)]
pub struct Lead {
    pub phase: u8,
    pub reason: u8,
    pub command: u8,
    /// In watt-ticks, since the lead's start.
    pub energy: u64,
    pub car: CarStatus,
    pub silence: u8,
    pub seen: u8,
    pub threshold: u16,
    pub maximum_voltage: u16,
    pub charging_time: ChargingTime,
    pub age: u32,
}

type StateRecord = [u8; STATE_BYTES];

/// A part of tick's question 6, for one lead.
pub struct Condition {
    pub text: &'static str,
    pub holds: fn(&StateRecord, &Rating) -> bool,
}

const fn condition(text: &'static str, holds: fn(&StateRecord, &Rating) -> bool) -> Condition {
    Condition { text, holds }
}

/// "State a good one": what a lead's record owes to it. Of the energy (2026-01)
/// nothing is asked, in any phase.
#[rustfmt::skip]
pub const GOOD: [Condition; 9] = [
    condition("phase 0-10", |record, _| record[place::PHASE] <= LAST_PHASE),
    condition("reason 0 or 11-29", |record, _| matches!(record[place::REASON], REASON_NONE | 11..=29)),
    condition("command at most rated", |record, rating| record[place::COMMAND] <= rating.amperes),
    condition("command 0 outside 6 and 7", |record, _|
        matches!(record[place::PHASE], 6 | 7) || record[place::COMMAND] == 0),
    condition("seen 0-7", |record, _| record[place::SEEN] <= SEEN_ALL),
    condition("threshold 0 or 50 to rated volts", |record, rating| {
        let threshold = number_at(record, place::THRESHOLD);
        threshold == 0 || (LEAST_VOLTS..=rating.volts).contains(&threshold)
    }),
    condition("threshold 0 in phase 1", |record, _|
        record[place::PHASE] != 1 || number_at(record, place::THRESHOLD) == 0),
    condition("threshold not 0 in phases 2-7", |record, _|
        !matches!(record[place::PHASE], 2..=7) || number_at(record, place::THRESHOLD) != 0),
    condition("spare bytes 0", |record, _| record[place::SPARE..].iter().all(|&byte| byte == 0)),
];

/// The bytes of a number that begins in this place.
pub(crate) fn bytes_at<const N: usize>(record: &[u8], at: usize) -> [u8; N] {
    std::array::from_fn(|offset| record[at + offset])
}

fn number_at(record: &StateRecord, at: usize) -> u16 {
    u16::from_le_bytes(bytes_at(record, at))
}

impl Lead {
    /// The zeroed lead.
    pub const FRESH: Lead = Lead {
        phase: 0,
        reason: REASON_NONE,
        command: 0,
        energy: 0,
        car: CarStatus {
            target_voltage: 0,
            requested_amperes: 0,
            faults: 0,
            status: 0,
        },
        silence: 0,
        seen: 0,
        threshold: 0,
        maximum_voltage: 0,
        charging_time: ChargingTime {
            byte_1: 0,
            byte_2: 0,
        },
        age: 0,
    };

    /// `None` if the record is not a good one.
    pub fn read(record: &StateRecord, rating: &Rating) -> Option<Lead> {
        if !GOOD
            .iter()
            .all(|condition| (condition.holds)(record, rating))
        {
            return None;
        }
        Some(Lead {
            phase: record[place::PHASE],
            reason: record[place::REASON],
            command: record[place::COMMAND],
            energy: u64::from_le_bytes(bytes_at(record, place::ENERGY)),
            car: CarStatus {
                target_voltage: number_at(record, place::TARGET_VOLTAGE),
                requested_amperes: record[place::REQUEST],
                faults: record[place::FAULTS],
                status: record[place::STATUS],
            },
            silence: record[place::SILENCE],
            seen: record[place::SEEN],
            threshold: number_at(record, place::THRESHOLD),
            maximum_voltage: number_at(record, place::MAXIMUM_VOLTAGE),
            charging_time: ChargingTime {
                byte_1: record[place::TIME_BYTE_1],
                byte_2: record[place::TIME_BYTE_2],
            },
            age: u32::from_le_bytes(bytes_at(record, place::AGE)),
        })
    }

    pub fn write(&self, record: &mut StateRecord) {
        record[place::PHASE] = self.phase;
        record[place::REASON] = self.reason;
        record[place::COMMAND] = self.command;
        record[place::REQUEST] = self.car.requested_amperes;
        record[place::FAULTS] = self.car.faults;
        record[place::STATUS] = self.car.status;
        record[place::SILENCE] = self.silence;
        record[place::SEEN] = self.seen;
        record[place::THRESHOLD..place::MAXIMUM_VOLTAGE]
            .copy_from_slice(&self.threshold.to_le_bytes());
        record[place::MAXIMUM_VOLTAGE..place::TARGET_VOLTAGE]
            .copy_from_slice(&self.maximum_voltage.to_le_bytes());
        record[place::TARGET_VOLTAGE..place::TIME_BYTE_1]
            .copy_from_slice(&self.car.target_voltage.to_le_bytes());
        record[place::TIME_BYTE_1] = self.charging_time.byte_1;
        record[place::TIME_BYTE_2] = self.charging_time.byte_2;
        record[place::AGE..place::ENERGY].copy_from_slice(&self.age.to_le_bytes());
        record[place::ENERGY..place::SPARE].copy_from_slice(&self.energy.to_le_bytes());
        record[place::SPARE..].fill(0);
    }
}

// ---------------------------------------------------------------------------
// The lead's input

#[derive(Clone, Copy, Debug)]
pub struct Contacts(u8);

impl Contacts {
    pub fn plug(self) -> bool {
        self.0 & contact::PLUG != 0
    }

    pub fn charge_permission(self) -> bool {
        self.0 & contact::CHARGE_PERMISSION != 0
    }

    pub fn connector_lock(self) -> bool {
        self.0 & contact::CONNECTOR_LOCK != 0
    }

    pub fn emergency_stop(self) -> bool {
        self.0 & contact::EMERGENCY_STOP != 0
    }

    pub fn stop_button(self) -> bool {
        self.0 & contact::STOP_BUTTON != 0
    }

    pub fn start_button(self) -> bool {
        self.0 & contact::START_BUTTON != 0
    }

    pub fn ground_fault(self) -> bool {
        self.0 & contact::GROUND_FAULT != 0
    }
}

#[derive(Clone, Copy, Debug)]
pub struct Input<'a> {
    pub contacts: Contacts,
    /// `None` without a good reading.
    pub measured: Option<Measured>,
    /// In ohms.
    pub insulation_resistance: Reading,
    /// The records up to the count.
    pub frames: &'a [Record],
}

type InputRecord = [u8; INPUT_BYTES];

impl<'a> Input<'a> {
    pub const NOTHING: Input<'static> = Input {
        contacts: Contacts(0),
        measured: None,
        insulation_resistance: Reading::Missing,
        frames: &[],
    };

    /// `None` unless "every spare bit and byte 3 zero, counts at most 8".
    pub fn read(record: &'a InputRecord, rating: &Rating) -> Option<Input<'a>> {
        let contacts = record[input_place::CONTACTS];
        let present = record[input_place::PRESENT];
        let count = usize::from(record[input_place::COUNT]);
        let spare = record[input_place::SPARE];
        if contacts & contact::SPARE != 0 || present & present::SPARE != 0 || spare != 0 {
            return None;
        }
        let reading = |bit, at| Reading::from_bytes(present & bit != 0, bytes_at(record, at));
        let meter = Meter {
            volts: reading(present::VOLTS, input_place::VOLTS),
            amperes: reading(present::AMPERES, input_place::AMPERES),
            cable_resistance: rating.cable_resistance,
        };
        let (records, _) = record[input_place::FRAMES..].as_chunks();
        Some(Input {
            contacts: Contacts(contacts),
            measured: meter.measure(),
            insulation_resistance: reading(present::RESISTANCE, input_place::OHMS),
            // A count above 8 finds no such slice.
            frames: records.get(..count)?,
        })
    }
}

// ---------------------------------------------------------------------------
// Stop questions

/// What questions and moves may look at: the lead after hearing, this tick's
/// input, the rating.
struct Now<'a> {
    lead: &'a Lead,
    input: &'a Input<'a>,
    rating: &'a Rating,
}

/// A question is asked in the phases from `first` to `last`. Whether a no is an
/// urgent stop is said here, never taken from the number, nor from the reason shown:
/// 23 comes with stops of both kinds (2026-06).
pub struct Question {
    pub number: u8,
    pub urgent: bool,
    pub first: u8,
    pub last: u8,
    yes: fn(&Now) -> bool,
}

const URGENT: bool = true;
const ORDINARY: bool = false;

#[rustfmt::skip]
const fn question(number: u8, urgent: bool, first: u8, last: u8, yes: fn(&Now) -> bool) -> Question {
    Question { number, urgent, first, last, yes }
}

/// In the document's order: "the first 'no' is the stop". In phases 7 and 8
/// the brackets leave urgent questions only.
#[rustfmt::skip]
pub const QUESTIONS: [Question; 19] = [
    question(11, URGENT, 1, 8, |now| !now.input.contacts.emergency_stop()),
    question(12, URGENT, 1, 8, |now| now.input.contacts.plug()),
    question(13, URGENT, 1, 8, |now| !now.input.contacts.ground_fault()),
    question(14, URGENT, 2, 7, |now| now.input.contacts.charge_permission()),
    question(15, URGENT, 3, 7, |now| now.input.measured.is_some()),
    question(16, URGENT, 5, 7, |now| now.connector_volts_at_most(Tenths::of_whole(now.lead.threshold))),
    question(17, URGENT, 5, 7, |now| now.amperes_at_most(now.most_amperes())),
    question(18, URGENT, 3, 7, |now| now.input.contacts.connector_lock()),
    question(19, ORDINARY, 2, 6, |now| now.lead.silence < SILENCE_LIMIT),
    question(20, ORDINARY, 1, 6, |now| now.lead.car.faults_clear()),
    question(21, ORDINARY, 1, 6, |now| now.voltages_fit()),
    question(22, ORDINARY, 1, 6, |now| now.lead.car.in_park()),
    question(23, ORDINARY, 2, 6, |now| now.lead.car.enabled()),
    question(24, ORDINARY, 1, 6, |now| !now.lead.car.stop_request()),
    question(25, ORDINARY, 6, 6, |now| !now.lead.car.contactor_open()),
    question(26, ORDINARY, 1, 6, |now| !now.input.contacts.stop_button()),
    question(27, ORDINARY, 3, 3, |now| insulation_holds(now.input.insulation_resistance, now.lead.threshold)),
    question(28, ORDINARY, 1, 5, |now| now.lead.age < AGE_LIMITS[usize::from(now.lead.phase)]),
    question(29, ORDINARY, 6, 6, |now| Ticks(now.lead.age) < now.lead.charging_time.ticks()),
];

impl Now<'_> {
    /// 2026-04: "The 10 V limits and question 16 compare in tenths." 2026-08:
    /// "Questions 16 and 17, both 10 V limits and the end of phase 7 judge the upper
    /// end." "For connector volts the range is their tenths with the volts' e alone."
    fn connector_volts_at_most(&self, volts: Tenths) -> bool {
        let error = self.rating.volts_error;
        self.input
            .measured
            .is_some_and(|measured| measured.connector_volts.upper_end(error) <= volts)
    }

    /// 2026-08: "The amperes' e judges amperes only."
    fn amperes_at_most(&self, amperes: Tenths) -> bool {
        let error = self.rating.amperes_error;
        self.input
            .measured
            .is_some_and(|measured| measured.amperes.upper_end(error) <= amperes)
    }

    /// Question 17, 2026-04: "rated + 2.5 A".
    fn most_amperes(&self) -> Tenths {
        Tenths::of_whole(self.rating.amperes.into()) + AMPERES_OVER_RATED_IN_TENTHS
    }

    /// Question 21, asked once H'100 and H'102 are seen.
    fn voltages_fit(&self) -> bool {
        const NEEDED: u8 = SEEN_LIMITS | SEEN_STATUS;
        if self.lead.seen & NEEDED != NEEDED {
            return true;
        }
        // "In phase 1 question 21 works it out."
        let threshold = if self.lead.phase == 1 {
            self.lead.threshold_to_keep(self.rating)
        } else {
            self.lead.threshold
        };
        self.lead.maximum_voltage >= LEAST_VOLTS
            && (LEAST_VOLTS..=threshold).contains(&self.lead.car.target_voltage)
    }

    fn first_no(&self) -> Option<&'static Question> {
        let phase = self.lead.phase;
        QUESTIONS
            .iter()
            .filter(|question| (question.first..=question.last).contains(&phase))
            .find(|question| !(question.yes)(self))
    }

    fn next_phase(&self) -> Option<u8> {
        MOVES
            .iter()
            .find(|a_move| a_move.from == self.lead.phase && (a_move.open)(self))
            .map(|a_move| a_move.to)
    }
}

/// The reason that the stop of a question shows, where it records one: the
/// question's number, but for 2026-06. "In phases 2 to 6, with questions 11–13 yes,
/// permission open and an H'102 counted in this tick with enabled clear, the reason
/// is 23 and no longer 14; nothing else changes." As 14's no is the first, 11–13 got
/// a yes and permission is open; what 15–22 would answer does not matter. The stop
/// is still question 14's: "The lead still stops as urgent, with command 0 and phase
/// 9."
pub fn reason_of_no(question: u8, phase: u8, withdraws: bool) -> u8 {
    match (question, phase) {
        (14, 2..=6) if withdraws => 23,
        _ => question,
    }
}

/// "Phase 1 stops into 10. Urgent stops from 2–8 lead to 9. Others lead from
/// 2–5 to 8, from 6 to 7."
fn stop_leads_to(phase: u8, urgent: bool) -> u8 {
    match (phase, urgent) {
        (1, _) => 10,
        (_, true) => 9,
        (6, false) => 7,
        (_, false) => 8,
    }
}

// ---------------------------------------------------------------------------
// Phases

struct Move {
    from: u8,
    to: u8,
    open: fn(&Now) -> bool,
}

const fn a_move(from: u8, to: u8, open: fn(&Now) -> bool) -> Move {
    Move { from, to, open }
}

/// The ten moves.
#[rustfmt::skip]
const MOVES: [Move; 10] = [
    a_move(0, 1, |now| now.input.contacts.start_button() && now.input.contacts.plug()
        && !now.input.contacts.emergency_stop()),
    a_move(1, 2, |now| now.lead.seen & SEEN_ALL == SEEN_ALL
        && now.input.contacts.charge_permission() && now.lead.car.enabled()),
    a_move(2, 3, |now| now.input.contacts.connector_lock()),
    a_move(3, 4, |now| matches!(now.input.insulation_resistance, Reading::Value(_))),
    a_move(4, 5, |now| now.connector_volts_at_most(SAFE_VOLTS_IN_TENTHS)),
    a_move(5, 6, |now| !now.lead.car.contactor_open()),
    a_move(7, 8, |now| (now.lead.command == 0 && now.amperes_at_most(SAFE_AMPERES_IN_TENTHS))
        || now.lead.age >= RAMP_DOWN_LIMIT),
    a_move(8, 9, |now| now.lead.car.contactor_open() || now.lead.age >= CONTACTOR_OPENING_LIMIT),
    a_move(9, 10, |now| now.connector_volts_at_most(SAFE_VOLTS_IN_TENTHS)),
    a_move(10, 0, |now| !now.input.contacts.plug()),
];

/// What a lead's tick came to. A stop names the question that got the no; which
/// reason that shows, `reason_of_no` says.
#[derive(Clone, Copy, Debug, PartialEq, Eq)]
pub enum Decision {
    Stayed,
    Moved {
        from: u8,
        to: u8,
    },
    Stopped {
        question: u8,
        urgent: bool,
        from: u8,
        to: u8,
    },
}

impl Lead {
    /// Hears, asks, moves at most once. The command is left as it came in, for
    /// the division.
    pub fn advance(&mut self, input: &Input, rating: &Rating) -> Decision {
        let heard = self.hear(input.frames);
        let decision = self.decide(input, rating);
        match decision {
            Decision::Stayed => self.age = self.age.saturating_add(1),
            Decision::Moved { to, .. } => self.move_to(to, rating),
            Decision::Stopped {
                question, from, to, ..
            } => self.stop_into(to, reason_of_no(question, from, heard.withdraws())),
        }
        decision
    }

    /// "Take frames (phases 1–8); silence becomes 0 if an H'102 counted, else
    /// grows by 1 to 255 at most." H'100 and H'101 are ignored from phase 2 on.
    /// Given back is what this tick's frames say, nothing where none are taken.
    fn hear(&mut self, records: &[Record]) -> Heard {
        if !matches!(self.phase, 1..=8) {
            return Heard::default();
        }
        let heard = frames::hear(records);
        if self.phase == 1 {
            if let Some(maximum_voltage) = heard.maximum_voltage {
                self.maximum_voltage = maximum_voltage;
                self.seen |= SEEN_LIMITS;
            }
            if let Some(charging_time) = heard.charging_time {
                self.charging_time = charging_time;
                self.seen |= SEEN_TIMES;
            }
        }
        match heard.status {
            Some(status) => {
                self.car = status;
                self.seen |= SEEN_STATUS;
                self.silence = 0;
            }
            None => self.silence = self.silence.saturating_add(1),
        }
        heard
    }

    fn decide(&self, input: &Input, rating: &Rating) -> Decision {
        let now = Now {
            lead: self,
            input,
            rating,
        };
        let from = self.phase;
        if let Some(question) = now.first_no() {
            return Decision::Stopped {
                question: question.number,
                urgent: question.urgent,
                from,
                to: stop_leads_to(from, question.urgent),
            };
        }
        match now.next_phase() {
            Some(to) => Decision::Moved { from, to },
            None => Decision::Stayed,
        }
    }

    fn move_to(&mut self, phase: u8, rating: &Rating) {
        match phase {
            // "Then everything remembered is zeroed." The energy too: 2026-01,
            // "zeroed at each start", and by no other move or stop.
            1 => *self = Lead::FRESH,
            2 => self.threshold = self.threshold_to_keep(rating),
            _ => {}
        }
        self.phase = phase;
        self.age = 0;
    }

    /// "In 7 and 8 ... the reason recorded first remains, a 0 in a state handed
    /// in too."
    fn stop_into(&mut self, phase: u8, reason: u8) {
        if !matches!(self.phase, 7 | 8) {
            self.reason = reason;
        }
        self.phase = phase;
        self.age = 0;
    }

    /// "The threshold is the smaller of rated volts and maximum battery
    /// voltage."
    fn threshold_to_keep(&self, rating: &Rating) -> u16 {
        self.maximum_voltage.min(rating.volts)
    }

    /// With the new phase and the command that came in.
    fn want_amperes(&self, rating: &Rating) -> u8 {
        match self.phase {
            6 => self
                .car
                .requested_amperes
                .min(rating.amperes)
                .min(self.command.saturating_add(RAMP_UP)),
            7 => self.command.saturating_sub(RAMP_DOWN),
            _ => 0,
        }
    }

    /// The want in watts, after `advance`.
    pub fn want(&self, rating: &Rating) -> u32 {
        u32::from(self.want_amperes(rating)) * u32::from(self.threshold)
    }

    /// "Each new command is that smaller number divided by the threshold,
    /// rounded down; outside 6 and 7 it is 0." There the want is 0, and so is
    /// the quotient.
    pub fn take(&mut self, level: u32, rating: &Rating) {
        self.command = self.whole_amperes(self.want(rating).min(level)) as u8;
        self.count_energy();
    }

    /// Watts "divided by the threshold, rounded down". Command and offer share it,
    /// as 2026-05 wants that "no lead is ever commanded above its own byte 3". The
    /// threshold of a lead in 6 or 7 is not 0; without one, watts carry no ampere.
    fn whole_amperes(&self, watts: u32) -> u32 {
        watts.checked_div(u32::from(self.threshold)).unwrap_or(0)
    }

    /// 2026-01: "Every tick adds command × threshold to a count of watt-ticks."
    /// The new command and the kept threshold, in 6 and 7 alike; elsewhere the
    /// command is 0. "It stops at its largest value", which the last addition
    /// reaches, cut short if need be.
    fn count_energy(&mut self) {
        let watts = u64::from(self.command) * u64::from(self.threshold);
        self.energy = self.energy.saturating_add(watts);
    }
}

// ---------------------------------------------------------------------------
// The lead's output

impl Lead {
    /// "All show the state after the tick"; the lock contact and the reading
    /// are those of the tick's input, the level is the tick's own.
    pub fn output(
        &self,
        input: &Input,
        level: u32,
        rating: &Rating,
        output: &mut [u8; OUTPUT_BYTES],
    ) {
        output.fill(0);
        output[output_place::PHASE] = self.phase;
        output[output_place::REASON] = self.reason;
        output[output_place::COMMAND] = self.command;
        output[output_place::SWITCHES] = self.switches();
        output[output_place::TEST_VOLTS..output_place::SPARE]
            .copy_from_slice(&self.test_volts().to_le_bytes());
        if self.sends_frames() {
            output[output_place::H108..output_place::H109]
                .copy_from_slice(&self.charger_limits(level, rating));
            output[output_place::H109..].copy_from_slice(&self.charger_status(input));
        }
    }

    fn sends_frames(&self) -> bool {
        matches!(self.phase, 1..=9)
    }

    fn switches(&self) -> u8 {
        let mut switches = 0;
        if matches!(self.phase, 1..=8) {
            switches |= switch::D1;
        }
        if matches!(self.phase, 5..=8) {
            switches |= switch::D2;
        }
        if matches!(self.phase, 2..=9) {
            switches |= switch::LOCK;
        }
        if self.sends_frames() {
            switches |= switch::FRAMES;
        }
        switches
    }

    fn test_volts(&self) -> u16 {
        match self.phase {
            3 => self.threshold,
            _ => 0,
        }
    }

    fn charger_limits(&self, level: u32, rating: &Rating) -> frames::Data {
        let offered_amperes = self.offered_amperes(level, rating);
        frames::charger_limits(rating.volts, offered_amperes, self.threshold)
    }

    /// 2026-05: "byte 3, in phase 6, is the smaller of rated amperes and level ÷
    /// threshold rounded down, with this tick's level; elsewhere the rated
    /// amperes." The phase is the one after the tick, as in all that is shown. The
    /// level is the post's, whatever this lead wants or gets of it.
    fn offered_amperes(&self, level: u32, rating: &Rating) -> u8 {
        match self.phase {
            6 => self.whole_amperes(level).min(rating.amperes.into()) as u8,
            _ => rating.amperes,
        }
    }

    fn charger_status(&self, input: &Input) -> frames::Data {
        // 2026-04: "H'109 still carries whole numbers, rounded up from tenths."
        // Those of a good reading are at most 1000. They are the reading itself, without
        // the meters' errors.
        let whole = |tenths: Tenths| tenths.rounded_up() as u16;
        let (volts, amperes) = match input.measured {
            Some(measured) => (whole(measured.connector_volts), whole(measured.amperes)),
            None => (0, 0),
        };
        let flags = ChargerFlags {
            charging: matches!(self.phase, 6 | 7),
            charger_malfunction: matches!(self.reason, 13 | 15..=18 | 27),
            connector_locked: input.contacts.connector_lock(),
            battery_incompatible: self.reason == 21,
            system_malfunction: matches!(self.reason, 19 | 28),
            stop_control: self.phase != 6,
        };
        frames::charger_status(volts, amperes, flags, self.remaining_time())
    }

    fn remaining_time(&self) -> [u8; 2] {
        match self.phase {
            2..=5 => self.charging_time.remaining(Ticks(0)),
            6 => self.charging_time.remaining(Ticks(self.age)),
            _ => [0, 0],
        }
    }
}
