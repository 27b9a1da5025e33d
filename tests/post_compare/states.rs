//! States to hand in: good leads of every phase, with fields moved to either side of the edges of
//! "a good one" and of what the rules ask.

use second::frames::{CarStatus, ChargingTime, ENABLED, FAULTS, IN_MINUTES};
use second::lead::*;
use second::post::{head_place, HEAD_BYTES, MOST_RATED_AMPERES, MOST_RATED_VOLTS};
use second::sharing::MOST_LEADS;
use shared::dice::Dice;
use shared::numbers::Numbers;
use shared::post::number;
use shared::scene::NOT_READY;
use shared::stops::{any_question, reasons};

use crate::compare::Call;
use crate::flaws::{a_record, spare_byte, spoil_length};
use crate::numbers;
use crate::turns::turns;

/// Any state: now and then with a bad head or length, with fields moved.
pub fn any(dice: &mut Dice) -> Vec<u8> {
    let mut numbers = numbers::good(1 + dice.below(MOST_LEADS as u32), dice);
    if dice.one_in(6) {
        numbers::spoil(&mut numbers, dice);
    }
    let mut state = post_of(numbers, dice, |rating, dice| {
        let phase = dice.below(u32::from(LAST_PHASE) + 1) as u8;
        // Where there can be no threshold there are not all phases.
        let without = dice.pick(&[0, 1, 8, 9, 10]);
        let can_charge = rating.volts >= LEAST_VOLTS;
        good_lead(if can_charge { phase } else { without }, rating, dice)
    });
    for _ in 0..dice.pick(&[0, 1, 1, 1, 2, 3, 6, 12]) {
        move_a_field(&mut state, dice);
    }
    if dice.one_in(15) {
        spoil_length(&mut state, STATE_BYTES, dice);
    }
    state
}

/// Leads that charge, ramp down or are about to; now and then four of them with the most power that
/// there is.
pub fn sharing(dice: &mut Dice) -> Vec<u8> {
    let most_power = dice.one_in(8);
    let leads = dice.pick(&[1, 2, 3, 3, 4, 4]);
    let mut numbers = numbers::good(leads, dice);
    if most_power {
        (numbers.volts, numbers.amperes) = (MOST_RATED_VOLTS, MOST_RATED_AMPERES);
        numbers.leads = MOST_LEADS as u32;
    }
    post_of(numbers, dice, |rating, dice| {
        let phase = dice.pick(&[5, 6, 6, 6, 6, 7, 7]);
        let mut lead = good_lead(if most_power { 6 } else { phase }, rating, dice);
        if most_power {
            lead.threshold = rating.volts;
            lead.command = rating.amperes - dice.below(3) as u8;
            lead.car.requested_amperes = 255;
        }
        lead
    })
}

fn post_of<L: Fn(&Rating, &mut Dice) -> Lead>(of: Numbers, dice: &mut Dice, lead: L) -> Vec<u8> {
    let head = numbers::head(of);
    let rating = numbers::rating(numbers::of_head(&head));
    let mut state = head.to_vec();
    for _ in 0..head[head_place::LEADS] {
        let mut record = [0; STATE_BYTES];
        lead(&rating, dice).write(&mut record);
        state.extend_from_slice(&record);
    }
    state
}

/// About as sessions reach it.
fn good_lead(phase: u8, rating: &Rating, dice: &mut Dice) -> Lead {
    let threshold = draw_threshold(phase, rating, dice);
    let reason = any_question(dice).number * dice.pick(&[0, 1, 1]);
    let command = dice.below(u32::from(rating.amperes) + 1) as u8;
    let seen = dice.byte() & SEEN_ALL;
    Lead {
        phase,
        reason: if matches!(phase, 1..=6) { 0 } else { reason },
        command: if matches!(phase, 6 | 7) { command } else { 0 },
        energy: draw_energy(dice),
        car: CarStatus {
            target_voltage: between(LEAST_VOLTS, threshold, dice),
            requested_amperes: dice.byte() | dice.byte(),
            faults: dice.byte() & !FAULTS,
            status: dice.byte() & 0xE0 | if phase < 6 { NOT_READY } else { ENABLED },
        },
        silence: dice.below(SILENCE_LIMIT.into()) as u8,
        seen: if phase == 1 { seen } else { SEEN_ALL },
        threshold,
        maximum_voltage: threshold.max(LEAST_VOLTS),
        charging_time: ChargingTime {
            byte_1: dice.pick(&[1, 60, 254, IN_MINUTES]),
            byte_2: dice.pick(&[1, 30, 255]),
        },
        age: match AGE_LIMITS.get(usize::from(phase)) {
            Some(&limit) if limit > 0 => dice.below(limit),
            _ => dice.below(45),
        },
    }
}

fn draw_threshold(phase: u8, rating: &Rating, dice: &mut Dice) -> u16 {
    if phase == 1 || rating.volts < LEAST_VOLTS || (!matches!(phase, 2..=7) && dice.one_in(3)) {
        return 0;
    }
    let any = between(LEAST_VOLTS, rating.volts, dice);
    dice.pick(&[LEAST_VOLTS, rating.volts, any])
}

/// Nothing is asked of it: none, one byte alone, a number of fewer bits, any.
fn draw_energy(dice: &mut Dice) -> u64 {
    let any = u64::from_le_bytes(dice.bytes());
    let byte = u64::from(dice.byte()) << whole_bytes(dice);
    let short = any >> dice.below(u64::BITS);
    dice.pick(&[0, byte, short, any])
}

/// In bits, and not all that an energy has.
fn whole_bytes(dice: &mut Dice) -> u32 {
    8 * dice.below(u64::BITS / 8)
}

/// Hands in energies that the tick brings to an edge, or finds there: where some of the low bits
/// are full, or all bits.
pub fn move_energies(call: &mut Call, dice: &mut Dice) {
    // A tick that is refused adds nothing.
    let Some(turns) = turns(&call.state, &call.input) else {
        return;
    };
    let (records, _) = call.state[HEAD_BYTES..].as_chunks_mut::<STATE_BYTES>();
    for (turn, record) in turns.iter().zip(records) {
        let some = whole_bytes(dice);
        let full = dice.pick(&[some, u64::BITS / 2, u64::BITS]);
        let above = u64::from_le_bytes(dice.bytes());
        // Past all bits stands 0 again.
        let edge = above.checked_shl(full).unwrap_or(0);
        let watts = turn.watts() * dice.pick(&[0, 1, 1]);
        let beside = dice.pick(&[-2, -1, 0, 1]);
        let energy = edge.wrapping_sub(watts).wrapping_add_signed(beside);
        record[place::ENERGY..place::SPARE].copy_from_slice(&energy.to_le_bytes());
    }
}

/// At least `least`, though `most` be below it.
fn between(least: u16, most: u16, dice: &mut Dice) -> u16 {
    least + dice.below(u32::from(most.saturating_sub(least)) + 1) as u16
}

pub fn around(number: u16) -> [u16; 3] {
    [number.saturating_sub(1), number, number.saturating_add(1)]
}

fn move_a_field(state: &mut [u8], dice: &mut Dice) {
    let head = state.first_chunk().map(numbers::of_head);
    let record = a_record::<STATE_BYTES>(state, HEAD_BYTES, dice);
    if let (Some(head), Some(record)) = (head, record) {
        let fields = edges(record, &numbers::rating(head), dice);
        let (at, bytes, values) = &fields[dice.below(fields.len() as u32) as usize];
        let value = dice.pick(values).to_le_bytes();
        record[*at..][..*bytes].copy_from_slice(&value[..*bytes]);
    }
}

/// Fields by place and length, with values on either side of what "a good one" and the rules ask of
/// them. What is asked about often stands there twice.
#[rustfmt::skip]
fn edges(record: &[u8; STATE_BYTES], rating: &Rating, dice: &mut Dice) -> Vec<(usize, usize, Vec<u32>)> {
    let wide = |numbers: &[u16]| numbers.iter().map(|&number| number.into()).collect::<Vec<u32>>();
    let [below, rated, above] = around(rating.volts);
    let [low, least, more] = around(LEAST_VOLTS);
    let thresholds = wide(&[0, 0, 1, low, least, more, below, rated, rated, above, 256, u16::MAX]);
    let [below, threshold, above] = around(number(record, place::THRESHOLD));
    let voltages = wide(&[0, low, least, below, threshold, above, u16::MAX, dice.below(600) as u16]);
    let [first, last] = reasons().map(u32::from);
    let last_phase = u32::from(LAST_PHASE);
    let [amperes, command] = [rating.amperes, record[place::COMMAND]].map(u32::from);
    let (limit, limit_19) = (age_limit(record), u32::from(SILENCE_LIMIT));
    vec![
        (place::PHASE, 1, (0..=last_phase).collect()),
        (place::PHASE, 1, vec![last_phase, last_phase + 1, 12, 128, 255]),
        (place::REASON, 1, vec![0, 1, first - 1, first, last, last + 1, 128, 255]),
        (place::REASON, 1, vec![any_question(dice).number.into()]),
        (place::COMMAND, 1, vec![0, 1, amperes.saturating_sub(1), amperes, amperes + 1, 255]),
        (place::COMMAND, 1, vec![amperes + 1]),
        (place::SEEN, 1, vec![0, 1, 2, 3, 4, 5, 6, 7, 8, 16, 32, 64, 128, 255]),
        (place::THRESHOLD, 2, thresholds.clone()),
        (place::THRESHOLD, 2, thresholds),
        (spare_byte(dice), 1, vec![1, 2, 128, 255]),
        (place::AGE, 4, vec![0, limit.saturating_sub(1), limit, limit + 1]),
        (place::AGE, 4, vec![limit.saturating_sub(1), limit]),
        (place::AGE, 4, vec![256, 65_536, 16_777_216, u32::MAX - 1, u32::MAX]),
        (place::SILENCE, 1, vec![limit_19 - 2, limit_19 - 1, limit_19, 100, 254, 255]),
        (place::MAXIMUM_VOLTAGE, 2, voltages.clone()),
        (place::TARGET_VOLTAGE, 2, voltages),
        (place::TIME_BYTE_1, 1, vec![0, IN_MINUTES.into()]),
        (place::REQUEST, 1, vec![0, command.saturating_sub(1), command + dice.below(4), amperes]),
        (place::FAULTS, 1, vec![1 << dice.below(8), dice.below(256)]),
        (place::STATUS, 1, vec![u32::from(record[place::STATUS]) ^ 1 << dice.below(8), dice.below(256)]),
    ]
}

fn age_limit(record: &[u8; STATE_BYTES]) -> u32 {
    let [byte_1, byte_2] = [place::TIME_BYTE_1, place::TIME_BYTE_2].map(|at| record[at]);
    match record[place::PHASE] {
        phase @ 1..=5 => AGE_LIMITS[usize::from(phase)],
        6 => ChargingTime { byte_1, byte_2 }.ticks().0,
        7 => RAMP_DOWN_LIMIT,
        8 => CONTACTOR_OPENING_LIMIT,
        _ => 1,
    }
}
