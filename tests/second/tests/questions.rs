use super::*;
use crate::frames::{NOT_IN_PARK, STOP_REQUEST, SYSTEM_FAULT};
use crate::lead::QUESTIONS;
use std::ops::RangeInclusive;

const URGENT: bool = true;
const ORDINARY: bool = false;

/// The questions in the document's order, each with one way or more to get a no. A change shows in
/// no earlier question's answer, so that two can be made at once.
const NO: &[(u8, bool, RangeInclusive<u8>, Change)] = &[
    (11, URGENT, 1..=8, |c| c.close(EMERGENCY_STOP)),
    (12, URGENT, 1..=8, |c| c.open(PLUG)),
    (13, URGENT, 1..=8, |c| c.close(GROUND_FAULT)),
    (14, URGENT, 2..=7, |c| c.open(CHARGE_PERMISSION)),
    (15, URGENT, 3..=7, |c| c.missing(present::VOLTS)),
    (15, URGENT, 3..=7, |c| c.missing(present::AMPERES)),
    (15, URGENT, 3..=7, |c| c.volts(f32::NAN)),
    (15, URGENT, 3..=7, |c| c.amperes(400.5)),
    (16, URGENT, 5..=7, |c| c.volts(400.25)),
    (17, URGENT, 5..=7, |c| c.amperes(127.75)),
    (18, URGENT, 3..=7, |c| c.open(CONNECTOR_LOCK)),
    (19, ORDINARY, 2..=6, |c| c.byte(SILENCE, 9)),
    (20, ORDINARY, 1..=6, |c| c.byte(FAULTS, 1 << 0)),
    (20, ORDINARY, 1..=6, |c| c.byte(FAULTS, 1 << 4)),
    (20, ORDINARY, 1..=6, |c| c.flip(STATUS, SYSTEM_FAULT)),
    (21, ORDINARY, 1..=6, |c| c.byte(SEEN, 5).voltages(400, 49)),
    (21, ORDINARY, 1..=6, |c| c.byte(SEEN, 5).voltages(400, 401)),
    (21, ORDINARY, 1..=6, |c| c.byte(SEEN, 5).voltages(49, 50)),
    (22, ORDINARY, 1..=6, |c| c.flip(STATUS, NOT_IN_PARK)),
    (23, ORDINARY, 2..=6, |c| c.flip(STATUS, ENABLED)),
    (24, ORDINARY, 1..=6, |c| c.flip(STATUS, STOP_REQUEST)),
    (25, ORDINARY, 6..=6, |c| c.byte(STATUS, ENABLED | CONTACTOR_OPEN)),
    (26, ORDINARY, 1..=6, |c| c.close(STOP_BUTTON)),
    (27, ORDINARY, 3..=3, |c| c.ohms(39_999.0)),
    (28, ORDINARY, 1..=5, |c| c.age(150)),
    (29, ORDINARY, 6..=6, |c| c.time(0, 0)),
];

/// Phase and reason after a stop, with the reason before.
fn stopped(number: u8, urgent: bool, phase: u8, before: u8) -> (u8, u8) {
    match (phase, urgent) {
        (1, _) => (10, number),
        (7 | 8, _) => (9, before),
        (_, URGENT) => (9, number),
        (6, ORDINARY) => (7, number),
        (_, ORDINARY) => (8, number),
    }
}

#[test]
fn a_no_stops_in_the_bracket_and_is_nothing_beside_it() {
    for (number, urgent, bracket, no) in NO {
        for (phase, reason) in (0..=10).flat_map(|phase| [(phase, 0), (phase, 13), (phase, 26)]) {
            let after = no(Case::new(phase).byte(REASON, reason)).tick();
            let expected = match (number, phase) {
                _ if bracket.contains(&phase) => stopped(*number, *urgent, phase, reason),
                // A move: a great age, an open contactor, an open plug.
                (28, 7) => (8, reason),
                (25 | 28, 8) => (9, reason),
                (12, 10) => (0, reason),
                _ => (phase, reason),
            };
            assert_eq!(after.phase_and_reason(), expected, "{number} in phase {phase}");
            assert_eq!(after.age() == 0, expected.0 != phase);
        }
    }
}

#[test]
fn the_first_no_is_the_stop() {
    for (row, (number, urgent, bracket, no)) in NO.iter().enumerate() {
        for (later, _, later_bracket, later_no) in &NO[row + 1..] {
            for phase in (1..=8).filter(|phase| bracket.contains(phase) && later_bracket.contains(phase)) {
                let after = no(later_no(Case::new(phase))).tick();
                assert_eq!(after.phase_and_reason(), stopped(*number, *urgent, phase, 0), "{number} and {later}");
            }
        }
    }
    // The table says so too.
    let table = QUESTIONS.map(|question| (question.number, question.urgent, question.first..=question.last));
    let mut rows: Vec<_> = NO.iter().map(|(number, urgent, bracket, _)| (*number, *urgent, bracket.clone())).collect();
    rows.dedup();
    assert_eq!(rows, table);
}

/// A kept threshold with a maximum and a target voltage that needn't fit it.
fn kept(case: Case, threshold: u16, maximum: u16, target: u16) -> Case {
    case.number(THRESHOLD, threshold).voltages(maximum, target)
}

#[test]
fn edges() {
    check(After::phase_and_reason, &[
        // 16: volts are rounded up, behind half an ohm 10 A take 5 V, and the kept threshold counts.
        (6, |c| c.volts(400.0), (6, 0)), (6, |c| c.volts(400.0f32.next_up()), (9, 16)),
        (6, |c| c.resistance(0.5).volts(405.0), (6, 0)), (6, |c| c.resistance(0.5).volts(405.1), (9, 16)),
        (6, |c| kept(c, 400, 300, 60).volts(350.0), (6, 0)), (6, |c| kept(c, 300, 400, 60).volts(350.0), (9, 16)),
        // 17: rated amperes are 125.
        (6, |c| c.amperes(127.5), (6, 0)), (6, |c| c.amperes(127.5f32.next_up()), (9, 17)),
        // 19: the silence after this tick's counting.
        (4, |c| c.byte(SILENCE, 8), (4, 0)), (4, |c| c.byte(SILENCE, 9), (8, 19)),
        (4, |c| c.byte(SILENCE, 255).hears(ENABLED), (4, 0)), (4, |c| c.byte(SILENCE, 255), (8, 19)),
        // 20: bits without a meaning are never asked about.
        (6, |c| c.byte(FAULTS, 0xE0).byte(STATUS, 0xE0 | ENABLED), (6, 0)),
        // 21 at its edges.
        (2, |c| c.voltages(400, 50), (2, 0)), (2, |c| c.voltages(400, 400), (2, 0)), (2, |c| c.voltages(50, 50), (2, 0)),
        // In phase 1 the threshold is worked out, rated volts being 500, once H'100 and H'102 are seen.
        (1, |c| c.byte(SEEN, 5).voltages(50, 50), (1, 0)), (1, |c| c.byte(SEEN, 5).voltages(49, 49), (10, 21)),
        (1, |c| c.byte(SEEN, 5).voltages(65_535, 500), (1, 0)), (1, |c| c.byte(SEEN, 5).voltages(65_535, 501), (10, 21)),
        (1, |c| c.input(|i| i.maximum_voltage(400).status(400, 9, 0, ENABLED)), (1, 0)),
        (1, |c| c.input(|i| i.maximum_voltage(400).status(401, 9, 0, ENABLED)), (10, 21)),
        (1, |c| c.input(|i| i.maximum_voltage(1).charging_time(1, 1)), (1, 0)),
        (1, |c| c.input(|i| i.charging_time(1, 1).status(1, 1, 0, ENABLED)), (1, 0)),
        // 25: closed is a clear bit, seen or not, but 23 comes first.
        (5, |c| c.byte(STATUS, ENABLED), (6, 0)), (5, |c| c.byte(STATUS, 0).byte(SEEN, 0), (8, 23)),
        // 27: not given is nothing to ask, whatever the bytes are.
        (3, |c| c.ohms(40_000.0), (4, 0)), (3, |c| c.ohms(40_000.0f32.next_down()), (8, 27)),
        (3, |c| c.ohms(f32::INFINITY), (4, 0)), (3, |c| c.ohms(f32::NEG_INFINITY), (8, 27)),
        (3, |c| c.ohms(f32::NAN), (8, 27)), (3, |c| c.ohms(-0.0), (8, 27)),
        (3, |c| c.ohms(1.0).missing(present::RESISTANCE), (3, 0)),
        // 28, which wins over an open move.
        (1, |c| c.age(99), (1, 0)), (1, |c| c.age(100), (10, 28)), (2, |c| c.age(19), (2, 0)), (2, |c| c.age(20), (8, 28)),
        (3, |c| c.age(149), (3, 0)), (3, |c| c.age(150), (8, 28)), (4, |c| c.age(49), (4, 0)), (4, |c| c.age(50), (8, 28)),
        (5, |c| c.age(99), (5, 0)), (5, |c| c.age(100), (8, 28)), (5, |c| c.age(u32::MAX), (8, 28)),
        (2, |c| c.age(19).close(CONNECTOR_LOCK), (3, 0)), (2, |c| c.age(20).close(CONNECTOR_LOCK), (8, 28)),
        // 29: tens of seconds, or minutes.
        (6, |c| c.time(6, 0).age(599), (6, 0)), (6, |c| c.time(6, 0).age(600), (7, 29)),
        (6, |c| c.time(255, 6).age(3_599), (6, 0)), (6, |c| c.time(255, 6).age(3_600), (7, 29)),
        (6, |c| c.time(0, 200), (7, 29)), (6, |c| c.time(255, 0), (7, 29)), (6, |c| c.age(u32::MAX), (7, 29)),
    ]);
}

#[test]
fn voltages_from_phase_2_on() {
    // The kept threshold counts, not the maximum voltage.
    for phase in 2..=6 {
        let reason = |threshold, maximum| kept(Case::new(phase), threshold, maximum, 350).tick().phase_and_reason().1;
        assert_eq!((reason(400, 300), reason(300, 400)), (0, 21));
    }
    // They are asked about once H'100 and H'102 are seen.
    for (phase, seen) in (2..=6).flat_map(|phase| (0..8).map(move |seen| (phase, seen))) {
        let case = Case::new(phase).byte(SEEN, seen).voltages(400, 0);
        assert_eq!(case.tick().phase_and_reason().1, if seen & 5 == 5 { 21 } else { 0 });
        // An H'102 that is heard is seen in the same tick.
        let after = case.input(|input| input.status(0, 9, 0, case.state[STATUS])).tick();
        assert_eq!((after.phase_and_reason().1, after.state[SEEN]), (if seen & 1 == 1 { 21 } else { 0 }, seen | 4));
    }
}

#[test]
fn what_was_heard_stays_after_a_stop() {
    let frames = |i: LeadInput| i.maximum_voltage(400).charging_time(7, 8).status(390, 9, 0x40, 1);
    let mut expected = Case::new(1).byte(PHASE, 10).byte(REASON, 26).byte(SEEN, 7).voltages(400, 390).time(7, 8);
    expected.state[REQUEST..SILENCE].copy_from_slice(&[9, 0x40, 1]);
    assert_eq!(Case::new(1).close(STOP_BUTTON).input(frames).tick().state, expected.state);
}
