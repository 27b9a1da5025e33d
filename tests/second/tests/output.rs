use super::*;
use crate::lead::switch::{D1, D2, FRAMES, LOCK};
use output_place::{H108, H109, PHASE, SPARE, SWITCHES, TEST_VOLTS};

/// What a lead shows with 200 V, 10 A and the lock contact closed, but for phase 2.
const SHOWN: [[u8; OUTPUT_BYTES]; 11] = [
    [0; OUTPUT_BYTES],
    shown(1, 0, D1 | FRAMES, 0, 0, 0b100100, 0),
    shown(2, 0, D1 | LOCK | FRAMES, 0, 400, 0b100000, 60),
    shown(3, 0, D1 | LOCK | FRAMES, 400, 400, 0b100100, 60),
    shown(4, 0, D1 | LOCK | FRAMES, 0, 400, 0b100100, 60),
    shown(5, 0, D1 | D2 | LOCK | FRAMES, 0, 400, 0b100100, 60),
    shown(6, 22, D1 | D2 | LOCK | FRAMES, 0, 400, 0b000101, 59),
    shown(7, 10, D1 | D2 | LOCK | FRAMES, 0, 400, 0b100101, 0),
    shown(8, 0, D1 | D2 | LOCK | FRAMES, 0, 400, 0b100100, 0),
    shown(9, 0, LOCK | FRAMES, 0, 400, 0b100100, 0),
    [10, 0, 0, 0, 0, 0, 0, 0, 0, 0, 0, 0, 0, 0, 0, 0, 0, 0, 0, 0, 0, 0, 0, 0],
];

const fn shown(phase: u8, command: u8, switches: u8, test: u16, kept: u16, flags: u8, time: u8) -> [u8; OUTPUT_BYTES] {
    let ([t0, t1], [k0, k1]) = (test.to_le_bytes(), kept.to_le_bytes());
    [
        phase, 0, command, switches, t0, t1, 0, 0,
        1, 0xF4, 0x01, 125, k0, k1, 0, 0,
        2, 200, 0, 10, 0, flags, time, 0,
    ]
}

#[test]
fn all_bytes_by_phase() {
    assert_eq!((D1, D2, LOCK, FRAMES), (1, 2, 4, 8));
    for (phase, expected) in (0..).zip(SHOWN) {
        let after = Case::new(phase).age(3).tick();
        assert_eq!((after.output, after.age()), (expected, 4), "phase {phase}");
    }
}

#[test]
fn the_state_after_the_tick() {
    check(|after| (after.output[PHASE], after.output[SWITCHES], after.output[TEST_VOLTS..SPARE] == [0x90, 1]), &[
        (0, |c| c.close(START_BUTTON), (1, D1 | FRAMES, false)),
        (2, |c| c.close(CONNECTOR_LOCK), (3, D1 | LOCK | FRAMES, true)),
        (3, |c| c.ohms(1e6), (4, D1 | LOCK | FRAMES, false)),
    ]);
    check(|after| after.output[SWITCHES..] == [0; OUTPUT_BYTES - SWITCHES], &[
        (1, |c| c.close(STOP_BUTTON), true), (9, |c| c.volts(1.0), true), (10, |c| c.open(PLUG), true),
    ]);
    // H'108 shows the threshold at once; a state handed in may have none.
    check(|after| [after.output[H108 + 4], after.output[H108 + 5]], &[
        (1, |c| c.input(|i| i.maximum_voltage(300).charging_time(6, 0).status(290, 9, 0, ENABLED)), [0x2C, 1]),
        (8, |c| c.number(THRESHOLD, 0), [0, 0]), (9, |c| c.number(THRESHOLD, 0), [0, 0]),
    ]);
}

#[test]
fn readings_in_h109() {
    check(|after| (u16::from_le_bytes([after.h109()[1], after.h109()[2]]), after.h109()[3]), &[
        (9, |c| c.volts(400.25).amperes(0.0), (401, 0)), (9, |c| c.volts(400.0).amperes(100.0).resistance(0.5), (350, 100)),
        (9, |c| c.volts(12.0).amperes(3.25).resistance(-0.0), (12, 4)), (9, |c| c.amperes(253.5), (200, 254)),
        (9, |c| c.volts(1000.0).amperes(255.5), (1000, 255)), (9, |c| c.volts(1000.0).amperes(400.0), (1000, 255)),
        (9, |c| c.volts(1000.5), (0, 0)), (9, |c| c.volts(f32::NAN), (0, 0)), (9, |c| c.amperes(-1.0), (0, 0)),
    ]);
    // In every phase, question 15 asked or not.
    for (phase, bit) in (1..=9).flat_map(|phase| [(phase, present::VOLTS), (phase, present::AMPERES)]) {
        assert_eq!(Case::new(phase).missing(bit).tick().h109()[1..4], [0, 0, 0]);
    }
}

#[test]
fn flags_of_reason_and_lock() {
    for (phase, reason) in (1..=9).flat_map(|phase| [0].into_iter().chain(11..=29).map(move |reason| (phase, reason))) {
        let flag = match reason {
            13 | 15 | 16 | 17 | 18 | 27 => 1 << 1,
            21 => 1 << 3,
            19 | 28 => 1 << 4,
            _ => 0,
        };
        let after = Case::new(phase).byte(REASON, reason).tick();
        assert_eq!(after.phase_and_reason(), (phase, reason));
        assert_eq!(after.h109()[5], SHOWN[usize::from(phase)][H109 + 5] | flag, "{reason} in phase {phase}");
    }
    // The contact of the input, not the lock line.
    for phase in [1, 8, 9] {
        assert_eq!(Case::new(phase).open(CONNECTOR_LOCK).tick().h109()[5], 0b100000);
    }
}

#[test]
fn remaining_time() {
    let shown: fn(&After) -> [u8; 2] = |after| [after.h109()[6], after.h109()[7]];
    for phase in 2..=5 {
        // The whole time, H'101 seen or not.
        check(shown, &[
            (phase, |c| c.time(6, 9).age(10), [6, 0]), (phase, |c| c.time(0xFF, 9).age(10), [0xFF, 9]),
            (phase, |c| c.time(6, 9).byte(SEEN, 5), [6, 0]),
        ]);
    }
    for phase in [1, 7, 8, 9] {
        check(shown, &[(phase, |c| c.time(0xFF, 9), [0, 0]), (phase, |c| c.time(6, 9), [0, 0])]);
    }
    // In phase 6 the age after the tick is taken off. The move to 6 shows the whole time, a stop none.
    check(shown, &[
        (6, |c| c.time(6, 9), [5, 0]), (6, |c| c.time(6, 9).age(99), [5, 0]), (6, |c| c.time(6, 9).age(100), [4, 0]),
        (6, |c| c.time(6, 9).age(599), [0, 0]), (6, |c| c.time(0xFF, 6).age(599), [0xFF, 5]),
        (6, |c| c.time(0xFF, 6).age(600), [0xFF, 4]), (6, |c| c.time(0xFF, 6).age(3_599), [0xFF, 0]),
        (5, |c| c.time(6, 9).hears(ENABLED), [6, 0]), (6, |c| c.time(0xFF, 6).age(3_600), [0, 0]),
    ]);
}
