use super::*;
use crate::inputs::limits;

const START: u8 = PLUG | START_BUTTON;
const TROUBLE: u8 = EMERGENCY_STOP | GROUND_FAULT | STOP_BUTTON;

/// A lead in phase 1 that has all it needs for phase 2.
fn ready(case: Case) -> Case {
    case.byte(SEEN, 7).byte(STATUS, ENABLED).voltages(410, 390)
}

#[test]
fn moves() {
    check(After::phase_and_reason, &[
        // Of the questions only the emergency button's counts for a start.
        (0, |c| c.only(START), (1, 0)), (0, |c| c.only(START_BUTTON), (0, 0)), (0, |c| c.only(PLUG), (0, 0)),
        (0, |c| c.only(START | EMERGENCY_STOP), (0, 0)), (0, |c| c.only(START | STOP_BUTTON | GROUND_FAULT), (1, 0)),
        // Remembered frames are enough.
        (1, ready, (2, 0)), (1, |c| ready(c).open(CHARGE_PERMISSION), (1, 0)), (1, |c| ready(c).byte(STATUS, 0), (1, 0)),
        (1, |c| ready(c).byte(SEEN, 6), (1, 0)), (1, |c| ready(c).byte(SEEN, 5), (1, 0)),
        (1, |c| ready(c).byte(SEEN, 3), (1, 0)),
        (2, |c| c.close(CONNECTOR_LOCK), (3, 0)), (3, |c| c.ohms(1e6), (4, 0)),
        // Volts behind the cable, where 10 A take 5 V.
        (4, |c| c.volts(10.0), (5, 0)), (4, |c| c.volts(10.0f32.next_up()), (4, 0)),
        (4, |c| c.volts(15.0).resistance(0.5), (5, 0)),
        (5, |c| c.hears(ENABLED), (6, 0)),
        // The command that came in, not the one that this tick gives.
        (7, |c| c.byte(COMMAND, 0).amperes(4.875), (8, 0)), (7, |c| c.byte(COMMAND, 0).amperes(4.9375), (7, 0)),
        (7, |c| c.byte(COMMAND, 10).amperes(0.0), (7, 0)), (7, |c| c.byte(COMMAND, 100).amperes(0.0).age(29), (7, 0)),
        (7, |c| c.byte(COMMAND, 0).amperes(5.0).age(29), (7, 0)), (7, |c| c.byte(COMMAND, 0).amperes(5.0).age(30), (8, 0)),
        (7, |c| c.byte(COMMAND, 100).age(30), (8, 0)), (7, |c| c.byte(COMMAND, 100).age(u32::MAX), (8, 0)),
        (8, |c| c.age(39), (8, 0)), (8, |c| c.age(40), (9, 0)),
        (8, |c| c.hears(CONTACTOR_OPEN), (9, 0)), (8, |c| c.byte(STATUS, CONTACTOR_OPEN), (9, 0)),
        // No unlocking without a good reading, however long. Minus zero is one.
        (9, |c| c.volts(10.0), (10, 0)), (9, |c| c.volts(10.0f32.next_up()), (9, 0)),
        (9, |c| c.volts(15.0).resistance(0.5), (10, 0)), (9, |c| c.volts(-0.0).amperes(-0.0), (10, 0)),
        (9, |c| c.volts(5.0).missing(present::VOLTS).age(u32::MAX), (9, 0)),
        (9, |c| c.volts(5.0).missing(present::AMPERES).age(u32::MAX), (9, 0)),
        (9, |c| c.volts(5.0).amperes(401.0).age(u32::MAX), (9, 0)),
        // The plug alone counts in 10, nothing at all is asked in 0 and 9, and the reason stays.
        (10, |c| c.only(TROUBLE | START_BUTTON).byte(REASON, 26), (0, 26)),
        (10, |c| c.only(TROUBLE | PLUG).byte(REASON, 26), (10, 26)),
        (0, |c| c.only(TROUBLE).byte(REASON, 26), (0, 26)), (9, |c| c.only(TROUBLE).byte(REASON, 26), (9, 26)),
    ]);
    // The threshold is kept on the move to 2; frames of the very tick count.
    check(|after| (after.number(THRESHOLD), after.number(MAXIMUM_VOLTAGE)), &[
        (1, ready, (410, 410)), (1, |c| ready(c).open(CHARGE_PERMISSION), (0, 410)),
        (1, |c| ready(c).voltages(500, 390), (500, 500)), (1, |c| ready(c).voltages(501, 390), (500, 501)),
        (1, |c| c.input(|i| i.maximum_voltage(420).charging_time(6, 0).status(390, 9, 0, ENABLED)), (420, 420)),
    ]);
}

#[test]
fn the_start_zeroes_everything_remembered() {
    let mut case = Case::new(0).age(u32::MAX).energy(u64::MAX).close(START_BUTTON).hears(ENABLED);
    case.state[REASON..AGE].fill(20);
    let case = case.byte(COMMAND, 0).byte(SEEN, 7).number(THRESHOLD, 400);
    assert_eq!(case.tick().state, Case::new(1).state);
}

#[test]
fn age_and_silence_count_up_to_their_ends() {
    for phase in [0, 9, 10] {
        let age = |before| Case::new(phase).age(before).tick().age();
        assert_eq!([0, 7, u32::MAX - 1, u32::MAX].map(age), [1, 8, u32::MAX, u32::MAX]);
    }
    // Silence in phases 1 to 8 only.
    for phase in 0..=10 {
        let counted = u8::from((1..=8).contains(&phase));
        let silence = |before| Case::new(phase).byte(SILENCE, before).tick().state[SILENCE];
        assert_eq!([0, 254, 255].map(silence), [counted, 254 + counted, 255]);
    }
    // A move, a stop and a frame that doesn't count leave it as it is.
    check(|after| after.state[SILENCE], &[
        (1, |c| ready(c).byte(SILENCE, 8), 9), (2, |c| c.byte(SILENCE, 3).close(STOP_BUTTON), 4),
        (6, |c| c.byte(SILENCE, 4).input(|i| i.frame(0x102, 7, [0; 8])), 5), (6, |c| c.byte(SILENCE, 4).hears(ENABLED), 0),
    ]);
}

#[test]
fn frames_are_heard_by_the_phase_in_which_the_tick_began() {
    let bytes = |of: [u8; STATE_BYTES]| [&of[REQUEST..SILENCE], &[of[SEEN]], &of[MAXIMUM_VOLTAGE..AGE]].concat();
    for phase in 0..=10 {
        let case = Case::new(phase).byte(SEEN, 0).time(0xFF, 90)
            .input(|i| i.maximum_voltage(300).charging_time(6, 7).status(250, 11, 0xE0, 0xE0 | ENABLED));
        // Unused bits are kept. From phase 2 on H'100 and H'101 are not even seen.
        let car = case.number(TARGET_VOLTAGE, 250).byte(REQUEST, 11).byte(FAULTS, 0xE0).byte(STATUS, 0xE0 | ENABLED);
        let expected = match phase {
            1 => car.number(MAXIMUM_VOLTAGE, 300).time(6, 7).byte(SEEN, 7),
            2..=8 => car.byte(SEEN, 4),
            _ => case,
        };
        assert_eq!(bytes(case.tick().state), bytes(expected.state), "phase {phase}");
    }
}

#[test]
fn records_past_the_count_are_ignored() {
    let mut input = LeadInput::new(CLOSED).maximum_voltage(300);
    (1..8).for_each(|at| input.record(at, 0x100, 8, limits(310)));
    for (count, maximum) in [(0, 0), (1, 300), (2, 310), (8, 310)] {
        assert_eq!(Case::new(1).input(|_| input.count(count)).tick().number(MAXIMUM_VOLTAGE), maximum);
    }
}
