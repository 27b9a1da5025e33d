use super::*;
use crate::bench::run;
use crate::lead::SAFE_AMPERES_IN_TENTHS;
use crate::post::{Head, REFUSED_ERROR};

/// Errors from 0 to the largest.
const ALLOWED: [u32; 7] = [0, 1, 2, 25, 35, 49, 50];

/// Errors that are too large, the low bits of some of them not.
const TOO_LARGE: [u32; 9] = [51, 52, 255, 256, 256 + 50, 65_535, 65_536, 65_536 + 1, u32::MAX];

const FILL: u8 = 0xA5;

/// Setup of so many leads into a state of so many bytes, 500 V and 125 A without cable resistance.
fn with_errors(leads: u32, volts_error: u32, amperes_error: u32, length: usize) -> (u32, Vec<u8>) {
    let mut state = vec![FILL; length];
    let number = setup(leads, 500, 125, 0, volts_error, amperes_error, &mut state);
    assert!(number == DONE || state == vec![FILL; length]);
    (number, state)
}

#[test]
fn either_error_at_setup() {
    assert_eq!(REFUSED_ERROR, 32);
    let errors = || ALLOWED.into_iter().chain(TOO_LARGE);
    for (volts_error, amperes_error) in errors().flat_map(|volts| errors().map(move |amperes| (volts, amperes))) {
        for leads in 1..=4 {
            let length = 10 + 32 * leads as usize;
            let (number, state) = with_errors(leads, volts_error, amperes_error, length);
            if volts_error > 50 || amperes_error > 50 {
                assert_eq!(number, 32, "{volts_error} {amperes_error}");
                continue;
            }
            assert_eq!(number, DONE, "{volts_error} {amperes_error}");
            // Volts first, at the head's end, then the fresh leads.
            let head = [leads as u8, 125, 0xF4, 0x01, 0, 0, 0, 0, volts_error as u8, amperes_error as u8];
            assert_eq!(state, [&head[..], &vec![0; 32 * leads as usize]].concat());
        }
    }
    for error in 0..=50 {
        assert_eq!(with_errors(1, error, 50 - error, 42).1[8..10], [error as u8, 50 - error as u8]);
    }
    for error in 51..=1_000 {
        assert_eq!([with_errors(1, error, 0, 42).0, with_errors(1, 0, error, 42).0], [32, 32], "{error}");
    }
}

#[test]
fn errors_are_asked_about_after_4_and_before_5() {
    const NAN: u32 = 0x7FC0_0000;
    let of = |leads, volts, amperes, resistance, (volts_error, amperes_error), length: usize| {
        setup(leads, volts, amperes, resistance, volts_error, amperes_error, &mut vec![FILL; length])
    };
    for error in TOO_LARGE {
        for errors in [(error, 0), (0, error), (error, error), (error, 50), (50, error)] {
            for length in [0, 8, 10, 40, 41, 42, 43, 74] {
                for (leads, volts, amperes, resistance, number) in [
                    (0, 500, 125, 0, 1), (5, 500, 125, 0, 1), (1, 49, 125, 0, 2), (1, 501, 125, 0, 2), (1, 500, 0, 0, 3),
                    (1, 500, 201, 0, 3), (1, 500, 125, NAN, 4), (1, 500, 125, 0x3F80_0001, 4), (1, 500, 125, 0, 32),
                    (1, 50, 1, 0x8000_0000, 32), (1, 500, 200, 0x3F80_0000, 32),
                ] {
                    assert_eq!(of(leads, volts, amperes, resistance, errors, length), number, "{errors:?} {length}");
                }
            }
        }
    }
    // With errors that are allowed only the right length is.
    for (error, leads) in ALLOWED.into_iter().flat_map(|error| (1..=4).map(move |leads| (error, leads))) {
        let right = 10 + 32 * leads as usize;
        for (length, number) in [
            (right - 2, 5), (right - 1, 5), (right, DONE), (right + 1, 5), (right + 2, 5), (right + 32, 5), (0, 5), (10, 5),
        ] {
            assert_eq!(with_errors(leads, error, 50 - error, length).0, number);
        }
    }
}

/// A tick. A refusal leaves every byte of state and output alone, and a tick done leaves the head.
fn tick_of(state: &[u8], input: &[u8], output: usize) -> u32 {
    let (mut after, mut shown) = (state.to_vec(), vec![FILL; output]);
    let number = tick(&mut after, input, &mut shown);
    assert!(number == DONE || after == state && shown == vec![FILL; output]);
    assert_eq!(after.get(..10), state.get(..10));
    number
}

#[test]
fn errors_of_a_stored_head() {
    for leads in 1..=4 {
        let (input, output) = (vec![0; input_bytes(leads)], output_bytes(leads));
        let mut state = with_errors(leads as u32, 0, 0, 10 + 32 * leads).1;
        let errors = (0..=255).flat_map(|byte| [(byte, 0), (0, byte), (byte, 50), (50, byte), (byte, byte)]);
        for (volts_error, amperes_error) in errors {
            state[8] = volts_error;
            state[9] = amperes_error;
            let good = volts_error <= 50 && amperes_error <= 50;
            assert_eq!(tick_of(&state, &input, output), if good { DONE } else { 6 }, "{volts_error} {amperes_error}");
            // 6 comes before 7, 8 and 9.
            assert_eq!(tick_of(&state, &input[1..], output - 1), if good { 7 } else { 6 });
            assert_eq!(tick_of(&state, &vec![0xFF; input.len()], output), if good { 9 } else { 6 });
            // What is read of it.
            let head = Head::read(state[..10].as_array().unwrap());
            let read = head.map(|head| (head.rating.volts_error, head.rating.amperes_error));
            assert_eq!(read, good.then_some((Tenths(volts_error.into()), Tenths(amperes_error.into()))));
        }
    }
}

#[test]
fn lengths_of_a_stored_state() {
    for leads in 1..=4 {
        let (input, right) = (vec![0; input_bytes(leads)], 10 + 32 * leads);
        let long = [with_errors(leads as u32, 50, 1, right).1, vec![0; 40]].concat();
        for length in 0..=long.len() {
            let number = tick_of(&long[..length], &input, output_bytes(leads));
            assert_eq!(number, if length == right { DONE } else { 6 }, "{length}");
        }
    }
}

/// What judges an upper end: the case of it, which reading, the limit in tenths, and phase and
/// reason after a yes and after a no. In phase 7 the reason stays as it came in, and a command
/// keeps the lead there.
struct Judge {
    case: fn() -> Case,
    reading: Kind,
    limit: u32,
    yes: (u8, u8),
    no: (u8, u8),
}

#[derive(Clone, Copy, PartialEq)]
enum Kind { Volts, Amperes }
use Kind::{Amperes, Volts};

impl Kind {
    fn read(self, case: Case, value: f32) -> Case { if self == Volts { case.volts(value) } else { case.amperes(value) } }
    fn error(self, case: Case, error: u32) -> Case {
        if self == Volts { case.volts_error(error) } else { case.amperes_error(error) }
    }
    fn other(self) -> Kind { if self == Volts { Amperes } else { Volts } }
}

const JUDGES: [Judge; 9] = [
    // Question 16.
    Judge { case: || Case::new(5), reading: Volts, limit: 4_000, yes: (5, 0), no: (9, 16) },
    Judge { case: || Case::new(6), reading: Volts, limit: 4_000, yes: (6, 0), no: (9, 16) },
    Judge { case: || Case::new(7), reading: Volts, limit: 4_000, yes: (7, 0), no: (9, 0) },
    // Question 17.
    Judge { case: || Case::new(5), reading: Amperes, limit: 1_275, yes: (5, 0), no: (9, 17) },
    Judge { case: || Case::new(6), reading: Amperes, limit: 1_275, yes: (6, 0), no: (9, 17) },
    Judge { case: || Case::new(7), reading: Amperes, limit: 1_275, yes: (7, 0), no: (9, 0) },
    // Both 10 V limits.
    Judge { case: || Case::new(4), reading: Volts, limit: 100, yes: (5, 0), no: (4, 0) },
    Judge { case: || Case::new(9), reading: Volts, limit: 100, yes: (10, 0), no: (9, 0) },
    // The end of phase 7.
    Judge { case: || Case::new(7).byte(COMMAND, 0), reading: Amperes, limit: 49, yes: (8, 0), no: (7, 0) },
];

/// Floats that make so many tenths: one in the middle, the largest and the least.
fn floats_of(tenths: u32) -> Vec<f32> {
    let of = |float: f32| (f64::from(float) * 10.0).ceil() as u32;
    // The bits of floats that are not negative come in the order of the floats.
    let bits = (tenths as f32 / 10.0).to_bits();
    let beside = (bits.saturating_sub(2)..=bits + 2).map(f32::from_bits);
    let below = (tenths.saturating_sub(1) as f32 / 10.0).to_bits();
    let least = (below..=below + 2).map(f32::from_bits);
    let middle = (tenths as f32 - 0.5).max(0.0) / 10.0;
    beside.chain(least).chain([middle]).filter(|float| of(*float) == tenths).collect()
}

#[test]
fn the_upper_end_is_judged() {
    assert_eq!(SAFE_AMPERES_IN_TENTHS, Tenths(49));
    for Judge { case, reading, limit, yes, no } in JUDGES {
        for error in 0..=50 {
            let case = reading.error(case(), error);
            // From both sides of the edge, which no lower end and no middle has.
            for tenths in (limit.saturating_sub(error + 3)..=limit + 2).chain([0, limit + error, limit + error + 1]) {
                let expected = if tenths + error <= limit { yes } else { no };
                let values = floats_of(tenths);
                assert!(!values.is_empty());
                for value in values {
                    let case = reading.read(case, value);
                    assert_eq!(case.tick().phase_and_reason(), expected, "{value} with {error} of {limit}");
                    // The other meter's error has no effect.
                    for other in ALLOWED {
                        let after = reading.other().error(case, other).tick();
                        assert_eq!(after.phase_and_reason(), expected, "{value} with {error} of {limit} beside {other}");
                    }
                }
            }
        }
    }
}

#[test]
fn each_value_in_the_range_would_have_passed() {
    for Judge { case, reading, limit, yes, .. } in JUDGES {
        let passes = |tenths, error| {
            let value = *floats_of(tenths).last().unwrap();
            reading.error(reading.read(case(), value), error).tick().phase_and_reason() == yes
        };
        let alone: Vec<bool> = (0..=limit + 150).map(|tenths| passes(tenths, 0)).collect();
        for error in ALLOWED {
            for tenths in limit.saturating_sub(100)..=limit + 60 {
                let range = tenths.saturating_sub(error) as usize..=(tenths + error) as usize;
                // And where it is not passed, some value would not have passed either.
                assert_eq!(passes(tenths, error), alone[range].iter().all(|passes| *passes), "{tenths} with {error}");
            }
        }
    }
}

#[test]
fn question_16_at_thresholds() {
    for (threshold, error) in [50, 51, 399, 499, 500].into_iter().flat_map(|volts| ALLOWED.map(move |error| (volts, error))) {
        for (phase, reason) in [(5, 16), (6, 16), (7, 0)] {
            let case = Case::new(phase).number(THRESHOLD, threshold).voltages(threshold, 50).volts_error(error);
            let edge = u32::from(threshold) * 10 - error;
            let (yes, no) = ((phase, 0), (9, reason));
            for (tenths, expected) in [(edge - 1, yes), (edge, yes), (edge + 1, no), (edge + 2, no)] {
                for volts in floats_of(tenths) {
                    assert_eq!(case.volts(volts).tick().phase_and_reason(), expected, "{volts} V with {error}");
                }
            }
        }
    }
}

#[test]
fn question_17_at_ratings() {
    for (rated, error) in (1..=200).flat_map(|rated| (0..=50).map(move |error| (rated, error))) {
        let limit = 10 * rated + 25;
        for (phase, reason) in [(5, 17), (6, 17), (7, 0)] {
            let case = Case::new(phase).byte(COMMAND, u8::from(phase > 5)).rated(rated).amperes_error(error);
            for tenths in [0, 1, limit.saturating_sub(error), limit.saturating_sub(error) + 1, limit] {
                let expected = if tenths + error <= limit { (phase, 0) } else { (9, reason) };
                let amperes = *floats_of(tenths).last().unwrap();
                assert_eq!(case.amperes(amperes).tick().phase_and_reason(), expected, "{amperes} A with {error} of {rated} A");
            }
        }
    }
}

#[test]
fn question_17_never_passes() {
    // With 1 or 2 A rated, and an error above 35 or 45.
    for (rated, most) in [(1, 35), (2, 45), (3, 50)] {
        for error in 0..=50 {
            for phase in [5, 6] {
                let case = Case::new(phase).byte(COMMAND, 0).rated(rated).amperes_error(error).volts_error(50);
                let passed = (0..=50).any(|tenths| case.amperes(floats_of(tenths)[0]).tick().phase_and_reason() == (phase, 0));
                assert_eq!(passed, error <= most, "{rated} A with {error}");
            }
        }
        let case = Case::new(6).byte(COMMAND, 0).rated(rated).amperes_error(most);
        let spare = 10 * rated + 25 - most;
        assert_eq!(case.amperes(0.0).tick().phase_and_reason(), (6, 0));
        assert_eq!(case.amperes(floats_of(spare)[0]).tick().phase_and_reason(), (6, 0));
        assert_eq!(case.amperes(floats_of(spare + 1)[0]).tick().phase_and_reason(), (9, 17));
    }
}

#[test]
fn phase_7_ended_by_its_age_alone() {
    let after = |error, amperes, age| {
        Case::new(7).byte(COMMAND, 0).amperes_error(error).amperes(amperes).age(age).tick().phase_and_reason().0
    };
    for age in [0, 1, 28, 29, 30, 31, u32::MAX] {
        let by_age = if age >= 30 { 8 } else { 7 };
        // 0 A with 50 tenths stand for 5 A, which is above 4.9 A.
        for amperes in [0.0, -0.0, f32::from_bits(1), 4.0] {
            assert_eq!(after(50, amperes, age), by_age);
        }
        assert_eq!((after(49, 0.0, age), after(49, -0.0, age), after(49, f32::from_bits(1), age)), (8, 8, by_age));
        assert_eq!((after(48, f32::from_bits(1), age), after(48, 0.125, age)), (8, by_age));
    }
}

#[test]
fn the_error_is_added_behind_the_cable() {
    // The least rest above 5 V makes 51 tenths, and 50 more are above 10 V. Added to the volts, it
    // would be lost in the rounding.
    let above_5 = 5.0f32.next_up();
    assert_eq!(above_5 + 5.0, 10.0);
    for (phase, next) in [(4, 5), (9, 10)] {
        for (volts, amperes, resistance, error, expected) in [
            (5.0, 10.0, 0.0, 50, next), (above_5, 10.0, 0.0, 50, phase), (above_5, 0.0, 1.0, 50, phase),
            // 10 A take 5 V.
            (10.0, 10.0, 0.5, 50, next), (10.0f32.next_up(), 10.0, 0.5, 50, phase), (14.5, 10.0, 0.5, 5, next),
            (14.5, 10.0, 0.5, 6, phase), (14.5f32.next_up(), 10.0, 0.5, 5, phase), (15.0, 10.0, 0.5, 0, next),
            (15.0, 10.0, 0.5, 1, phase),
            // The cable takes more volts than there are: 0, and then the error.
            (9.0, 10.0, 1.0, 50, next), (0.0, 400.0, 1.0, 50, next), (300.0, 400.0, 1.0, 50, next), (405.0, 400.0, 1.0, 50, next),
            (405.0f32.next_up(), 400.0, 1.0, 50, phase),
        ] {
            let case = Case::new(phase).volts(volts).amperes(amperes).resistance(resistance).volts_error(error);
            for other in ALLOWED {
                // The amperes' error doesn't widen what the cable takes.
                let after = case.amperes_error(other).tick();
                assert_eq!(after.phase_and_reason().0, expected, "{volts} V {amperes} A {resistance} ohm with {error}, {other}");
            }
        }
    }
    // Question 16, at 400 V.
    for (volts, resistance, error, expected) in [
        (400.0, 0.5, 50, (6, 0)), (400.0f32.next_up(), 0.5, 50, (9, 16)), (404.9f32.next_down(), 0.5, 1, (6, 0)),
        (404.875, 0.5, 2, (9, 16)), (405.0, 1.0, 50, (6, 0)), (405.0, 0.5, 0, (6, 0)), (405.0, 0.5, 1, (9, 16)),
    ] {
        for other in ALLOWED {
            let after = Case::new(6).volts(volts).resistance(resistance).volts_error(error).amperes_error(other).tick();
            assert_eq!(after.phase_and_reason(), expected, "{volts} V {resistance} ohm with {error}, {other}");
        }
    }
}

#[test]
fn tenths_behind_any_cable_and_then_the_error() {
    let mut next = generator();
    let mut edge_cases = 0;
    for _ in 0..20_000 {
        let (resistance, amperes) = (f32::from(next()) / 255.0, f32::from(next()) / 2.0 + f32::from(next()) / 256.0);
        let (error, other) = (u32::from(next() % 51), u32::from(next() % 51));
        // Volts at the connector of about 10 V less the error.
        let near = (100 - error as i32 + i32::from(next() % 3) - 1) as f32 / 10.0 + resistance * amperes;
        let volts = f32::from_bits((near.to_bits() + u32::from(next() % 5)).saturating_sub(2));
        let product = resistance * amperes;
        let behind = (volts - product).max(0.0);
        let tenths = (f64::from(behind) * 10.0).ceil() as u32;
        edge_cases += u32::from(tenths + error == 100 || tenths + error == 101);
        for (phase, moved) in [(4, 5), (9, 10)] {
            let case = Case::new(phase).volts(volts).amperes(amperes).resistance(resistance);
            let case = case.volts_error(error).amperes_error(other);
            let expected = if tenths + error <= 100 { moved } else { phase };
            assert_eq!(case.tick().phase_and_reason().0, expected, "{volts} V {amperes} A {resistance} ohm with {error}");
        }
    }
    assert!(edge_cases > 5_000);
}

#[test]
fn question_15_does_not_know_the_errors() {
    let most = Case::new(4).volts(1000.0).amperes(400.0);
    for (volts_error, amperes_error) in ALLOWED.into_iter().flat_map(|volts| ALLOWED.map(move |amperes| (volts, amperes))) {
        let shown = |case: Case| case.volts_error(volts_error).amperes_error(amperes_error).tick().phase_and_reason();
        // The highest good reading has an upper end above it, the lowest a lower end below.
        for case in [most, most.volts(-0.0), most.amperes(-0.0), most.volts(999.0), most.amperes(399.0)] {
            let moves = case.input.0[input_place::VOLTS..][..4] == (-0.0f32).to_le_bytes();
            assert_eq!(shown(case), (if moves { 5 } else { 4 }, 0));
            assert_eq!(shown(Case { state: Case::new(3).state, ..case }), (3, 0));
        }
        for case in [
            most.volts(1000.0f32.next_up()), most.volts(-f32::from_bits(1)), most.volts(-0.5), most.volts(1001.0),
            most.volts(f32::NAN), most.amperes(400.0f32.next_up()), most.amperes(-f32::from_bits(1)), most.amperes(-0.5), most.amperes(401.0),
            most.amperes(f32::NAN), most.missing(present::VOLTS), most.missing(present::AMPERES),
        ] {
            for phase in 3..=7 {
                let expected = (9, if phase == 7 { 0 } else { 15 });
                assert_eq!(shown(Case { state: Case::new(phase).state, ..case }), expected);
            }
            // Without a good reading no error makes one.
            assert_eq!(shown(Case { state: Case::new(9).state, ..case }.volts_error(0)), (9, 0));
            assert_eq!(shown(Case { state: Case::new(9).state, ..case }), (9, 0));
        }
    }
}

#[test]
fn an_upper_end_above_a_good_reading() {
    // 1005 V and 405 A are above every threshold and every rating.
    for error in ALLOWED {
        let case = |phase| Case::new(phase).volts_error(error).amperes_error(error);
        for phase in [5, 6] {
            assert_eq!(case(phase).volts(1000.0).tick().phase_and_reason(), (9, 16));
            assert_eq!(case(phase).amperes(400.0).tick().phase_and_reason(), (9, 17));
            assert_eq!(case(phase).volts(1000.0).amperes(400.0).tick().phase_and_reason(), (9, 16));
            assert_eq!(case(phase).volts(1000.0).amperes(400.0).open(CONNECTOR_LOCK).tick().phase_and_reason(), (9, 16));
        }
        assert_eq!(case(4).volts(1000.0).tick().phase_and_reason(), (4, 0));
        assert_eq!(case(9).volts(1000.0).tick().phase_and_reason(), (9, 0));
    }
}

#[test]
fn h109_shows_the_reading() {
    for (volts_error, amperes_error) in ALLOWED.into_iter().flat_map(|volts| ALLOWED.map(move |amperes| (volts, amperes))) {
        let with = |case: Case| case.volts_error(volts_error).amperes_error(amperes_error).tick();
        // 200 V and 10 A hold the lead in every phase: all that is shown and kept is the same.
        for phase in 0..=10 {
            let (case, after) = (Case::new(phase), with(Case::new(phase)));
            assert_eq!((after.output, after.state), (case.tick().output, case.tick().state), "phase {phase}");
        }
        // In phase 1 no question looks at them.
        for (volts, amperes, resistance, shown) in [
            (400.25, 0.0, 0.0, [0x91, 1, 0]), (400.0, 100.0, 0.5, [0x5E, 1, 100]), (0.0, 0.0, 0.0, [0, 0, 0]),
            (1000.0, 400.0, 0.0, [0xE8, 3, 255]), (1000.0, 254.0, 0.0, [0xE8, 3, 254]), (999.0, 253.5, 0.0, [0xE7, 3, 254]),
            (1.0, 400.0, 1.0, [0, 0, 255]), (0.1, 0.1, 0.0, [1, 0, 1]), (5.0, 5.0, 0.0, [5, 0, 5]),
        ] {
            let after = with(Case::new(1).volts(volts).amperes(amperes).resistance(resistance));
            assert_eq!(after.h109()[1..4], shown, "{volts} V {amperes} A with {volts_error}, {amperes_error}");
        }
        // Also where the upper end just made the stop, or held the lead.
        let stopped = with(Case::new(6).volts(401.0).amperes(128.0));
        assert_eq!((stopped.phase_and_reason(), &stopped.h109()[1..4]), ((9, 16), &[0x91, 1, 128][..]));
        let held = with(Case::new(9).volts(10.5).amperes(2.5));
        assert_eq!((held.phase_and_reason(), &held.h109()[1..4]), ((9, 0), &[11, 0, 3][..]));
    }
}

#[test]
fn an_error_is_like_a_reading_higher_by_it() {
    // All but the reading that H'109 shows.
    let but_reading = |after: After| {
        let mut output = after.output;
        output[output_place::H109 + 1..][..3].fill(0);
        (output, after.state)
    };
    let mut next = generator();
    let mut number = move |below: u32| u32::from_le_bytes([next(), next(), next(), 0]) % below;
    for _ in 0..30_000 {
        let mut case = Case::new(number(11) as u8).age(number(40)).byte(SILENCE, number(12) as u8).allowance(number(60_000));
        if number(2) == 0 {
            case = case.byte(COMMAND, 0);
        }
        case = case.close(1 << number(8) & (STOP_BUTTON | START_BUTTON)).ohms([39_000.0, 50_000.0][number(2) as usize]);
        let (volts_error, amperes_error) = (number(51), number(51));
        let volts = [100 - volts_error, 4_000 - volts_error, 9_900][number(3) as usize] + number(5).saturating_sub(2);
        let amperes = [50 - amperes_error, 1_275 - amperes_error, 3_900][number(3) as usize] + number(5).saturating_sub(2);
        let read = |volts, amperes| {
            case.volts(*floats_of(volts).last().unwrap()).amperes(*floats_of(amperes).last().unwrap())
        };
        let with = read(volts, amperes).volts_error(volts_error).amperes_error(amperes_error).tick();
        let without = read(volts + volts_error, amperes + amperes_error).tick();
        assert_eq!(but_reading(with), but_reading(without), "{volts}, {amperes} with {volts_error}, {amperes_error}");
    }
}

/// A lead in every phase, its records one after the other, in a post with these errors.
fn post(phases: [u8; 4], volts_error: u32, amperes_error: u32) -> Vec<u8> {
    let mut state = set_up(4, 500, 125, 0.0, volts_error, amperes_error)[..10].to_vec();
    phases.iter().for_each(|phase| state.extend(Case::new(*phase).byte(COMMAND, 0).state));
    state
}

#[test]
fn every_lead_of_the_post() {
    let still = LeadInput::new(CLOSED);
    for (inputs, volts_error, amperes_error, expected) in [
        ([(9.5, 0.0), (395.0, 122.5), (200.0, 1.0), (9.5, 0.0)], 5, 39, [(5, 0), (6, 0), (8, 0), (10, 0)]),
        ([(9.5, 0.0), (395.0, 122.5), (200.0, 1.0), (9.5, 0.0)], 6, 40, [(4, 0), (6, 0), (7, 0), (9, 0)]),
        ([(5.0, 0.0), (395.0, 122.5), (200.0, 0.0), (5.5, 0.0)], 50, 50, [(5, 0), (6, 0), (7, 0), (9, 0)]),
        ([(5.0, 0.0), (395.5, 122.5), (200.0, 0.0), (5.0, 0.0)], 50, 49, [(5, 0), (9, 16), (8, 0), (10, 0)]),
        ([(5.5, 0.0), (395.0, 123.0), (396.0, 4.0), (5.0, 0.0)], 50, 46, [(4, 0), (9, 17), (9, 0), (10, 0)]),
    ] {
        let mut state = post([4, 6, 7, 9], volts_error, amperes_error);
        let head = state[..10].to_vec();
        let shown = done(&mut state, AMPLE, &inputs.map(|(volts, amperes)| still.reading(volts, amperes)));
        let shown: Vec<_> = shown.iter().map(|output| (output[0], output[1])).collect();
        assert_eq!(shown, expected);
        assert_eq!(state[..10], head);
    }
}

#[test]
fn a_whole_charge() {
    // 1.5 V and 2.5 A, kept from setup to the last tick.
    let mut state = set_up(1, 500, 125, 0.0, 15, 25);
    let start = LeadInput::new(PLUG | START_BUTTON).close(CLOSED).ohms(40_000.0);
    let start = start.maximum_voltage(400).charging_time(60, 0).status(TARGET, 255, 0, ENABLED);
    let still = LeadInput::new(CLOSED);
    let charging = |volts, amperes| still.reading(volts, amperes).status(TARGET, 4, 0, ENABLED);
    for (input, shown) in [
        (start.reading(8.625, 0.0), (1, 0, 0)), (start.reading(8.625, 0.0), (2, 0, 0)), (start.reading(8.625, 0.0), (3, 0, 0)),
        (start.reading(8.625, 0.0), (4, 0, 0)), (start.reading(8.625, 0.0), (4, 0, 0)), (start.reading(8.5, 0.0), (5, 0, 0)),
        (start.reading(398.5, 125.0), (6, 0, 2)), (charging(398.5, 125.0), (6, 0, 4)),
        (charging(300.0, 3.0).close(STOP_BUTTON), (7, 26, 0)), (still.reading(300.0, 2.5), (7, 26, 0)),
        (still.reading(300.0, 2.375), (8, 26, 0)), (still.status(TARGET, 0, 0, CONTACTOR_OPEN), (9, 26, 0)),
        (still.reading(8.625, 0.0), (9, 26, 0)), (still.reading(8.5, 0.0), (10, 26, 0)), (LeadInput::new(0), (0, 26, 0)),
    ] {
        let [phase, reason, command, ..] = done(&mut state, AMPLE, &[input])[0];
        assert_eq!((phase, reason, command), shown);
        assert_eq!(state[..10], [1, 125, 0xF4, 0x01, 0, 0, 0, 0, 15, 25]);
    }
}

fn bench(lines: &str) -> String {
    let mut printed = Vec::new();
    run(lines.as_bytes(), &mut printed).unwrap();
    String::from_utf8(printed).unwrap()
}

#[test]
fn setup_lines() {
    for (line, answer) in [
        // Five, six, seven and eight fields.
        ("setup\t1\t500\t125\t00000000", "?"), ("setup\t1\t500\t125\t00000000\t0", "?"),
        ("setup\t1\t500\t125\t00000000\t0\t0", "0"), ("setup\t1\t500\t125\t00000000\t0\t0\t0", "?"),
        ("setup\t1\t500\t125\t00000000\t", "?"), ("setup\t1\t500\t125\t00000000\t\t", "?"),
        ("setup\t1\t500\t125\t00000000\t0\t", "?"), ("setup\t1\t500\t125\t00000000\t\t0", "?"),
        ("setup\t1\t500\t125\t00000000\t0\t0\t", "?"), ("setup\t1\t500\t125\t0\t0\t00000000", "?"),
        ("setup\t0\t0\t1\t500\t125\t00000000", "?"),
    ] {
        assert_eq!(bench(line), format!("{answer}\n"), "{line:?}");
    }
    for (error, answer) in [
        ("0", "0"), ("1", "0"), ("49", "0"), ("50", "0"), ("51", "32"), ("255", "32"), ("256", "32"), ("65535", "32"),
        ("65536", "?"), ("65586", "?"), ("4294967295", "?"), ("4294967296", "?"), ("4294967346", "?"), ("18446744073709551616", "?"),
        ("00", "0"), ("0050", "0"), ("000051", "32"), ("00065535", "32"), ("00065536", "?"), ("00000000000000000000000007", "0"),
        ("", "?"), ("+1", "?"), ("-0", "?"), ("-1", "?"), (" 1", "?"), ("1 ", "?"), ("1.0", "?"), ("0x1", "?"), ("A", "?"),
        ("1,0", "?"), ("1\r", "?"), ("٣", "?"),
    ] {
        for (volts_error, amperes_error) in [(error, "0"), ("0", error), (error, error), ("50", error), (error, "50")] {
            let line = format!("setup\t2\t500\t125\t3F000000\t{volts_error}\t{amperes_error}\n");
            assert_eq!(bench(&line), format!("{answer}\n"), "{line:?}");
        }
    }
    // Numbers are looked at before refusals, and the earlier refusals before 32.
    for (line, answer) in [
        ("setup\t0\t500\t125\t00000000\t51\t51", "1"), ("setup\t1\t49\t125\t00000000\t51\t51", "2"),
        ("setup\t1\t500\t0\t00000000\t51\t51", "3"), ("setup\t1\t500\t125\t7FC00000\t51\t51", "4"),
        ("setup\t1\t500\t125\t00000000\t51\t51", "32"), ("setup\t0\t500\t125\t00000000\t65536\t0", "?"),
        ("setup\t0\t500\t125\t00000000\t0\t65536", "?"), ("setup\t1\t500\t125\t00000000\t51\t65536", "?"),
    ] {
        assert_eq!(bench(line), format!("{answer}\n"), "{line:?}");
    }
    // Leading zeros up to 1,000 characters.
    for (zeros, answer) in [(970, "0\n"), (971, "?\n")] {
        let line = format!("setup\t1\t500\t125\t00000000\t50\t{}50", "0".repeat(zeros));
        assert_eq!((line.len(), bench(&line).as_str()), (zeros + 30, answer));
    }
}

#[test]
fn errors_of_a_bench_post() {
    let input = LeadInput::new(PLUG | START_BUTTON).close(CLOSED).reading(5.0, 0.0).ohms(40_000.0);
    let input = input.maximum_voltage(400).charging_time(60, 0).status(TARGET, 255, 0, ENABLED);
    let hex: String = AMPLE.to_le_bytes().iter().chain(&input.0).map(|byte| format!("{byte:02x}")).collect();
    let ticks = format!("tick\t{hex}\n").repeat(6);
    // Phase and reason after six ticks, 1 A being rated. At 5 V no error holds the lead in 4; at 0 A
    // one above 35 stops it.
    for (errors, last) in [
        ("0\t0", "0600"), ("50\t0", "0600"), ("50\t35", "0600"), ("0\t35", "0600"), ("0\t36", "0911"), ("50\t36", "0911"),
        ("35\t50", "0911"), ("36\t35", "0600"), ("35\t36", "0911"), ("0050\t00035", "0600"),
    ] {
        let printed = bench(&format!("setup\t1\t500\t1\t00000000\t{errors}\n{ticks}"));
        assert_eq!(printed.lines().last().unwrap()[2..6], *last, "{errors}");
    }
    // At 5.5 V a volts' error above 45 holds it in 4.
    let ticks = ticks.replace(&hex[8..], &input.volts(5.5).0.map(|byte| format!("{byte:02x}")).concat());
    for (errors, last) in [("45\t35", "0600"), ("46\t35", "0400"), ("46\t0", "0400"), ("0\t35", "0600"), ("35\t46", "0911")] {
        let printed = bench(&format!("setup\t1\t500\t1\t00000000\t{errors}\n{ticks}"));
        assert_eq!(printed.lines().last().unwrap()[2..6], *last, "{errors}");
    }
    // A refused setup and an odd one keep the errors of the post.
    for (between, number) in [("51\t0", "32"), ("0\t51", "32"), ("0", "?"), ("0\t65536", "?")] {
        let printed = bench(&format!("setup\t1\t500\t1\t00000000\t46\t0\nsetup\t1\t500\t1\t00000000\t{between}\n{ticks}"));
        assert_eq!(printed.lines().nth(1), Some(number));
        assert_eq!(printed.lines().last().unwrap()[2..6], *"0400");
    }
}
