use super::*;
use crate::lead::{AMPERES_OVER_RATED_IN_TENTHS, SAFE_AMPERES_IN_TENTHS, SAFE_VOLTS_IN_TENTHS};

#[test]
fn limits_have_the_documents_numbers() {
    let limits = [SAFE_VOLTS_IN_TENTHS, SAFE_AMPERES_IN_TENTHS, AMPERES_OVER_RATED_IN_TENTHS];
    assert_eq!(limits, [100, 49, 25].map(Tenths));
}

#[test]
fn question_16_at_every_threshold() {
    for threshold in 50..=500 {
        let at = f32::from(threshold);
        let fits = |phase| Case::new(phase).number(THRESHOLD, threshold).voltages(threshold, 50);
        // In phase 7 the reason stays as it came in.
        for (phase, reason) in [(5, 16), (6, 16), (7, 0)] {
            for volts in [at, at.next_down(), at - 0.1, at - 1.0] {
                assert_eq!(fits(phase).volts(volts).tick().phase_and_reason(), (phase, 0), "{volts} V");
            }
            for volts in [at.next_up(), at + 0.05, at + 0.1, at + 1.0] {
                assert_eq!(fits(phase).volts(volts).tick().phase_and_reason(), (9, reason), "{volts} V");
            }
            // Behind half an ohm 10 A take 5 V.
            let behind = fits(phase).resistance(0.5);
            assert_eq!(behind.volts(at + 5.0).tick().phase_and_reason(), (phase, 0));
            assert_eq!(behind.volts(at + 5.0625).tick().phase_and_reason(), (9, reason));
        }
    }
}

#[test]
fn question_17_at_every_rating() {
    for rated in 1..=200 {
        // Rated + 2.5 is a float, the last that passes.
        let at = rated as f32 + 2.5;
        for (phase, reason) in [(5, 17), (6, 17), (7, 0)] {
            // A command holds the lead in phase 7 at any amperes.
            let case = Case::new(phase).byte(COMMAND, u8::from(phase > 5)).rated(rated);
            for amperes in [at, at.next_down(), at - 0.1, at - 2.5, 0.0] {
                assert_eq!(case.amperes(amperes).tick().phase_and_reason(), (phase, 0), "{amperes} A");
            }
            for amperes in [at.next_up(), at + 0.05, at + 0.5, at + 2.5, 400.0] {
                assert_eq!(case.amperes(amperes).tick().phase_and_reason(), (9, reason), "{amperes} A");
            }
        }
    }
}

#[test]
fn phase_7_ends_at_49_tenths() {
    // The float nearest to 4.9 lies above it and makes 50 tenths.
    check(After::phase_and_reason, &[
        (7, |c| c.byte(COMMAND, 0).amperes(4.9f32.next_down()), (8, 0)), (7, |c| c.byte(COMMAND, 0).amperes(4.9), (7, 0)),
        (7, |c| c.byte(COMMAND, 0).amperes(4.9f32.next_up()), (7, 0)), (7, |c| c.byte(COMMAND, 0).amperes(5.0), (7, 0)),
        (7, |c| c.byte(COMMAND, 0).amperes(4.8), (8, 0)), (7, |c| c.byte(COMMAND, 0).amperes(4.0f32.next_up()), (8, 0)),
        (7, |c| c.byte(COMMAND, 0).amperes(f32::from_bits(1)), (8, 0)), (7, |c| c.byte(COMMAND, 0).amperes(-0.0), (8, 0)),
        // A command holds it; an age of 30 ends it at any amperes.
        (7, |c| c.byte(COMMAND, 1).amperes(0.0), (7, 0)), (7, |c| c.byte(COMMAND, 0).amperes(4.9).age(29), (7, 0)),
        (7, |c| c.byte(COMMAND, 0).amperes(4.9).age(30), (8, 0)),
    ]);
}

#[test]
fn both_10_volt_limits() {
    for (phase, next) in [(4, 5), (9, 10)] {
        let after = |volts, resistance| Case::new(phase).volts(volts).resistance(resistance).tick().phase_and_reason().0;
        for volts in [10.0, 10.0f32.next_down(), 9.9, 9.0, f32::from_bits(1), -0.0] {
            assert_eq!(after(volts, 0.0), next, "{volts} V");
        }
        for volts in [10.0f32.next_up(), 10.05, 10.1, 11.0] {
            assert_eq!(after(volts, 0.0), phase, "{volts} V");
        }
        // 10 A take 5 V, or more volts than there are.
        assert_eq!([15.0, 15.0f32.next_up()].map(|volts| after(volts, 0.5)), [next, phase]);
        assert_eq!(after(9.0, 1.0), next);
    }
}

/// The volts and amperes that H'109 carries in phase 1, where no question looks at them.
fn carried(volts: f32, amperes: f32) -> (u16, u8) {
    let after = Case::new(1).volts(volts).amperes(amperes).tick();
    (u16::from_le_bytes([after.h109()[1], after.h109()[2]]), after.h109()[3])
}

#[test]
fn h109_carries_whole_numbers_rounded_up() {
    for (volts, amperes, expected) in [
        (400.25, 0.0, (401, 0)), (400.0, 0.1, (400, 1)), (400.0f32.next_up(), 1.0, (401, 1)),
        (400.05, 1.0f32.next_up(), (401, 2)), (399.9, 0.9, (400, 1)), (1000.0, f32::from_bits(1), (1000, 1)),
        (999.05, 253.95, (1000, 254)), (999.0, 254.0, (999, 254)), (500.0, 254.0f32.next_up(), (500, 255)),
        (500.0, 255.0, (500, 255)), (500.0, 255.0f32.next_up(), (500, 255)), (500.0, 256.0, (500, 255)),
        (500.0, 399.95, (500, 255)), (500.0, 400.0, (500, 255)),
    ] {
        assert_eq!(carried(volts, amperes), expected, "{volts} V {amperes} A");
    }
    // The least whole number not below the value, by way of tenths or straight.
    for volts in floats() {
        let amperes = volts.min(400.0);
        let expected = (volts.ceil() as u16, amperes.ceil().min(255.0) as u8);
        assert_eq!(carried(volts, amperes), expected, "{volts} V {amperes} A");
    }
}
