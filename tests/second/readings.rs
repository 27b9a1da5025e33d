//! Readings: what the meter board gives, and the tenths made of it.

use std::ops::Add;

/// The highest meter volts of a good reading.
pub const MOST_VOLTS: f32 = 1000.0;

/// The highest meter amperes of a good reading.
pub const MOST_AMPERES: f32 = 400.0;

/// "Resistance 0 to 1": the highest cable resistance, in ohms.
pub const MOST_CABLE_RESISTANCE: f32 = 1.0;

/// 2026-08: the largest error of a meter, of volts or of amperes.
pub const MOST_ERROR: Tenths = Tenths(50);

/// Question 27: ohms of insulation asked for each volt of the threshold.
pub const INSULATION_OHMS_PER_VOLT: f32 = 100.0;

/// "A reading is a value or missing."
#[derive(Clone, Copy, Debug)]
pub enum Reading {
    Value(f32),
    Missing,
}

impl Reading {
    /// The bytes of a missing reading are not looked at.
    pub fn from_bytes(present: bool, bytes: [u8; 4]) -> Reading {
        if present {
            Reading::Value(f32::from_le_bytes(bytes))
        } else {
            Reading::Missing
        }
    }
}

/// What the correction of the meter's volts needs.
#[derive(Clone, Copy, Debug)]
pub struct Meter {
    pub volts: Reading,
    pub amperes: Reading,
    pub cable_resistance: f32,
}

/// Tenths of a volt or of an ampere. Whole volts and amperes are plain numbers.
#[derive(Clone, Copy, Debug, PartialEq, Eq, PartialOrd, Ord)]
pub struct Tenths(pub u32);

impl Tenths {
    pub const IN_A_WHOLE: u32 = 10;

    pub const fn of_whole(number: u16) -> Tenths {
        Tenths(number as u32 * Self::IN_A_WHOLE)
    }

    /// 2026-04: "Readings now become the least whole tenth not below the exact
    /// value of the float." For values from 0 to 1000. Ten times the 24 bits of
    /// the float fit into the 53 of an f64, so that nothing is rounded before
    /// the last step.
    fn least_not_below(value: f32) -> Tenths {
        let ten_times = f64::from(value) * f64::from(Self::IN_A_WHOLE);
        Tenths(ten_times.ceil() as u32)
    }

    /// 2026-08: "A reading stands for every value from tenths − e (at least 0) to
    /// tenths + e." Where the upper end is at most a limit, each value of the range
    /// is. It may lie above the highest volts or amperes of a good reading.
    pub fn upper_end(self, error: Tenths) -> Tenths {
        self + error
    }

    /// The least whole number not below.
    pub const fn rounded_up(self) -> u32 {
        self.0.div_ceil(Self::IN_A_WHOLE)
    }
}

impl Add for Tenths {
    type Output = Tenths;

    fn add(self, more: Tenths) -> Tenths {
        Tenths(self.0 + more.0)
    }
}

/// A good reading in tenths, the volts being those at the connector. The meters'
/// errors are not in it.
#[derive(Clone, Copy, Debug, PartialEq, Eq)]
pub struct Measured {
    pub connector_volts: Tenths,
    pub amperes: Tenths,
}

impl Meter {
    /// `None` if the reading is not good. The range is that of the meter's
    /// volts, before the cable is allowed for.
    pub fn measure(self) -> Option<Measured> {
        let (Reading::Value(volts), Reading::Value(amperes)) = (self.volts, self.amperes) else {
            return None;
        };
        // No range contains a NaN; both contain minus zero.
        let good = (0.0..=MOST_VOLTS).contains(&volts) && (0.0..=MOST_AMPERES).contains(&amperes);
        good.then(|| Measured {
            connector_volts: Tenths::least_not_below(connector_volts(
                volts,
                amperes,
                self.cable_resistance,
            )),
            amperes: Tenths::least_not_below(amperes),
        })
    }
}

/// "The product rounded once, the difference rounded once, a negative result
/// taken as 0."
fn connector_volts(volts: f32, amperes: f32, cable_resistance: f32) -> f32 {
    let product = cable_resistance * amperes;
    let difference = volts - product;
    if difference < 0.0 {
        0.0
    } else {
        difference
    }
}

/// "Resistance 0 to 1, so no NaN?" Minus zero is zero.
pub fn cable_resistance_allowed(ohms: f32) -> bool {
    (0.0..=MOST_CABLE_RESISTANCE).contains(&ohms)
}

/// "Resistance, if given, at least 100 ohms × threshold?" A NaN is a no, plus
/// infinity a yes. The product is exact: it is below 2^24.
pub fn insulation_holds(insulation: Reading, threshold: u16) -> bool {
    match insulation {
        Reading::Missing => true,
        Reading::Value(ohms) => ohms >= INSULATION_OHMS_PER_VOLT * f32::from(threshold),
    }
}

#[cfg(test)]
mod tests {
    use super::*;
    use crate::tests::floats;

    /// In tenths.
    fn measure(volts: f32, amperes: f32, cable_resistance: f32) -> Option<(u32, u32)> {
        let (volts, amperes) = (Reading::Value(volts), Reading::Value(amperes));
        let meter = Meter {
            volts,
            amperes,
            cable_resistance,
        };
        let measured = meter.measure()?;
        Some((measured.connector_volts.0, measured.amperes.0))
    }

    /// From the bits: the significand, shifted to the right by so many places.
    fn tenths_by_bits(value: f32) -> u64 {
        let (exponent, fraction) = (value.to_bits() >> 23, value.to_bits() & 0x7F_FFFF);
        let (significand, shift) = match exponent {
            0 => (fraction, 149),
            _ => (fraction | 1 << 23, 150 - exponent),
        };
        // Ten times the significand has 28 bits, so a longer shift gives no other number.
        (u64::from(significand) * 10).div_ceil(1 << shift.min(63))
    }

    #[test]
    #[rustfmt::skip]
    fn good_readings() {
        let least = f32::from_bits(1);
        let above_10 = 10.0f32.next_up();
        let last_place = above_10 - 10.0;
        for (volts, amperes, resistance, expected) in [
            // 2026-04: "starred cases now 4,003, 3,500 and 0 tenths."
            (400.25, 0.0, 0.0, (4_003, 0)),
            (400.0, 100.0, 0.5, (3_500, 1_000)),
            (-0.0, 0.0, 0.0, (0, 0)), (-0.0, -0.0, -0.0, (0, 0)),
            // The largest.
            (1000.0, 400.0, 0.0, (10_000, 4_000)), (1000.0f32.next_down(), 400.0f32.next_down(), 0.0, (10_000, 4_000)),
            (1000.0, 400.0, 1.0, (6_000, 4_000)),
            // Good looks at the meter's volts: a negative difference is 0, not bad.
            (1.0, 400.0, 1.0, (0, 4_000)),
            // 0.1 × 3 is rounded up to 0.3; without that rounding a rest above 0 would remain.
            (0.3, 3.0, 0.1, (0, 30)),
            // A rest of a tenth of the last place above 10 is rounded away, half of it to the even side, 10.
            (above_10, 1.0, 0.9 * last_place, (100, 10)), (above_10, 1.0, 0.1 * last_place, (101, 10)),
            (above_10, 1.0, 0.5 * last_place, (100, 10)),
            // The raw amperes go into the product: 100.0625 A, not 100.1 A.
            (400.0, 100.0625, 1.0, (3_000, 1_001)),
            // Subnormals are kept: the least one rounds up to 1.
            (least, 0.0, 0.0, (1, 0)), (0.0, least, 0.0, (0, 1)), (least, 1.0, least, (0, 10)),
        ] {
            assert_eq!(measure(volts, amperes, resistance), Some(expected), "{volts} V {amperes} A");
        }
        for (volts, amperes) in [
            (1000.0f32.next_up(), 0.0), (-least, 0.0), (f32::NAN, 0.0), (f32::INFINITY, 0.0), (f32::NEG_INFINITY, 0.0),
            (0.0, 400.0f32.next_up()), (0.0, -least), (0.0, f32::NAN), (0.0, f32::INFINITY), (0.0, f32::NEG_INFINITY),
        ] {
            assert_eq!(measure(volts, amperes, 0.0), None, "{volts} V {amperes} A");
        }
    }

    #[test]
    #[rustfmt::skip]
    fn tenths_of_floats() {
        for (value, expected) in [
            // The float nearest to a tenth may lie above it, below it or on it.
            (0.1f32.next_down(), 1), (0.1, 2), (4.9f32.next_down(), 49), (4.9, 50),
            (0.7, 7), (0.7f32.next_up(), 8), (399.9, 3_999), (399.9f32.next_up(), 4_000),
            (0.5f32.next_down(), 5), (0.5, 5), (0.5f32.next_up(), 6), (127.5, 1_275), (127.5f32.next_up(), 1_276),
            (999.9f32.next_down(), 9_999), (999.9, 10_000), (1000.0f32.next_down(), 10_000), (1000.0, 10_000),
            // The least and the largest subnormal, and the float after them.
            (f32::from_bits(1), 1), (f32::MIN_POSITIVE.next_down(), 1), (f32::MIN_POSITIVE, 1), (0.0, 0), (-0.0, 0),
        ] {
            assert_eq!(Tenths::least_not_below(value), Tenths(expected), "{value}");
        }
        // Ten times these, worked out in f32, would be rounded down to a whole number.
        for (value, rounded) in [
            (0.1, 1), (0.3, 3), (0.6, 6), (4.9, 49), (9.8, 98), (127.4, 1_274), (350.1, 3_501), (999.9, 9_999),
        ] {
            assert_eq!(value * 10.0, rounded as f32);
            assert_eq!(Tenths::least_not_below(value), Tenths(rounded + 1), "{value}");
        }
    }

    #[test]
    fn the_exact_value_counts() {
        for value in floats() {
            let tenths = Tenths::least_not_below(value);
            assert_eq!(u64::from(tenths.0), tenths_by_bits(value), "{value}");
            // By way of tenths or straight, the same whole number.
            assert_eq!(tenths.rounded_up(), value.ceil() as u32, "{value}");
        }
    }

    #[test]
    fn tenths_and_whole_numbers() {
        for number in 0..=u16::MAX {
            let tenths = Tenths::of_whole(number);
            let whole = u32::from(number);
            assert_eq!((tenths.0, tenths.rounded_up()), (10 * whole, whole));
            for more in [1, 5, 9, 10] {
                assert_eq!((tenths + Tenths(more)).rounded_up(), whole + 1);
            }
        }
    }

    #[test]
    fn upper_ends() {
        for tenths in 0..=10_000 {
            for error in 0..=MOST_ERROR.0 {
                // Nothing stops it at the highest volts or amperes of a good reading.
                let upper_end = Tenths(tenths).upper_end(Tenths(error));
                assert_eq!(upper_end, Tenths(tenths + error));
            }
        }
        assert_eq!(MOST_ERROR, Tenths(50));
    }

    #[test]
    fn both_must_be_present() {
        let value = |present| Reading::from_bytes(present, 1.0f32.to_le_bytes());
        for (volts, amperes) in [(true, true), (true, false), (false, true), (false, false)] {
            let meter = Meter {
                volts: value(volts),
                amperes: value(amperes),
                cable_resistance: 0.0,
            };
            assert_eq!(meter.measure().is_some(), volts && amperes);
        }
        // The bytes of a missing one are not looked at.
        let nan = f32::NAN.to_le_bytes();
        assert!(matches!(Reading::from_bytes(false, nan), Reading::Missing));
        assert!(matches!(Reading::from_bytes(true, nan), Reading::Value(v) if v.is_nan()));
    }

    #[test]
    fn resistances() {
        for ohms in [0.0, -0.0, 0.5, 1.0] {
            assert!(cable_resistance_allowed(ohms));
        }
        let below = -f32::from_bits(1);
        for ohms in [1.0f32.next_up(), below, f32::NAN, f32::INFINITY] {
            assert!(!cable_resistance_allowed(ohms));
        }
        for ohms in [40_000.0, 40_001.0, f32::INFINITY] {
            assert!(insulation_holds(Reading::Value(ohms), 400));
        }
        let below = 40_000.0f32.next_down();
        for ohms in [39_999.0, below, 0.0, -0.0, f32::NAN, f32::NEG_INFINITY] {
            assert!(!insulation_holds(Reading::Value(ohms), 400));
        }
        assert!(insulation_holds(Reading::Missing, 400));
    }
}
