//! Frames: what the car sends and what the post sends, byte by byte.

/// A frame record: identifier (2), length (1), data (8).
pub const RECORD_BYTES: usize = 11;

pub type Record = [u8; RECORD_BYTES];
pub type Data = [u8; 8];

/// "A length other than 8 is ignored."
pub const FRAME_LENGTH: u8 = 8;

/// Identifiers heard.
pub const CAR_LIMITS: u16 = 0x100;
pub const CAR_TIMES: u16 = 0x101;
pub const CAR_STATUS: u16 = 0x102;

/// Byte 1 of H'101 that sends the reader to byte 2.
pub const IN_MINUTES: u8 = 0xFF;

/// Byte 4 of H'102: bits 0–4 are faults.
pub const FAULTS: u8 = 0x1F;

/// Byte 5 of H'102.
pub const ENABLED: u8 = 1 << 0;
pub const NOT_IN_PARK: u8 = 1 << 1;
pub const SYSTEM_FAULT: u8 = 1 << 2;
pub const CONTACTOR_OPEN: u8 = 1 << 3;
pub const STOP_REQUEST: u8 = 1 << 4;

/// Byte 3 of H'109 holds no more.
pub const MOST_AMPERES_SHOWN: u16 = 255;

#[derive(Clone, Copy, Debug, PartialEq, Eq)]
pub struct TensOfSeconds(pub u8);

#[derive(Clone, Copy, Debug, PartialEq, Eq)]
pub struct Minutes(pub u8);

#[derive(Clone, Copy, Debug, PartialEq, Eq, PartialOrd, Ord)]
pub struct Ticks(pub u32);

impl TensOfSeconds {
    const TICKS: u32 = 100;

    pub fn ticks(self) -> Ticks {
        Ticks(u32::from(self.0) * Self::TICKS)
    }

    /// Rounded down. The time is never above that of an H'101.
    fn of(time: Ticks) -> TensOfSeconds {
        TensOfSeconds((time.0 / Self::TICKS) as u8)
    }
}

impl Minutes {
    const TICKS: u32 = 600;

    pub fn ticks(self) -> Ticks {
        Ticks(u32::from(self.0) * Self::TICKS)
    }

    /// Rounded down. The time is never above that of an H'101.
    fn of(time: Ticks) -> Minutes {
        Minutes((time.0 / Self::TICKS) as u8)
    }
}

/// H'101: bytes 1 and 2 as they came, both kept whatever byte 1 says.
#[derive(Clone, Copy, Debug, PartialEq, Eq)]
pub struct ChargingTime {
    pub byte_1: u8,
    pub byte_2: u8,
}

impl ChargingTime {
    /// "Byte 1 charging time in tens of seconds; if it is H'FF, byte 2 gives
    /// minutes."
    pub fn ticks(self) -> Ticks {
        if self.in_minutes() {
            Minutes(self.byte_2).ticks()
        } else {
            TensOfSeconds(self.byte_1).ticks()
        }
    }

    /// Bytes 6–7 of H'109 when `age` of the charging time is spent.
    pub fn remaining(self, age: Ticks) -> [u8; 2] {
        let left = Ticks(self.ticks().0.saturating_sub(age.0));
        if self.in_minutes() {
            [IN_MINUTES, Minutes::of(left).0]
        } else {
            [TensOfSeconds::of(left).0, 0]
        }
    }

    pub fn in_minutes(self) -> bool {
        self.byte_1 == IN_MINUTES
    }
}

/// H'102: bytes 4 and 5 are kept whole, also the bits without a meaning.
#[derive(Clone, Copy, Debug, PartialEq, Eq)]
pub struct CarStatus {
    pub target_voltage: u16,
    pub requested_amperes: u8,
    pub faults: u8,
    pub status: u8,
}

impl CarStatus {
    pub fn faults_clear(self) -> bool {
        self.faults & FAULTS == 0 && self.status & SYSTEM_FAULT == 0
    }

    pub fn enabled(self) -> bool {
        self.status & ENABLED != 0
    }

    pub fn in_park(self) -> bool {
        self.status & NOT_IN_PARK == 0
    }

    pub fn contactor_open(self) -> bool {
        self.status & CONTACTOR_OPEN != 0
    }

    pub fn stop_request(self) -> bool {
        self.status & STOP_REQUEST != 0
    }
}

/// What the frames of one tick say.
#[derive(Clone, Copy, Debug, Default, PartialEq, Eq)]
pub struct Heard {
    pub maximum_voltage: Option<u16>,
    pub charging_time: Option<ChargingTime>,
    pub status: Option<CarStatus>,
}

impl Heard {
    /// 2026-06: "an H'102 counted in this tick with enabled clear". It is the last
    /// of the tick; what an earlier tick left remembered is not asked.
    pub fn withdraws(&self) -> bool {
        self.status.is_some_and(|status| !status.enabled())
    }
}

/// "Other identifiers, or a length other than 8, are ignored. Of several with
/// one identifier in a tick, the last counts."
pub fn hear(records: &[Record]) -> Heard {
    let mut heard = Heard::default();
    for record in records {
        let [low, high, length, data @ ..] = record;
        if *length != FRAME_LENGTH {
            continue;
        }
        match u16::from_le_bytes([*low, *high]) {
            CAR_LIMITS => heard.maximum_voltage = Some(u16::from_le_bytes([data[4], data[5]])),
            CAR_TIMES => {
                heard.charging_time = Some(ChargingTime {
                    byte_1: data[1],
                    byte_2: data[2],
                })
            }
            CAR_STATUS => {
                heard.status = Some(CarStatus {
                    target_voltage: u16::from_le_bytes([data[1], data[2]]),
                    requested_amperes: data[3],
                    faults: data[4],
                    status: data[5],
                })
            }
            _ => {}
        }
    }
    heard
}

/// H'108: the rated volts, the amperes offered, and the threshold once it is kept.
pub fn charger_limits(rated_volts: u16, offered_amperes: u8, threshold: u16) -> Data {
    let volts = rated_volts.to_le_bytes();
    let threshold = threshold.to_le_bytes();
    [
        1,
        volts[0],
        volts[1],
        offered_amperes,
        threshold[0],
        threshold[1],
        0,
        0,
    ]
}

/// Byte 5 of H'109, bits 0 to 5 in this order.
#[derive(Clone, Copy, Debug, PartialEq, Eq)]
pub struct ChargerFlags {
    pub charging: bool,
    pub charger_malfunction: bool,
    pub connector_locked: bool,
    pub battery_incompatible: bool,
    pub system_malfunction: bool,
    pub stop_control: bool,
}

impl ChargerFlags {
    pub fn byte(self) -> u8 {
        u8::from(self.charging)
            | u8::from(self.charger_malfunction) << 1
            | u8::from(self.connector_locked) << 2
            | u8::from(self.battery_incompatible) << 3
            | u8::from(self.system_malfunction) << 4
            | u8::from(self.stop_control) << 5
    }
}

/// H'109: present volts and amperes, flags, remaining time.
pub fn charger_status(
    volts: u16,
    amperes: u16,
    flags: ChargerFlags,
    remaining_time: [u8; 2],
) -> Data {
    let volts = volts.to_le_bytes();
    [
        2,
        volts[0],
        volts[1],
        amperes.min(MOST_AMPERES_SHOWN) as u8,
        0,
        flags.byte(),
        remaining_time[0],
        remaining_time[1],
    ]
}

#[cfg(test)]
mod tests {
    use super::*;

    fn time(byte_1: u8, byte_2: u8) -> ChargingTime {
        ChargingTime { byte_1, byte_2 }
    }

    fn record(identifier: u16, length: u8, data: Data) -> Record {
        let mut record = [0; RECORD_BYTES];
        record[..2].copy_from_slice(&identifier.to_le_bytes());
        record[2] = length;
        record[3..].copy_from_slice(&data);
        record
    }

    #[test]
    #[rustfmt::skip]
    fn charging_times() {
        for (byte_1, byte_2, ticks) in [
            (6, 0, 600), (6, 200, 600), (0xFF, 6, 3_600), (0, 0, 0), (0, 9, 0), (0xFF, 0, 0),
            (0xFE, 0, 25_400), (0xFF, 0xFF, 153_000),
        ] {
            assert_eq!(time(byte_1, byte_2).ticks(), Ticks(ticks));
        }
        for (byte_1, byte_2, age, shown) in [
            (6, 9, 0, [6, 0]), (6, 9, 1, [5, 0]), (6, 9, 600, [0, 0]), (6, 9, 601, [0, 0]),
            (0xFF, 6, 0, [0xFF, 6]), (0xFF, 6, 600, [0xFF, 5]), (0xFF, 6, 601, [0xFF, 4]), (0xFF, 255, 0, [0xFF, 255]),
        ] {
            assert_eq!(time(byte_1, byte_2).remaining(Ticks(age)), shown);
        }
    }

    #[test]
    fn places_of_the_bytes() {
        let heard = hear(&[
            record(0x100, 8, [9, 9, 9, 9, 0x90, 0x01, 9, 9]),
            record(0x101, 8, [9, 6, 7, 9, 9, 9, 9, 9]),
            record(0x102, 8, [9, 0x5E, 0x01, 120, 0xE0, 0xE1, 9, 9]),
        ]);
        let status = CarStatus {
            target_voltage: 350,
            requested_amperes: 120,
            faults: 0xE0,
            status: 0xE1,
        };
        let expected = Heard {
            maximum_voltage: Some(400),
            charging_time: Some(time(6, 7)),
            status: Some(status),
        };
        assert_eq!(heard, expected);
    }

    #[test]
    fn status_bits() {
        let car = |faults, status| CarStatus {
            target_voltage: 0,
            requested_amperes: 0,
            faults,
            status,
        };
        for bit in 0..8 {
            assert_eq!(car(1 << bit, 0).faults_clear(), bit > 4);
            assert_eq!(car(0, 1 << bit).enabled(), bit == 0);
            assert_eq!(car(0, 1 << bit).in_park(), bit != 1);
            assert_eq!(car(0, 1 << bit).faults_clear(), bit != 2);
            assert_eq!(car(0, 1 << bit).contactor_open(), bit == 3);
            assert_eq!(car(0, 1 << bit).stop_request(), bit == 4);
        }
    }

    #[test]
    fn the_last_of_length_8_counts() {
        for identifier in [0x100, 0x101, 0x102] {
            let alone = hear(&[record(identifier, 8, [2; 8])]);
            assert_ne!(alone, Heard::default());
            let first = record(identifier, 8, [1; 8]);
            let mut records = vec![first, record(identifier, 8, [2; 8])];
            records.extend([0, 7, 9, 255].map(|length| record(identifier, length, [3; 8])));
            assert_eq!(hear(&records), alone);
            assert_eq!(hear(&records[2..]), Heard::default());
        }
        for identifier in [
            0x0001, 0x0201, 0x8100, 0x8102, 0x0108, 0x0109, 0x0103, 0x0902,
        ] {
            assert_eq!(hear(&[record(identifier, 8, [1; 8])]), Heard::default());
        }
        assert_eq!(hear(&[]), Heard::default());
    }

    #[test]
    fn withdrawing() {
        let [set, clear] = [0xFF, 0xFF & !ENABLED].map(|status| [0, 0, 0, 0, 0, status, 0, 0]);
        let status = |data| record(0x102, 8, data);
        for (records, expected) in [
            (&[][..], false),
            (&[status(set)], false),
            (&[status(clear)], true),
            (&[status(clear), status(set)], false),
            (&[status(set), status(clear)], true),
            (&[status(set), record(0x102, 7, clear)], false),
            (&[status(clear), record(0x102, 9, set)], true),
            (&[record(0x100, 8, clear), record(0x101, 8, clear)], false),
            (&[status(clear), record(0x101, 8, set)], true),
        ] {
            assert_eq!(hear(records).withdraws(), expected, "{records:?}");
        }
    }

    #[test]
    fn frames_sent() {
        let limits = charger_limits(500, 125, 400);
        assert_eq!(limits, [1, 0xF4, 0x01, 125, 0x90, 0x01, 0, 0]);
        for bit in 0..6 {
            let flags = ChargerFlags {
                charging: bit == 0,
                charger_malfunction: bit == 1,
                connector_locked: bit == 2,
                battery_incompatible: bit == 3,
                system_malfunction: bit == 4,
                stop_control: bit == 5,
            };
            for (amperes, shown) in [(254, 254), (255, 255), (256, 255), (400, 255)] {
                let status = charger_status(401, amperes, flags, [5, 7]);
                assert_eq!(status, [2, 0x91, 0x01, shown, 0, 1 << bit, 5, 7]);
            }
        }
    }
}
