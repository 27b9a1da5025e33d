//! A lead's input put together by name, for tests and test programs.

use crate::frames::{Data, CAR_LIMITS, CAR_STATUS, CAR_TIMES, FRAME_LENGTH, RECORD_BYTES};
use crate::lead::input_place::{AMPERES, CONTACTS, COUNT, FRAMES, OHMS, PRESENT, VOLTS};
use crate::lead::{present, FRAME_RECORDS, INPUT_BYTES};

#[derive(Clone, Copy, Debug)]
pub struct LeadInput(pub [u8; INPUT_BYTES]);

impl LeadInput {
    /// These contacts closed or pressed, no reading, no frame.
    pub const fn new(contacts: u8) -> LeadInput {
        let mut bytes = [0; INPUT_BYTES];
        bytes[CONTACTS] = contacts;
        LeadInput(bytes)
    }

    pub fn close(mut self, contacts: u8) -> LeadInput {
        self.0[CONTACTS] |= contacts;
        self
    }

    pub fn open(mut self, contacts: u8) -> LeadInput {
        self.0[CONTACTS] &= !contacts;
        self
    }

    pub fn volts(self, volts: f32) -> LeadInput {
        self.value(VOLTS, present::VOLTS, volts)
    }

    pub fn amperes(self, amperes: f32) -> LeadInput {
        self.value(AMPERES, present::AMPERES, amperes)
    }

    pub fn reading(self, volts: f32, amperes: f32) -> LeadInput {
        self.volts(volts).amperes(amperes)
    }

    pub fn ohms(self, ohms: f32) -> LeadInput {
        self.value(OHMS, present::RESISTANCE, ohms)
    }

    fn value(mut self, at: usize, bit: u8, value: f32) -> LeadInput {
        self.0[PRESENT] |= bit;
        self.0[at..at + 4].copy_from_slice(&value.to_le_bytes());
        self
    }

    /// Clears present bits; the values stay where they are.
    pub fn missing(mut self, bits: u8) -> LeadInput {
        self.0[PRESENT] &= !bits;
        self
    }

    /// One frame record more. The ninth is left out.
    pub fn frame(mut self, identifier: u16, length: u8, data: Data) -> LeadInput {
        let at = usize::from(self.0[COUNT]);
        if at < FRAME_RECORDS {
            self.record(at, identifier, length, data);
            self.0[COUNT] += 1;
        }
        self
    }

    /// A record in a place, the count left as it is.
    pub fn record(&mut self, at: usize, identifier: u16, length: u8, data: Data) {
        let record = &mut self.0[FRAMES + RECORD_BYTES * at..][..RECORD_BYTES];
        record[..2].copy_from_slice(&identifier.to_le_bytes());
        record[2] = length;
        record[3..].copy_from_slice(&data);
    }

    pub fn count(mut self, count: u8) -> LeadInput {
        self.0[COUNT] = count;
        self
    }

    pub fn maximum_voltage(self, volts: u16) -> LeadInput {
        self.frame(CAR_LIMITS, FRAME_LENGTH, limits(volts))
    }

    pub fn charging_time(self, byte_1: u8, byte_2: u8) -> LeadInput {
        self.frame(CAR_TIMES, FRAME_LENGTH, times(byte_1, byte_2))
    }

    pub fn status(self, target: u16, request: u8, faults: u8, status: u8) -> LeadInput {
        self.frame(
            CAR_STATUS,
            FRAME_LENGTH,
            car_status(target, request, faults, status),
        )
    }
}

/// The data of an H'100.
pub fn limits(volts: u16) -> Data {
    let volts = volts.to_le_bytes();
    [0, 0, 0, 0, volts[0], volts[1], 0, 0]
}

/// The data of an H'101.
pub fn times(byte_1: u8, byte_2: u8) -> Data {
    [0, byte_1, byte_2, 0, 0, 0, 0, 0]
}

/// The data of an H'102.
pub fn car_status(target: u16, request: u8, faults: u8, status: u8) -> Data {
    let target = target.to_le_bytes();
    [0, target[0], target[1], request, faults, status, 0, 0]
}
