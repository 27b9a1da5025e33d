//! Setup's six numbers, and floats at the ends of what there is.

/// The least float above 0.
pub const TINY: f32 = f32::from_bits(1);

/// A NaN that arithmetic would make another one of.
pub const SIGNALLING: f32 = f32::from_bits(0x7F80_0001);

/// What setup gets beside the state.
#[derive(Clone, Copy, Debug)]
pub struct Numbers {
    pub leads: u32,
    pub volts: u32,
    pub amperes: u32,
    /// The bits of a float.
    pub resistance: u32,
    /// Of the meters, in tenths.
    pub volts_error: u32,
    pub amperes_error: u32,
}

/// The numbers of document 01's whole case.
pub const PLAIN: Numbers = Numbers::of([1, 500, 125, 0, 0, 0]);

impl Numbers {
    pub const fn of(numbers: [u32; 6]) -> Numbers {
        let [leads, volts, amperes, resistance, volts_error, amperes_error] = numbers;
        Numbers {
            leads,
            volts,
            amperes,
            resistance,
            volts_error,
            amperes_error,
        }
    }

    /// The second implementation's setup.
    pub fn set_up(&self, state: &mut [u8]) -> u32 {
        second::post::setup(
            self.leads,
            self.volts,
            self.amperes,
            self.resistance,
            self.volts_error,
            self.amperes_error,
            state,
        )
    }
}
