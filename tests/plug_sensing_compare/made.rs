//! A call that was made, carried out or refused, and every refusal that fits it.

use second::plug::*;

use crate::call::Call;

pub struct Made {
    /// As before the call.
    pub call: Call,
    pub answer: u32,
    /// In the order of asking.
    pub fits: Vec<u32>,
    /// The plug, as the call left it.
    pub left: Vec<u8>,
}

impl Made {
    pub fn new(call: &Call, answer: u32, left: &[u8]) -> Made {
        let fits = |refusal: &u32| match *refusal {
            REFUSED_MILLIVOLTS => call.millivolts > MOST_MILLIVOLTS,
            REFUSED_STATE => call.state != FRESH && call.state != AFTER_LOWEST,
            _ => call.plug.len() != PLUG_BYTES,
        };
        Made {
            call: call.clone(),
            answer,
            fits: PLUG_SENSE_REFUSALS.into_iter().filter(fits).collect(),
            left: left.to_vec(),
        }
    }

    /// Refused with this one, and nothing else wrong.
    pub fn alone(&self, refusal: u32) -> bool {
        self.answer == refusal && self.fits == [refusal]
    }

    /// Carried out, on this state.
    pub fn done(&self, state: [u8; STATE_BYTES]) -> bool {
        self.answer == DONE && self.call.state == state
    }
}
