//! A call that was made, carried out or refused, and every refusal that fits it.

use second::receiver::{LAST_REGISTER, REFUSED_REGISTER};

use crate::call::{slice_of, Call, Entry};
use crate::steps::Receiver;

pub struct Made {
    pub entry: Entry,
    /// Of the register.
    pub number: u32,
    pub lengths: [usize; 3],
    /// If it is whole.
    pub receiver: Option<Receiver>,
    pub answer: u32,
    /// In the order of asking.
    pub fits: Vec<u32>,
}

impl Made {
    pub fn new(call: &Call, answer: u32) -> Made {
        let lengths = call.slices.each_ref().map(Vec::len);
        let right = call.entry.lengths();
        let fits = |refusal: &u32| match slice_of(*refusal) {
            Some(slice) => lengths[slice] != right[slice],
            None => *refusal == REFUSED_REGISTER && call.number > LAST_REGISTER,
        };
        Made {
            entry: call.entry,
            number: call.number,
            lengths,
            receiver: call.slices[0].as_slice().try_into().ok(),
            answer,
            fits: call.entry.refusals().iter().copied().filter(fits).collect(),
        }
    }

    /// Refused with this one, and nothing else wrong.
    pub fn alone(&self, entry: Entry, refusal: u32) -> bool {
        self.entry == entry && self.answer == refusal && self.fits == [refusal]
    }

    /// The same of a read or a write of this register.
    pub fn alone_at(&self, entry: Entry, refusal: u32, register: usize) -> bool {
        self.alone(entry, refusal) && self.number as usize == register
    }

    pub fn has_receiver(&self, holds: impl Fn(&Receiver) -> bool) -> bool {
        self.receiver.as_ref().is_some_and(holds)
    }
}
