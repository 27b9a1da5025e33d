//! The post's two calls, on numbers and byte slices of any length.

use crate::lead::{self, bytes_at, Input, Lead, Rating};
use crate::readings::{cable_resistance_allowed, Tenths, MOST_ERROR};
use crate::sharing::{level, MOST_LEADS};

/// Places in the head of the state.
pub mod head_place {
    pub const LEADS: usize = 0;
    pub const AMPERES: usize = 1;
    pub const VOLTS: usize = 2;
    pub const RESISTANCE: usize = 4;
    /// 2026-08: the meters' errors, "volts first, in two bytes at the head's end".
    pub const VOLTS_ERROR: usize = 8;
    pub const AMPERES_ERROR: usize = 9;
}

/// The head before the leads' states.
pub const HEAD_BYTES: usize = 10;

/// The allowance before the leads' inputs.
pub const ALLOWANCE_BYTES: usize = 4;

pub const fn state_bytes(leads: usize) -> usize {
    HEAD_BYTES + lead::STATE_BYTES * leads
}

pub const fn input_bytes(leads: usize) -> usize {
    ALLOWANCE_BYTES + lead::INPUT_BYTES * leads
}

pub const fn output_bytes(leads: usize) -> usize {
    lead::OUTPUT_BYTES * leads
}

pub const DONE: u32 = 0;
pub const REFUSED_LEADS: u32 = 1;
pub const REFUSED_RATED_VOLTS: u32 = 2;
pub const REFUSED_RATED_AMPERES: u32 = 3;
pub const REFUSED_RESISTANCE: u32 = 4;
pub const REFUSED_ERROR: u32 = 32;
pub const REFUSED_SETUP_LENGTH: u32 = 5;
pub const REFUSED_STATE: u32 = 6;
pub const REFUSED_INPUT_LENGTH: u32 = 7;
pub const REFUSED_OUTPUT_LENGTH: u32 = 8;
pub const REFUSED_INPUT: u32 = 9;

/// The refusals of a table of questions, in the order of asking.
const fn refusals<Question, const N: usize>(questions: &[(u32, Question); N]) -> [u32; N] {
    let mut refusals = [DONE; N];
    let mut at = 0;
    while at < N {
        refusals[at] = questions[at].0;
        at += 1;
    }
    refusals
}

// ---------------------------------------------------------------------------
// Setup

/// "Rated volts 50–500? Rated amperes 1–200?"
pub const LEAST_RATED_VOLTS: u32 = 50;
pub const MOST_RATED_VOLTS: u32 = 500;
pub const LEAST_RATED_AMPERES: u32 = 1;
pub const MOST_RATED_AMPERES: u32 = 200;

/// What setup is given; `resistance` is the bits of a float.
struct Given {
    leads: u32,
    volts: u32,
    amperes: u32,
    resistance: u32,
    volts_error: Tenths,
    amperes_error: Tenths,
    state_length: usize,
}

/// In the order of asking: the first no is the refusal, so that a question may
/// rest on those before it.
#[rustfmt::skip]
const SETUP_QUESTIONS: [(u32, fn(&Given) -> bool); 6] = [
    (REFUSED_LEADS, |given| (1..=MOST_LEADS as u32).contains(&given.leads)),
    (REFUSED_RATED_VOLTS, |given| (LEAST_RATED_VOLTS..=MOST_RATED_VOLTS).contains(&given.volts)),
    (REFUSED_RATED_AMPERES, |given| (LEAST_RATED_AMPERES..=MOST_RATED_AMPERES).contains(&given.amperes)),
    (REFUSED_RESISTANCE, |given| cable_resistance_allowed(f32::from_bits(given.resistance))),
    (REFUSED_ERROR, |given| given.volts_error <= MOST_ERROR && given.amperes_error <= MOST_ERROR),
    (REFUSED_SETUP_LENGTH, |given| given.state_length == state_bytes(given.leads as usize)),
];

pub const SETUP_REFUSALS: [u32; 6] = refusals(&SETUP_QUESTIONS);

impl Given {
    fn refusal(&self) -> Option<u32> {
        let no = SETUP_QUESTIONS.iter().find(|(_, yes)| !yes(self));
        no.map(|&(refusal, _)| refusal)
    }
}

/// Writes a fresh state. `resistance` is the bits of a float; the meters' errors are
/// in tenths.
pub fn setup(
    leads: u32,
    volts: u32,
    amperes: u32,
    resistance: u32,
    volts_error: u32,
    amperes_error: u32,
    state: &mut [u8],
) -> u32 {
    let given = Given {
        leads,
        volts,
        amperes,
        resistance,
        volts_error: Tenths(volts_error),
        amperes_error: Tenths(amperes_error),
        state_length: state.len(),
    };
    if let Some(refusal) = given.refusal() {
        return refusal;
    }
    state.fill(0);
    state[head_place::LEADS] = leads as u8;
    state[head_place::AMPERES] = amperes as u8;
    state[head_place::VOLTS..head_place::RESISTANCE].copy_from_slice(&(volts as u16).to_le_bytes());
    state[head_place::RESISTANCE..head_place::VOLTS_ERROR]
        .copy_from_slice(&resistance.to_le_bytes());
    state[head_place::VOLTS_ERROR] = volts_error as u8;
    state[head_place::AMPERES_ERROR] = amperes_error as u8;
    DONE
}

// ---------------------------------------------------------------------------
// Tick

/// A head as setup takes it.
#[derive(Clone, Copy, Debug)]
pub struct Head {
    pub leads: usize,
    pub rating: Rating,
}

impl Head {
    /// Before a state is read.
    const NONE: Head = Head {
        leads: 0,
        rating: Rating {
            volts: 0,
            amperes: 0,
            cable_resistance: 0.0,
            volts_error: Tenths(0),
            amperes_error: Tenths(0),
        },
    };

    pub fn read(bytes: &[u8; HEAD_BYTES]) -> Option<Head> {
        let leads = usize::from(bytes[head_place::LEADS]);
        let amperes = bytes[head_place::AMPERES];
        let volts = u16::from_le_bytes(bytes_at(bytes, head_place::VOLTS));
        let resistance = u32::from_le_bytes(bytes_at(bytes, head_place::RESISTANCE));
        let volts_error = Tenths(bytes[head_place::VOLTS_ERROR].into());
        let amperes_error = Tenths(bytes[head_place::AMPERES_ERROR].into());
        let given = Given {
            leads: leads as u32,
            volts: volts.into(),
            amperes: amperes.into(),
            resistance,
            volts_error,
            amperes_error,
            // The head says how long its state must be, not how long it is.
            state_length: state_bytes(leads),
        };
        let rating = Rating {
            volts,
            amperes,
            cable_resistance: f32::from_bits(resistance),
            volts_error,
            amperes_error,
        };
        given.refusal().is_none().then_some(Head { leads, rating })
    }
}

/// What tick is given, and what its questions have read of it.
struct Call<'a> {
    state: &'a mut [u8],
    input: &'a [u8],
    output: &'a mut [u8],
    head: Head,
    leads: [Lead; MOST_LEADS],
    inputs: [Input<'a>; MOST_LEADS],
}

/// In the order of asking, as in setup.
#[rustfmt::skip]
const TICK_QUESTIONS: [(u32, fn(&mut Call) -> bool); 4] = [
    (REFUSED_STATE, |call| call.read_state().is_some()),
    (REFUSED_INPUT_LENGTH, |call| call.input.len() == input_bytes(call.head.leads)),
    (REFUSED_OUTPUT_LENGTH, |call| call.output.len() == output_bytes(call.head.leads)),
    (REFUSED_INPUT, |call| call.read_inputs().is_some()),
];

pub const TICK_REFUSALS: [u32; 4] = refusals(&TICK_QUESTIONS);

/// One tick of all leads. A refusal changes no byte of state or output.
pub fn tick(state: &mut [u8], input: &[u8], output: &mut [u8]) -> u32 {
    let mut call = Call {
        state,
        input,
        output,
        head: Head::NONE,
        leads: [Lead::FRESH; MOST_LEADS],
        inputs: [Input::NOTHING; MOST_LEADS],
    };
    if let Some((refusal, _)) = TICK_QUESTIONS.iter().find(|(_, yes)| !yes(&mut call)) {
        return *refusal;
    }
    call.carry_out();
    DONE
}

impl Call<'_> {
    /// `None` if the state is not a good one.
    fn read_state(&mut self) -> Option<()> {
        let (head, records) = self.state.split_first_chunk()?;
        self.head = Head::read(head)?;
        if self.state.len() != state_bytes(self.head.leads) {
            return None;
        }
        for (lead, record) in self.leads.iter_mut().zip(records.as_chunks().0) {
            *lead = Lead::read(record, &self.head.rating)?;
        }
        Some(())
    }

    /// `None` unless "every spare bit and byte 3 zero, counts at most 8".
    fn read_inputs(&mut self) -> Option<()> {
        let (records, _) = self.input[ALLOWANCE_BYTES..].as_chunks();
        for (input, record) in self.inputs.iter_mut().zip(records) {
            *input = Input::read(record, &self.head.rating)?;
        }
        Some(())
    }

    /// Nothing is written before it, nothing refused after it has begun.
    fn carry_out(&mut self) {
        let rating = &self.head.rating;
        let leads = &mut self.leads[..self.head.leads];
        // A lead that is not there wants 0.
        let mut wants = [0; MOST_LEADS];
        for ((lead, input), want) in leads.iter_mut().zip(&self.inputs).zip(&mut wants) {
            lead.advance(input, rating);
            *want = lead.want(rating);
        }
        let level = level(wants, u32::from_le_bytes(bytes_at(self.input, 0)));
        let records = self.state[HEAD_BYTES..].as_chunks_mut().0;
        let outputs = self.output.as_chunks_mut().0;
        let written = records.iter_mut().zip(outputs);
        for ((lead, input), (record, output)) in leads.iter_mut().zip(&self.inputs).zip(written) {
            lead.take(level, rating);
            lead.write(record);
            lead.output(input, level, rating, output);
        }
    }
}
