//! Why a call is refused: every number that fits, every flaw that there is.

use second::lead::*;
use second::post::{self, ALLOWANCE_BYTES, HEAD_BYTES};
use second::sharing::MOST_LEADS;
use shared::numbers::{Numbers, PLAIN};

use crate::compare::Call;
use crate::numbers;

/// A setup, with the length of its state, whether a lead charges in it, what was answered, and all
/// refusals that fit.
pub struct Setup {
    pub numbers: Numbers,
    pub length: usize,
    pub charges: bool,
    pub number: u32,
    pub fits: Vec<u32>,
}

impl Setup {
    pub fn new(call: &Call, numbers: Numbers, number: u32) -> Setup {
        Setup {
            numbers,
            length: call.state.len(),
            charges: charges(&call.state),
            number,
            fits: setup_fits(numbers, call.state.len()),
        }
    }

    pub fn right_length(&self) -> usize {
        post::state_bytes(self.numbers.leads as usize)
    }

    /// Refused for one thing alone.
    pub fn alone(&self) -> bool {
        self.fits.len() == 1
    }
}

/// All refusals that fit, in the order of asking: what setup refuses of each number alone, of both
/// errors together, the others being good. An empty state is refused last of all.
#[rustfmt::skip]
fn setup_fits(numbers: Numbers, length: usize) -> Vec<u32> {
    let Numbers { leads, volts, amperes, resistance, volts_error, amperes_error } = numbers;
    let one_by_one = [
        Numbers { leads, ..PLAIN }, Numbers { volts, ..PLAIN }, Numbers { amperes, ..PLAIN },
        Numbers { resistance, ..PLAIN }, Numbers { volts_error, amperes_error, ..PLAIN },
    ];
    let mut fits = one_by_one.map(|numbers| numbers.set_up(&mut [])).to_vec();
    fits.retain(|&refusal| refusal != post::REFUSED_SETUP_LENGTH);
    if length != post::state_bytes(leads as usize) {
        fits.push(post::REFUSED_SETUP_LENGTH);
    }
    fits
}

/// Whether a lead has energy, and a command that adds to it.
fn charges(state: &[u8]) -> bool {
    let (records, _) = state.get(HEAD_BYTES..).unwrap_or_default().as_chunks();
    records.iter().any(|record: &[u8; STATE_BYTES]| {
        let energy = &record[place::ENERGY..place::SPARE];
        record[place::COMMAND] > 0 && energy.iter().any(|&byte| byte > 0)
    })
}

/// A tick, with what was answered, and whether a lead charges in its state. Of one that is refused:
/// all refusals after that of the state that fit, all flaws of its state or its input, and the head
/// or the lead that alone makes the state a bad one, by one flaw.
pub struct Tick {
    pub number: u32,
    pub charges: bool,
    pub fits: Vec<u32>,
    pub flaws: Vec<String>,
    pub bad_head: Option<Numbers>,
    pub bad_lead: Option<BadLead>,
}

pub struct BadLead {
    pub record: [u8; STATE_BYTES],
    pub rating: Rating,
}

impl Tick {
    pub fn new(call: &Call, number: u32) -> Tick {
        let mut tick = Tick {
            number,
            charges: charges(&call.state),
            fits: Vec::new(),
            flaws: Vec::new(),
            bad_head: None,
            bad_lead: None,
        };
        match number {
            post::DONE => return tick,
            post::REFUSED_STATE => tick.find_state_flaws(&call.state),
            post::REFUSED_INPUT => tick.flaws = input_flaws(&call.input),
            _ => {}
        }
        // A bad head doesn't tell how many leads there are.
        let leads = call.state.first().map_or(0, |&leads| usize::from(leads));
        if (1..=MOST_LEADS).contains(&leads) {
            let input = call.input.len() != post::input_bytes(leads);
            let output = call.output.len() != post::output_bytes(leads);
            let flaws = !input_flaws(&call.input).is_empty();
            let input = input.then_some(post::REFUSED_INPUT_LENGTH);
            let output = output.then_some(post::REFUSED_OUTPUT_LENGTH);
            let flaws = flaws.then_some(post::REFUSED_INPUT);
            tick.fits = [input, output, flaws].into_iter().flatten().collect();
        }
        tick
    }

    pub fn has_bad_lead(&self, holds: impl Fn(&BadLead) -> bool) -> bool {
        self.bad_lead.as_ref().is_some_and(holds)
    }

    /// A state without a whole head has its length for a flaw.
    fn find_state_flaws(&mut self, state: &[u8]) {
        let Some((head, records)) = state.split_first_chunk() else {
            return self.flaws.push(head_flaw(post::REFUSED_SETUP_LENGTH));
        };
        let numbers = numbers::of_head(head);
        let rating = numbers::rating(numbers);
        let fits = setup_fits(numbers, state.len());
        self.bad_head = (!fits.is_empty()).then_some(numbers);
        self.flaws.extend(fits.into_iter().map(head_flaw));
        for (lead, &record) in records.as_chunks().0.iter().enumerate() {
            for condition in GOOD.iter().filter(|good| !(good.holds)(&record, &rating)) {
                self.flaws.push(lead_flaw(condition.text, lead));
                self.bad_lead = Some(BadLead { record, rating });
            }
        }
        if self.flaws.len() > 1 {
            (self.bad_head, self.bad_lead) = (None, None);
        }
    }
}

pub fn head_flaw(refusal: u32) -> String {
    format!("6 alone: what setup refuses with {refusal}")
}

pub fn lead_flaw(condition: &str, lead: usize) -> String {
    format!("6 alone: not {condition}, lead {}", lead + 1)
}

/// Of whole records.
fn input_flaws(input: &[u8]) -> Vec<String> {
    let (records, _) = input.get(ALLOWANCE_BYTES..).unwrap_or_default().as_chunks();
    let flaws = |(lead, record)| lead_input_flaws(record, lead);
    records.iter().enumerate().flat_map(flaws).collect()
}

/// What refusal 9 is about, in a lead's input.
pub fn lead_input_flaws(record: &[u8; INPUT_BYTES], lead: usize) -> Vec<String> {
    let mut flaws = Vec::new();
    let mut flaw = |text: &str| flaws.push(format!("9 alone: {text}, lead {}", lead + 1));
    for bit in 0..8 {
        if record[input_place::CONTACTS] & contact::SPARE & 1 << bit != 0 {
            flaw(&format!("contacts bit {bit}"));
        }
        if record[input_place::PRESENT] & present::SPARE & 1 << bit != 0 {
            flaw(&format!("present bit {bit}"));
        }
    }
    if usize::from(record[input_place::COUNT]) > FRAME_RECORDS {
        flaw(&format!("count {}", record[input_place::COUNT]));
    }
    if record[input_place::SPARE] != 0 {
        flaw("spare byte");
    }
    flaws
}
