//! Tests through the two calls, those of the receiver, that of the plug, those of the orders and the
//! bench language. Tests of a single layer stand beside it.
//! Most are tables of cases: what is done, what comes out.

mod bench;
mod energy;
mod meter_class;
mod offered;
mod orders;
mod output;
mod phases;
mod plug;
mod questions;
mod receiver;
mod refusals;
mod sessions;
mod sharing;
mod tenths;
mod withdrawal;

use crate::frames::{CONTACTOR_OPEN, ENABLED};
use crate::inputs::LeadInput;
use crate::lead::contact::{
    CHARGE_PERMISSION, CONNECTOR_LOCK, EMERGENCY_STOP, GROUND_FAULT, PLUG, START_BUTTON, STOP_BUTTON,
};
use crate::lead::place::*;
use crate::lead::{input_place, output_place, present, Rating, INPUT_BYTES, OUTPUT_BYTES, STATE_BYTES};
use crate::post::{
    head_place, input_bytes, output_bytes, setup, state_bytes, tick, ALLOWANCE_BYTES, DONE, HEAD_BYTES,
};
use crate::readings::Tenths;

/// An allowance that is never short.
const AMPLE: u32 = u32::MAX;

const CLOSED: u8 = PLUG | CHARGE_PERMISSION | CONNECTOR_LOCK;

/// Byte 3 of H'108 in a lead's output.
const OFFERED: usize = output_place::H108 + 3;

/// 500 V and 125 A, without cable resistance, the meters without error.
const RATING: Rating = Rating {
    volts: 500, amperes: 125, cable_resistance: 0.0, volts_error: Tenths(0), amperes_error: Tenths(0),
};

/// A state that setup wrote over other bytes.
fn set_up(leads: usize, volts: u32, amperes: u32, resistance: f32, volts_error: u32, amperes_error: u32) -> Vec<u8> {
    let mut state = vec![0xEE; state_bytes(leads)];
    let number = setup(leads as u32, volts, amperes, resistance.to_bits(), volts_error, amperes_error, &mut state);
    assert_eq!(number, DONE);
    state
}

/// The same without cable resistance, the meters without error.
fn fresh(leads: usize, volts: u32, amperes: u32) -> Vec<u8> {
    set_up(leads, volts, amperes, 0.0, 0, 0)
}

/// A tick that is done; what each lead shows.
fn done(state: &mut [u8], allowance: u32, inputs: &[LeadInput]) -> Vec<[u8; OUTPUT_BYTES]> {
    let mut input = allowance.to_le_bytes().to_vec();
    inputs.iter().for_each(|lead| input.extend(lead.0));
    let mut output = vec![0xEE; output_bytes(inputs.len())];
    assert_eq!(tick(state, &input, &mut output), DONE);
    output.as_chunks().0.to_vec()
}

/// One lead of a post of 500 V, 125 A, its meters without error, with a state handed in and an input
/// such that the lead stays in its phase. Tests change one thing at a time.
#[derive(Clone, Copy)]
struct Case {
    state: [u8; STATE_BYTES],
    input: LeadInput,
    rated: u32,
    resistance: f32,
    volts_error: u32,
    amperes_error: u32,
    allowance: u32,
}

type Change = fn(Case) -> Case;

const TARGET: u16 = 390;
const ASKED: u8 = 100;

impl Case {
    fn new(phase: u8) -> Case {
        let input = LeadInput::new(CLOSED).reading(200.0, 10.0);
        let post = Case {
            state: [0; STATE_BYTES], input, rated: 125, resistance: 0.0, volts_error: 0, amperes_error: 0, allowance: AMPLE,
        };
        let case = post.byte(PHASE, phase);
        if phase < 2 {
            return case;
        }
        let case = case.byte(SEEN, 7).number(THRESHOLD, 400).voltages(400, TARGET).time(60, 0)
            .byte(REQUEST, ASKED).byte(STATUS, ENABLED | CONTACTOR_OPEN);
        match phase {
            2 => case.open(CONNECTOR_LOCK),
            6 => case.byte(COMMAND, 20).byte(STATUS, ENABLED),
            7 => case.byte(COMMAND, 20),
            8 => case.byte(STATUS, ENABLED),
            _ => case,
        }
    }

    fn byte(mut self, at: usize, value: u8) -> Case { self.state[at] = value; self }
    fn flip(self, at: usize, bits: u8) -> Case { self.byte(at, self.state[at] ^ bits) }
    fn number(self, at: usize, value: u16) -> Case { self.byte(at, value as u8).byte(at + 1, (value >> 8) as u8) }
    fn voltages(self, most: u16, target: u16) -> Case { self.number(MAXIMUM_VOLTAGE, most).number(TARGET_VOLTAGE, target) }
    fn time(self, byte_1: u8, byte_2: u8) -> Case { self.byte(TIME_BYTE_1, byte_1).byte(TIME_BYTE_2, byte_2) }
    fn age(mut self, age: u32) -> Case { self.state[AGE..ENERGY].copy_from_slice(&age.to_le_bytes()); self }
    fn energy(mut self, energy: u64) -> Case { self.state[ENERGY..SPARE].copy_from_slice(&energy.to_le_bytes()); self }

    fn input(self, change: impl Fn(LeadInput) -> LeadInput) -> Case { Case { input: change(self.input), ..self } }
    fn close(self, contacts: u8) -> Case { self.input(|input| input.close(contacts)) }
    fn open(self, contacts: u8) -> Case { self.input(|input| input.open(contacts)) }
    /// These contacts and nothing else.
    fn only(self, contacts: u8) -> Case { self.input(|_| LeadInput::new(contacts)) }
    /// A missing reading stays missing.
    fn value(mut self, at: usize, value: f32) -> Case { self.input.0[at..][..4].copy_from_slice(&value.to_le_bytes()); self }
    fn volts(self, volts: f32) -> Case { self.value(input_place::VOLTS, volts) }
    fn amperes(self, amperes: f32) -> Case { self.value(input_place::AMPERES, amperes) }
    fn missing(self, bits: u8) -> Case { self.input(|input| input.missing(bits)) }
    fn ohms(self, ohms: f32) -> Case { self.input(|input| input.ohms(ohms)) }
    /// An H'102 as the state has it, but for the status byte.
    fn hears(self, status: u8) -> Case { self.input(|input| input.status(TARGET, ASKED, 0, status)) }
    fn allowance(self, allowance: u32) -> Case { Case { allowance, ..self } }
    fn rated(self, rated: u32) -> Case { Case { rated, ..self } }
    fn resistance(self, resistance: f32) -> Case { Case { resistance, ..self } }
    fn volts_error(self, volts_error: u32) -> Case { Case { volts_error, ..self } }
    fn amperes_error(self, amperes_error: u32) -> Case { Case { amperes_error, ..self } }

    fn tick(self) -> After {
        let mut state = set_up(1, 500, self.rated, self.resistance, self.volts_error, self.amperes_error);
        state[HEAD_BYTES..].copy_from_slice(&self.state);
        let output = done(&mut state, self.allowance, &[self.input])[0];
        let state: [u8; STATE_BYTES] = state[HEAD_BYTES..].try_into().unwrap();
        // Both begin with phase, reason and command.
        assert_eq!(state[..3], output[..3]);
        After { state, output }
    }
}

struct After {
    state: [u8; STATE_BYTES],
    output: [u8; OUTPUT_BYTES],
}

impl After {
    fn phase_and_reason(&self) -> (u8, u8) { (self.output[output_place::PHASE], self.output[output_place::REASON]) }
    fn command(&self) -> u8 { self.output[output_place::COMMAND] }
    fn offered(&self) -> u8 { self.output[OFFERED] }
    fn number(&self, at: usize) -> u16 { u16::from_le_bytes([self.state[at], self.state[at + 1]]) }
    fn age(&self) -> u32 { u32::from_le_bytes(self.state[AGE..ENERGY].try_into().unwrap()) }
    fn energy(&self) -> u64 { u64::from_le_bytes(self.state[ENERGY..SPARE].try_into().unwrap()) }
    fn h109(&self) -> &[u8] { &self.output[output_place::H109..] }
}

/// A fixed small generator of bytes.
fn generator() -> impl FnMut() -> u8 {
    let mut seed = 0x2545_F491_4F6C_DD1Du64;
    move || {
        seed = seed.wrapping_mul(6_364_136_223_846_793_005).wrapping_add(1);
        (seed >> 56) as u8
    }
}

/// Floats from 0 to 1000: those beside every tenth, and some of all sizes between.
pub(crate) fn floats() -> impl Iterator<Item = f32> {
    const MOST: u32 = 1000.0f32.to_bits();
    // The bits of floats that are not negative come in the order of the floats.
    let beside = (0..=10_000).flat_map(|tenth| {
        let nearest = (tenth as f32 / 10.0).to_bits();
        nearest.saturating_sub(3)..=MOST.min(nearest + 3)
    });
    beside.chain((0..=MOST).step_by(9_973)).map(f32::from_bits)
}

/// Rows of a phase, a change of its case, and what is then shown.
fn check<T: PartialEq + std::fmt::Debug>(show: fn(&After) -> T, rows: &[(u8, Change, T)]) {
    for (row, (phase, change, expected)) in rows.iter().enumerate() {
        let after = change(Case::new(*phase)).tick();
        assert_eq!(show(&after), *expected, "row {row}, phase {phase}");
    }
}

#[test]
fn places_and_bits_have_the_documents_numbers() {
    assert_eq!([PHASE, REASON, COMMAND, REQUEST, FAULTS, STATUS, SILENCE, SEEN], [0, 1, 2, 3, 4, 5, 6, 7]);
    assert_eq!([THRESHOLD, MAXIMUM_VOLTAGE, TARGET_VOLTAGE], [8, 10, 12]);
    assert_eq!([TIME_BYTE_1, TIME_BYTE_2, AGE, ENERGY, SPARE], [14, 15, 16, 20, 28]);
    assert_eq!([PLUG, CHARGE_PERMISSION, CONNECTOR_LOCK, EMERGENCY_STOP], [1, 2, 4, 8]);
    assert_eq!([STOP_BUTTON, START_BUTTON, GROUND_FAULT], [16, 32, 64]);
    assert_eq!([present::VOLTS, present::AMPERES, present::RESISTANCE], [1, 2, 4]);
    use input_place::{AMPERES, CONTACTS, COUNT, FRAMES, OHMS, PRESENT, VOLTS};
    assert_eq!([CONTACTS, PRESENT, COUNT, input_place::SPARE, VOLTS, AMPERES, OHMS, FRAMES], [0, 1, 2, 3, 4, 8, 12, 16]);
    use head_place::{AMPERES_ERROR, LEADS, RESISTANCE, VOLTS_ERROR};
    let head = [LEADS, head_place::AMPERES, head_place::VOLTS, RESISTANCE, VOLTS_ERROR, AMPERES_ERROR, HEAD_BYTES];
    assert_eq!(head, [0, 1, 2, 4, 8, 9, 10]);
    assert_eq!([1, 2, 3, 4].map(state_bytes), [42, 74, 106, 138]);
    assert_eq!([1, 4].map(input_bytes), [108, 420]);
    assert_eq!([1, 4].map(output_bytes), [24, 96]);
}
