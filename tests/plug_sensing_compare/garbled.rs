//! Calls with something wrong: values, states, lengths, and all of it that goes together.

use second::plug::*;
use shared::compare::spoil_length;
use shared::dice::Dice;

use crate::call::{Call, Run};
use crate::kinds::{draw, KINDS, LOWEST, MIDDLE};

pub fn run(run: &mut Run) -> Result<(), String> {
    let any = run.dice.below(KINDS.len() as u32) as usize;
    let kind = run.dice.pick(&[LOWEST, MIDDLE, any]);
    let millivolts = draw(kind, &mut run.dice);
    let state = run.dice.pick(&[FRESH, AFTER_LOWEST]);
    let call = Call::of(&state, millivolts, &mut run.dice);
    run.make_garbled(call, spoil)
}

/// Makes one or more of the refusals fit.
pub fn spoil(call: &mut Call, dice: &mut Dice) {
    for refusal in dice.some(&PLUG_SENSE_REFUSALS) {
        match refusal {
            REFUSED_MILLIVOLTS => call.millivolts = wrong_millivolts(call.millivolts, dice),
            REFUSED_STATE => spoil_state(&mut call.state, dice),
            _ => spoil_length(&mut call.plug, dice),
        }
    }
}

/// Bytes that are neither state, and wrong lengths of those that begin as one.
fn spoil_state(state: &mut Vec<u8>, dice: &mut Dice) {
    match dice.below(4) {
        0 => spoil_length(state, dice),
        1 => state[0] = dice.pick(&[2, 3, 128, 254, 255]),
        _ => state[0] = dice.byte().max(2),
    }
}

/// A value too large. Many are right again if all but their low 16 bits are cut off.
fn wrong_millivolts(right: u32, dice: &mut Dice) -> u32 {
    let after = MOST_MILLIVOLTS + 1;
    match dice.below(6) {
        0 => dice.pick(&[after, after + 1, 32_768, 65_535, 65_536]),
        1 => dice.pick(&[1 << 31, u32::MAX - 1, u32::MAX]),
        2 | 3 => right + (1 << 16) * (1 + dice.below(65_535)),
        4 => after + dice.below(65_536 - after),
        _ => after.max(dice.next() >> dice.below(17)),
    }
}
