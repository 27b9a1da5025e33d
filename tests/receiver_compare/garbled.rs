//! Calls with something wrong: lengths, register numbers, and all of it that goes together.

use second::receiver::place::{FIRST_MAILBOX, STATUS};
use second::receiver::{LAST_REGISTER, REGISTERS, STATE_BYTES};
use shared::compare::{junk, spoil_length};
use shared::dice::Dice;

use crate::call::{slice_of, Call, Run, ENTRIES};
use crate::steps::ALL;

/// A call of the entries in turn. A drain with none held and an arrival with all eight would do
/// less, and are refused all the same.
pub fn run(run: &mut Run) -> Result<(), String> {
    let entry = ENTRIES[run.number as usize % ENTRIES.len()];
    let mut receiver = junk(STATE_BYTES, &mut run.dice);
    receiver[STATUS] = run.dice.pick(&[0, ALL, receiver[STATUS], receiver[STATUS]]);
    let mut call = Call::of(entry, receiver, &mut run.dice);
    let low = run.dice.below(FIRST_MAILBOX as u32);
    call.number = run.dice.pick(&[low, call.number]);
    run.make_garbled(call, spoil)
}

/// Makes one or more of the entry's refusals fit.
pub fn spoil(call: &mut Call, dice: &mut Dice) {
    for refusal in dice.some(call.entry.refusals()) {
        match slice_of(refusal) {
            Some(slice) => spoil_length(&mut call.slices[slice], dice),
            None => call.number = wrong_number(dice),
        }
    }
}

/// A number that no register has. Many are one again if all but their low 8 or 16 bits are cut off.
fn wrong_number(dice: &mut Dice) -> u32 {
    let after = LAST_REGISTER + 1;
    let any = dice.below(REGISTERS as u32);
    let low = dice.below(FIRST_MAILBOX as u32);
    let register = dice.pick(&[any, low]);
    match dice.below(8) {
        0 => dice.pick(&[after, after + 1, 127, 128, 255]),
        1 => dice.pick(&[256, 257, 65_535, 1 << 31, u32::MAX - 1, u32::MAX]),
        2 | 3 => register + (1 << 8) * (1 + dice.below(255)),
        4 | 5 => register + (1 << 16) * (1 + dice.below(65_535)),
        6 => after + dice.below(256 - after),
        _ => after.max(dice.next() >> dice.below(24)),
    }
}
