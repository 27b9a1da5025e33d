//! What makes a tick refused: wrong lengths, flaws of an input, of a state.

use second::lead::*;
use second::post::{ALLOWANCE_BYTES, HEAD_BYTES};
use shared::dice::Dice;
use shared::stops::reasons;

use crate::compare::Call;

impl Call {
    /// Damages one of the three; an output has nothing but its length.
    pub fn spoil(&mut self, dice: &mut Dice) {
        match dice.below(5) {
            0 => spoil_a_lead(&mut self.state, dice),
            1 => spoil_length(&mut self.state, STATE_BYTES, dice),
            _ => self.spoil_beside_the_state(dice),
        }
    }

    pub fn spoil_beside_the_state(&mut self, dice: &mut Dice) {
        match dice.below(5) {
            0 => spoil_length(&mut self.input, INPUT_BYTES, dice),
            1 => spoil_length(&mut self.output, OUTPUT_BYTES, dice),
            _ => self.spoil_input(dice),
        }
    }

    /// One flaw in one lead's input, if there is any.
    fn spoil_input(&mut self, dice: &mut Dice) {
        let Some(record) = a_record::<INPUT_BYTES>(&mut self.input, ALLOWANCE_BYTES, dice) else {
            return;
        };
        let most = FRAME_RECORDS as u8;
        match dice.below(4) {
            0 => record[input_place::CONTACTS] |= contact::SPARE,
            1 => record[input_place::PRESENT] |= present::SPARE & 1 << dice.below(8),
            2 => record[input_place::COUNT] = dice.pick(&[most + 1, most + 1, 16, 128, 255, 255]),
            _ => record[input_place::SPARE] = dice.pick(&[1, 2, 8, 128, 255]),
        }
    }
}

/// A spare byte, or a phase or a reason that there isn't, in one lead.
fn spoil_a_lead(state: &mut [u8], dice: &mut Dice) {
    let Some(record) = a_record::<STATE_BYTES>(state, HEAD_BYTES, dice) else {
        return;
    };
    let [least, highest] = reasons();
    match dice.below(3) {
        0 => record[place::PHASE] = dice.pick(&[LAST_PHASE + 1, 255]),
        1 => record[place::REASON] = dice.pick(&[1, least - 1, highest + 1, 255]),
        _ => record[spare_byte(dice)] = 1 << dice.below(8),
    }
}

/// Its place in a lead's record.
pub fn spare_byte(dice: &mut Dice) -> usize {
    place::SPARE + dice.below((STATE_BYTES - place::SPARE) as u32) as usize
}

/// One lead's record, if there is any.
pub fn a_record<'a, const N: usize>(
    bytes: &'a mut [u8],
    first: usize,
    dice: &mut Dice,
) -> Option<&'a mut [u8; N]> {
    let (records, _) = bytes.get_mut(first..)?.as_chunks_mut();
    one_of(records, dice)
}

pub fn one_of<'a, T>(all: &'a mut [T], dice: &mut Dice) -> Option<&'a mut T> {
    let count = all.len() as u32;
    (count > 0).then(|| &mut all[dice.below(count) as usize])
}

/// `step` is the length of one lead. What is added has few bits set.
pub fn spoil_length(bytes: &mut Vec<u8>, step: usize, dice: &mut Dice) {
    let length = wrong_length(bytes.len(), step, dice);
    bytes.truncate(length);
    bytes.resize_with(length, || dice.byte() & dice.byte() & dice.byte());
}

pub fn wrong_length(right: usize, step: usize, dice: &mut Dice) -> usize {
    let wrong = match dice.below(7) {
        0 => 0,
        1 => right + 1,
        2 => right.saturating_sub(1),
        3 => right + step,
        4 => right.saturating_sub(step),
        5 => dice.below(right as u32 + 1) as usize,
        _ => right + dice.below(600) as usize,
    };
    wrong + 2 * usize::from(wrong == right)
}
