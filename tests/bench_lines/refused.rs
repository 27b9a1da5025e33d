//! Lines that leave the post as it is.

use second::bench::LONGEST_LINE;
use second::lead::contact::{self, PLUG, START_BUTTON};
use second::lead::{input_place, present, FRAME_RECORDS, INPUT_BYTES};
use second::post::{input_bytes, ALLOWANCE_BYTES};
use shared::dice::Dice;

use crate::line::{setup, whole_tick, Line};
use crate::numbers;

/// What "every spare bit and byte 3 zero, counts at most 8" leaves out: a place in a lead's input,
/// and its byte.
pub fn flaws() -> Vec<(usize, u8)> {
    let bits = (0..8).map(|bit| 1 << bit);
    let spare = bits.filter(|bit| present::SPARE & bit != 0);
    let others = [
        (input_place::CONTACTS, contact::SPARE),
        (input_place::COUNT, FRAME_RECORDS as u8 + 1),
        (input_place::COUNT, u8::MAX),
        (input_place::SPARE, 1),
    ];
    let spare = spare.map(|bit| (input_place::PRESENT, bit));
    others.into_iter().chain(spare).collect()
}

/// A tick of one byte too many.
pub fn surplus(leads: usize, byte: u8, dice: &mut Dice) -> Line {
    whole_tick(&vec![byte; input_bytes(leads) + 1], dice)
}

/// A tick of as many characters as may be, too many for every post.
pub fn longest(byte: u8, dice: &mut Dice) -> Line {
    whole_tick(&[byte; (LONGEST_LINE - "tick\t".len()) / 2], dice)
}

/// A tick with a flaw in this lead. It ends with the flaw.
pub fn flawed(lead: usize, (at, byte): (usize, u8), dice: &mut Dice) -> Line {
    let mut input = vec![0; ALLOWANCE_BYTES + INPUT_BYTES * lead];
    // Carried out, it would change what the lead does.
    input.extend_from_slice(&[PLUG | START_BUTTON, 0, 0, 0][..at]);
    input.push(byte);
    whole_tick(&input, dice)
}

/// A refused setup, of any number of leads, a refused tick, or a line that isn't understood.
pub fn any(leads: usize, no_lines: &[Line], dice: &mut Dice) -> Line {
    let any = dice.byte();
    match dice.below(8) {
        0..=3 => {
            let refusal = dice.pick(&numbers::refusals_of_fields());
            numbers::refused(refusal, 1 + dice.below(4), dice)
        }
        4 => surplus(leads, any, dice),
        5 => flawed(usize::from(any) % leads, dice.pick(&flaws()), dice),
        _ => no_lines[dice.below(no_lines.len() as u32) as usize].clone(),
    }
}

/// One of each kind, for a post of two leads.
pub fn each_kind(dice: &mut Dice) -> Vec<Line> {
    let mut lines = vec![
        setup(&["3", "65536"]),
        Line::from("tick\t0"),
        Line::new(),
        longest(0, dice),
        surplus(2, 0, dice),
        flawed(1, (input_place::SPARE, 1), dice),
    ];
    let leads = [2, 1, 4, 3].into_iter().cycle();
    for (refusal, leads) in numbers::refusals_of_fields().into_iter().zip(leads) {
        lines.push(numbers::refused(refusal, leads, dice));
    }
    lines
}
