//! Texts that are refused for their lines: one flaw in a place of its own, a number used twice, a
//! 65th line, and more than one of these.

use second::orders::MOST_ORDERS;
use shared::dice::Dice;

use crate::flaws::{self, EMPTY, KINDS};
use crate::reading::{order_number, FIELDS};
use crate::texts::{change, field, Text};

pub fn text(dice: &mut Dice) -> Vec<u8> {
    let text = match dice.below(10) {
        0..=3 => one_flaw(dice),
        4 | 5 => used_twice(dice),
        6 => used_and_flawed(dice),
        7 => too_many(dice),
        _ => several(dice),
    };
    text.bytes()
}

/// The first line, the last that may be, the one after it, or any.
fn draw_line(dice: &mut Dice) -> usize {
    let any = dice.below(MOST_ORDERS as u32) as usize;
    let early = dice.below(6) as usize;
    let last = dice.pick(&[MOST_ORDERS - 2, MOST_ORDERS - 1, MOST_ORDERS]);
    dice.pick(&[0, early, early, early, any, last])
}

/// Good lines, this one among them, often the last.
fn up_to(line: usize, dice: &mut Dice) -> Text {
    let few = dice.below(4) as usize;
    let all = (MOST_ORDERS + dice.below(2) as usize).saturating_sub(line + 1);
    let behind = dice.pick(&[0, 0, 0, few, few, few, few, all]);
    Text::good(line + 1 + behind, dice)
}

fn flaw(text: &mut Text, line: usize, dice: &mut Dice) {
    let kind = dice.below(KINDS as u32) as usize;
    let field = dice.below(FIELDS as u32) as usize;
    flaws::spoil(&mut text.lines[line], kind, field, dice);
}

fn one_flaw(dice: &mut Dice) -> Text {
    let line = draw_line(dice);
    let mut text = up_to(line, dice);
    flaw(&mut text, line, dice);
    text
}

/// The number of the line before, of the first line or of any other is used again.
fn use_twice(text: &mut Text, line: usize, dice: &mut Dice) {
    let any = dice.below(line as u32) as usize;
    let before = dice.pick(&[0, line - 1, any, any]);
    if dice.one_in(8) {
        text.lines[before] = text.lines[line].clone();
    }
    let own = order_number(&text.lines[before]).expect("a good line");
    let edge = dice.pick(&[0, 1, u32::MAX]);
    let number = dice.pick(&[own, own, own, own, own, edge]);
    for line in [before, line] {
        change(&mut text.lines[line], |fields| fields[0] = field(number));
    }
}

fn used_twice(dice: &mut Dice) -> Text {
    let line = draw_line(dice).max(1);
    let line = dice.pick(&[line, line, line, line, MOST_ORDERS - 1]);
    let mut text = up_to(line, dice);
    use_twice(&mut text, line, dice);
    text
}

/// In the same line, so that its order number is still there to be read.
fn used_and_flawed(dice: &mut Dice) -> Text {
    let line = draw_line(dice).max(1);
    let mut text = up_to(line, dice);
    use_twice(&mut text, line, dice);
    let kind = dice.below(KINDS as u32) as usize;
    let field = 1 + dice.below(FIELDS as u32 - 1) as usize;
    flaws::spoil(&mut text.lines[line], kind, field, dice);
    text
}

/// The 65th line as it is, empty, garbled, or with a used number; and what stands behind it.
fn too_many(dice: &mut Dice) -> Text {
    let behind = dice.below(4) as usize;
    let mut text = Text::good(MOST_ORDERS + 1 + behind, dice);
    match dice.below(5) {
        0 => flaws::spoil(&mut text.lines[MOST_ORDERS], EMPTY, 0, dice),
        1 => flaw(&mut text, MOST_ORDERS, dice),
        2 => use_twice(&mut text, MOST_ORDERS, dice),
        _ => (),
    }
    if behind > 0 && dice.one_in(2) {
        flaw(&mut text, MOST_ORDERS + behind, dice);
    }
    text
}

/// In different lines or, by chance, in the same; often before a 65th line.
fn several(dice: &mut Dice) -> Text {
    let most = dice.pick(&[MOST_ORDERS, MOST_ORDERS + 1, MOST_ORDERS + 1]);
    let lines = dice.pick(&[2, 3, 4, 8, most]);
    let mut text = Text::good(lines, dice);
    let last = lines.min(MOST_ORDERS) - 1;
    let any = dice.below(last as u32) as usize;
    let line = dice.pick(&[0, any, last]);
    let next = (line + 1).min(lines - 1);
    let any = dice.below(lines as u32) as usize;
    let other = dice.pick(&[next, next, any, lines - 1]);
    // Numbers first, as a flawed line may have none.
    let mut flawed = Vec::new();
    for line in [line, other] {
        if line > 0 && dice.one_in(2) {
            use_twice(&mut text, line, dice);
        } else {
            flawed.push(line);
        }
    }
    flawed.dedup();
    for line in flawed {
        flaw(&mut text, line, dice);
    }
    text
}
