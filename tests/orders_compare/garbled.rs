//! Texts with something wrong, or with anything in them at all; orders of a wrong length, with
//! these texts and with good ones.

use second::orders::{MOST_ORDERS, ORDERS_BYTES, PLACE_BYTES};
use shared::compare::spoil_length;
use shared::dice::Dice;

use crate::call::{take, Run};
use crate::flaws::many;
use crate::handed_in::draw_orders;
use crate::refused;
use crate::texts::{draw_lines, Text};

pub fn run(run: &mut Run) -> Result<(), String> {
    let dice = &mut run.dice;
    let text = match dice.below(24) {
        0..=13 => refused::text(dice),
        14 | 15 => few_bytes(dice),
        16..=18 => changed(dice),
        19 => cut(dice),
        20 => odd_line_feeds(dice),
        21 if dice.one_in(4) => long(dice),
        _ => Text::good(draw_lines(dice), dice).bytes(),
    };
    let mut orders = draw_orders(dice);
    if dice.one_in(5) {
        wrong_length(&mut orders, dice);
    }
    take(run, &text, &mut orders)?;
    Ok(())
}

/// Lengths beside the right one.
pub const LENGTHS: [usize; 10] = [
    0,
    1,
    PLACE_BYTES,
    ORDERS_BYTES - PLACE_BYTES,
    ORDERS_BYTES - 1,
    ORDERS_BYTES + 1,
    ORDERS_BYTES + PLACE_BYTES,
    2 * ORDERS_BYTES,
    ORDERS_BYTES + (1 << 8),
    ORDERS_BYTES + (1 << 16),
];

pub fn wrong_length(orders: &mut Vec<u8>, dice: &mut Dice) {
    match dice.one_in(2) {
        true => orders.resize(dice.pick(&LENGTHS), 0xAB),
        false => spoil_length(orders, dice),
    }
}

/// Out of a small alphabet: at random, or in lines of about four fields, of which some are good.
fn few_bytes(dice: &mut Dice) -> Vec<u8> {
    let any = |count: u32, dice: &mut Dice| -> Vec<u8> {
        let count = dice.below(count);
        (0..count)
            .map(|_| dice.pick(b"000123456789\t\t\t\t\n\n\r\0"))
            .collect()
    };
    if dice.one_in(2) {
        return any(40, dice);
    }
    let field = |dice: &mut Dice| match dice.below(20) {
        0 => any(3, dice),
        1 => dice.pick(&[&b""[..], b"00", b"01"]).to_vec(),
        _ => dice.below(12).to_string().into_bytes(),
    };
    let lines = 1 + dice.below(4);
    let lines = (0..lines)
        .map(|_| {
            let count = dice.pick(&[4, 4, 4, 4, 4, 4, 3, 5]);
            let fields: Vec<Vec<u8>> = (0..count).map(|_| field(dice)).collect();
            fields.join(&b'\t')
        })
        .collect();
    let ends = dice.one_in(2);
    Text { lines, ends }.bytes()
}

/// A good text with one byte put in, put in another's place, or left out.
fn changed(dice: &mut Dice) -> Vec<u8> {
    let any = draw_lines(dice);
    let lines = dice.pick(&[1, 1, 2, 3, any]);
    let mut text = Text::good(lines, dice).bytes();
    let (known, any) = (dice.pick(b"0123456789\t\n\r"), dice.byte());
    let byte = dice.pick(&[known, any]);
    let at = dice.below(text.len() as u32 + 1) as usize;
    match dice.below(3) {
        0 if at < text.len() => text[at] = byte,
        1 if at < text.len() => drop(text.remove(at)),
        _ => text.insert(at, byte),
    }
    text
}

/// A good text as far as anywhere.
fn cut(dice: &mut Dice) -> Vec<u8> {
    let mut text = Text::good(draw_lines(dice).max(1), dice).bytes();
    text.truncate(dice.below(text.len() as u32) as usize);
    text
}

/// Line feeds alone, more than one at the end, one at the start, carriage returns before each.
fn odd_line_feeds(dice: &mut Dice) -> Vec<u8> {
    let text = Text::good(draw_lines(dice), dice);
    match dice.below(5) {
        0 => vec![b'\n'; 1 + dice.below(3) as usize],
        1 => [&text.bytes()[..], b"\n\n"].concat(),
        2 => [b"\n", &text.bytes()[..]].concat(),
        3 => [&text.bytes()[..], &[b'\n'; 70]].concat(),
        _ => text.lines.join(&b"\r\n"[..]),
    }
}

/// Some thousand bytes and more: lines, digits, tabs or line feeds without end.
fn long(dice: &mut Dice) -> Vec<u8> {
    let count = 1_000 + dice.below(5_000) as usize;
    let count = dice.pick(&[count, count, count, count, 70_000]);
    let mut text = Text::good(1 + dice.below(MOST_ORDERS as u32) as usize, dice);
    let last = text.lines.len() - 1;
    match dice.below(5) {
        0 => text = Text::good(MOST_ORDERS + 1, dice),
        1 => text.lines[last].extend(many(count as u32, dice)),
        2 => text.lines[last] = vec![b'0'; count],
        3 => text.lines[last] = vec![b'\t'; count],
        _ => text.lines.extend(vec![vec![]; count]),
    }
    let mut bytes = text.bytes();
    // Behind the 65th line nothing is read.
    if text.lines.len() == MOST_ORDERS + 1 {
        bytes.resize_with(bytes.len() + count, || dice.byte());
    }
    bytes
}
