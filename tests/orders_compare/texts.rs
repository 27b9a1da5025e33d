//! Texts as they are put together, line by line.

use second::orders::MOST_ORDERS;
use shared::dice::Dice;

use crate::reading::{fields, Order, FIELDS, MOST_DIGITS};

pub type Field = Vec<u8>;

pub struct Text {
    /// Without their line feeds.
    pub lines: Vec<Vec<u8>>,
    /// Whether the last line ends with a line feed, as all others do.
    pub ends: bool,
}

/// Bytes of the longest accepted text: each number with its tab or its line feed.
pub const MOST_TEXT: usize = MOST_ORDERS * FIELDS * (MOST_DIGITS + 1);

/// Numbers next to which something ends: digits, bytes, or all that is taken.
pub const EDGES: [u32; 16] = [
    0,
    1,
    9,
    10,
    99,
    100,
    255,
    256,
    65_535,
    65_536,
    999_999_999,
    1_000_000_000,
    (1 << 31) - 1,
    1 << 31,
    u32::MAX - 1,
    u32::MAX,
];

pub fn draw(dice: &mut Dice) -> u32 {
    let any = dice.next() >> dice.below(32);
    let edge = dice.pick(&EDGES);
    dice.pick(&[any, any, edge])
}

/// What the orders of a text are drawn from.
#[derive(Clone, Copy)]
enum Style {
    Any,
    /// All numbers of ten digits.
    Longest,
    /// Order numbers that differ in one byte alone, the one that begins with this bit.
    Alike(u32),
}

impl Text {
    /// Lines with nothing wrong: it is accepted unless there are more than 64.
    pub fn good(lines: usize, dice: &mut Dice) -> Text {
        let base = dice.next();
        let mut style = match dice.below(8) {
            0 => Style::Longest,
            1 => Style::Alike(8 * dice.below(4)),
            _ => Style::Any,
        };
        let mut orders: Vec<Order> = Vec::new();
        while orders.len() < lines {
            let order = draw_order(style, base, dice);
            match orders.iter().any(|before| before[0] == order[0]) {
                // There are not many that are alike.
                true => style = Style::Any,
                false => orders.push(order),
            }
        }
        // What was drawn first is not always in the first line.
        shuffle(&mut orders, dice);
        // An unused place has that number too.
        if let Some(at) = orders.iter().position(|order| order[0] == 0) {
            let other = dice.pick(&[0, at, lines - 1]);
            orders.swap(at, other);
        }
        Text::of(&orders, dice)
    }

    /// With a line feed at the end or without it.
    pub fn of(orders: &[Order], dice: &mut Dice) -> Text {
        Text {
            lines: orders.iter().map(line).collect(),
            ends: dice.one_in(2),
        }
    }

    pub fn bytes(&self) -> Vec<u8> {
        let mut bytes = self.lines.join(&b'\n');
        // An empty line without its line feed is none.
        let has_end = |line: &Vec<u8>| self.ends || line.is_empty();
        if self.lines.last().is_some_and(has_end) {
            bytes.push(b'\n');
        }
        bytes
    }
}

/// The least number of as many digits as a number may have.
const LEAST_LONG: u32 = 10u32.pow(MOST_DIGITS as u32 - 1);

fn draw_order(style: Style, base: u32, dice: &mut Dice) -> Order {
    let mut order = [0; FIELDS].map(|_| match style {
        Style::Longest => LEAST_LONG + dice.below(u32::MAX - LEAST_LONG),
        _ => draw(dice),
    });
    if let Style::Alike(bit) = style {
        order[0] = base ^ u32::from(dice.byte()) << bit;
    }
    order[1..3].sort();
    match dice.below(8) {
        0 | 1 => order[2] = order[1],
        2 => order[2] = order[1].saturating_add(1),
        _ => (),
    }
    order
}

fn line([number, first, last, watts]: &Order) -> Vec<u8> {
    format!("{number}\t{first}\t{last}\t{watts}").into_bytes()
}

pub fn field(number: u32) -> Field {
    number.to_string().into_bytes()
}

/// Changes a line's fields.
pub fn change(line: &mut Vec<u8>, by: impl FnOnce(&mut Vec<Field>)) {
    let mut parted: Vec<Field> = fields(line).map(<[u8]>::to_vec).collect();
    by(&mut parted);
    *line = parted.join(&b'\t');
}

/// The same ones in another order.
pub fn shuffle<T>(list: &mut [T], dice: &mut Dice) {
    for at in (1..list.len()).rev() {
        list.swap(at, dice.below(at as u32 + 1) as usize);
    }
}

/// A number of lines that are accepted: few, or next to the most.
pub fn draw_lines(dice: &mut Dice) -> usize {
    let most = MOST_ORDERS as u32;
    let (few, any) = (dice.below(6), dice.below(most + 1));
    dice.pick(&[few, few, few, few, few, any, most - 1, most]) as usize
}
