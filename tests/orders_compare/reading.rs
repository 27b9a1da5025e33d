//! A text read once more, as plainly as the request has it: whole lines, whole fields. The claims
//! and the rows of the table rest on it, so that neither rests on what is compared.

use second::orders::*;

/// Number, first tick, last tick and watts.
pub type Order = [u32; 4];

pub const FIELDS: usize = 4;

pub const MOST_DIGITS: usize = u32::MAX.ilog10() as usize + 1;

/// What follows the last line feed is no line if it is empty.
pub fn lines(text: &[u8]) -> Vec<&[u8]> {
    let mut lines: Vec<&[u8]> = text.split(|&byte| byte == b'\n').collect();
    lines.pop_if(|line| line.is_empty());
    lines
}

pub fn fields(line: &[u8]) -> impl Iterator<Item = &[u8]> {
    line.split(|&byte| byte == b'\t')
}

/// More digits than the largest number has say more than it, unless zeros lead them.
pub fn number(field: &[u8]) -> Option<u32> {
    let good = match field {
        [] => false,
        [b'0', rest @ ..] => rest.is_empty(),
        _ => field.len() <= MOST_DIGITS,
    };
    if !good || !field.iter().all(u8::is_ascii_digit) {
        return None;
    }
    let add = |number: u64, digit: &u8| 10 * number + u64::from(digit - b'0');
    field.iter().fold(0, add).try_into().ok()
}

/// The number of a line, whatever else is wrong with it.
pub fn order_number(line: &[u8]) -> Option<u32> {
    fields(line).next().and_then(number)
}

/// `None` for a line not of the form, and for one with first after last.
pub fn order(line: &[u8]) -> Option<Order> {
    let mut numbers = fields(line).map(number);
    let mut next = || numbers.next().flatten();
    let order = [next()?, next()?, next()?, next()?];
    (numbers.next().is_none() && order[1] <= order[2]).then_some(order)
}

/// The bytes of these orders, in their places, and of unused ones after them.
pub fn places(orders: &[Order]) -> Vec<u8> {
    let used = orders.iter().flatten().flat_map(|n| n.to_le_bytes());
    let unused = UNUSED.into_iter().cycle();
    used.chain(unused).take(ORDERS_BYTES).collect()
}

/// What a text comes to, by all that fits it and not by the first alone.
pub struct Reading<'a> {
    pub lines: Vec<&'a [u8]>,
    /// Every refusal of a line, with the line, counted from 1, in the order of asking. There is
    /// always one at the 65th, so that nothing is asked of those behind it.
    pub fits: Vec<(usize, u32)>,
    /// Of an accepted text.
    pub orders: Vec<Order>,
}

impl Reading<'_> {
    pub fn of(text: &[u8]) -> Reading<'_> {
        let lines = lines(text);
        let (mut fits, mut orders, mut used) = (Vec::new(), Vec::new(), Vec::new());
        for (line, at) in lines.iter().zip(1..=MOST_ORDERS + 1) {
            if at > MOST_ORDERS {
                fits.push((at, REFUSED_65TH_LINE));
            }
            match order(line) {
                Some(order) => orders.push(order),
                None => fits.push((at, REFUSED_FORM)),
            }
            // A line that is not of the form may use a number all the same.
            let Some(number) = order_number(line) else {
                continue;
            };
            if used.contains(&number) {
                fits.push((at, REFUSED_USED_TWICE));
            }
            used.push(number);
        }
        Reading {
            lines,
            fits,
            orders,
        }
    }
}
