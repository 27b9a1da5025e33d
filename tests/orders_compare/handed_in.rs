//! Any bytes handed in as orders in force, and over them accepted texts of every number of lines.
//!
//! Beside the comparison a claim of the request is held: "For every accepted text, the allowance is
//! the same in whichever order its lines stand." The bytes are those that both sides have written
//! by then; what they give a tick is the second implementation's to say.

use second::orders::{allowance, DONE, MOST_ORDERS, NO_ORDERS, ORDERS_BYTES};
use shared::compare::junk;
use shared::dice::Dice;

use crate::call::{take, Run};
use crate::reading::{lines, order, Order};
use crate::texts::{shuffle, Text};

/// No orders, bytes that are all alike, those of another text, or any.
pub fn draw_orders(dice: &mut Dice) -> Vec<u8> {
    let byte = dice.byte();
    match dice.below(5) {
        0 => NO_ORDERS.to_vec(),
        1 => vec![dice.pick(&[0, 0xFF, byte]); ORDERS_BYTES],
        _ => junk(ORDERS_BYTES, dice),
    }
}

pub fn run(run: &mut Run) -> Result<(), String> {
    let count = run.number as usize % (MOST_ORDERS + 1);
    let mut text = Text::good(count, &mut run.dice);
    let here = accept(run, &text.bytes())?;
    shuffle(&mut text.lines, &mut run.dice);
    let there = accept(run, &text.bytes())?;
    let orders: Vec<Order> = lines(&text.bytes()).into_iter().flat_map(order).collect();
    for tick in ticks(&orders, &mut run.dice) {
        let [here, there] = [&here, &there].map(|orders| given(orders, tick));
        if here != there {
            let place = run.place();
            return Err(format!(
                "{place}: tick {tick} has {here:?} watts, and {there:?} after the lines' other order\n"
            ));
        }
    }
    Ok(())
}

/// The orders as they are left.
fn accept(run: &mut Run, text: &[u8]) -> Result<Vec<u8>, String> {
    let mut orders = draw_orders(&mut run.dice);
    let number = take(run, text, &mut orders)?;
    assert_eq!(number, DONE, "a text that is accepted");
    Ok(orders)
}

/// Ticks at the ends of a few orders and beside them.
fn ticks(orders: &[Order], dice: &mut Dice) -> Vec<u64> {
    let mut ticks = vec![0, u64::from(u32::MAX), 1 << 32, dice.next().into()];
    for _ in 0..orders.len().min(4) {
        let [_, first, last, _] = dice.pick(orders).map(u64::from);
        ticks.extend([first.saturating_sub(1), first, last, last + 1]);
    }
    ticks
}

/// Without an order, the allowance of the input, whatever that is.
fn given(orders: &[u8], tick: u64) -> [u32; 2] {
    [0, 1].map(|input| allowance(orders, tick, input))
}
