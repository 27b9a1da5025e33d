//! Texts taken one after the other on the same bytes, from no orders or from any bytes on. Refused
//! ones come in between; one that is refused for the orders' length was lent others.
//!
//! Beside the comparison the plain claims of the request are held after each text: it is answered
//! with the first refusal that fits, line by line, and the bytes are those of the last accepted
//! text and nothing else.

use second::orders::{DONE, MOST_ORDERS, NO_ORDERS, ORDERS_BYTES};
use shared::compare::junk;

use crate::call::{take, Run};
use crate::garbled::wrong_length;
use crate::reading::{places, Order, Reading};
use crate::refused;
use crate::texts::{draw_lines, shuffle, Text};

/// A text of a session, and what came before it.
pub struct Heard {
    /// What the text was answered with, and the one before it.
    pub answer: u32,
    pub before: Option<u32>,
    /// In force before it, and its own.
    pub in_force: Vec<Order>,
    pub orders: Vec<Order>,
}

pub fn run(run: &mut Run) -> Result<(), String> {
    let bytes = junk(ORDERS_BYTES, &mut run.dice);
    let any = run.dice.one_in(4);
    let mut host = Host {
        orders: if any { bytes } else { NO_ORDERS.to_vec() },
        in_force: Vec::new(),
        before: None,
        run,
    };
    let texts = host.run.dice.pick(&[1, 4, 12, 24]);
    for _ in 0..texts {
        host.text()?;
    }
    Ok(())
}

/// Who holds the orders in force.
struct Host<'r, 'a> {
    orders: Vec<u8>,
    /// Of the last accepted text.
    in_force: Vec<Order>,
    /// What the text before was answered with.
    before: Option<u32>,
    run: &'r mut Run<'a>,
}

impl Host<'_, '_> {
    fn text(&mut self) -> Result<(), String> {
        let dice = &mut self.run.dice;
        let text = match dice.below(8) {
            0..=2 => refused::text(dice),
            3 => self.like_those_in_force(),
            _ => Text::good(draw_lines(dice), dice).bytes(),
        };
        match self.run.dice.one_in(6) {
            true => self.lend_others(&text),
            false => self.take(&text),
        }
    }

    /// Their numbers again: fewer of them, in another order, or with another's watts.
    fn like_those_in_force(&mut self) -> Vec<u8> {
        let (mut orders, dice) = (self.in_force.clone(), &mut self.run.dice);
        shuffle(&mut orders, dice);
        orders.truncate(dice.below(2 * MOST_ORDERS as u32) as usize);
        for order in &mut orders {
            let other = dice.next();
            order[3] = dice.pick(&[order[3], other]);
        }
        Text::of(&orders, dice).bytes()
    }

    fn take(&mut self, text: &[u8]) -> Result<(), String> {
        let before = self.orders.clone();
        let number = take(self.run, text, &mut self.orders)?;
        let Reading { fits, orders, .. } = Reading::of(text);
        let right = match fits.first() {
            Some(&(_, refusal)) => (refusal, before),
            None => (DONE, places(&orders)),
        };
        if (number, &self.orders) != (right.0, &right.1) {
            let place = self.run.place();
            return Err(format!("{place}: it is not what the text says\n"));
        }
        self.count(number, orders);
        Ok(())
    }

    /// The session goes on with its own orders.
    fn lend_others(&mut self, text: &[u8]) -> Result<(), String> {
        let mut others = self.orders.clone();
        wrong_length(&mut others, &mut self.run.dice);
        let number = take(self.run, text, &mut others)?;
        assert_ne!(number, DONE, "orders of a wrong length");
        self.count(number, Vec::new());
        Ok(())
    }

    fn count(&mut self, answer: u32, orders: Vec<Order>) {
        let heard = Heard {
            answer,
            before: self.before.replace(answer),
            in_force: self.in_force.clone(),
            orders,
        };
        self.run.tables.count_heard(&heard);
        if answer == DONE {
            self.in_force = heard.orders;
        }
    }
}
