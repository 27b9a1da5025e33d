//! One call of the two, made of both, the second implementation and the library.

use second::orders::{refused_line, take_orders, DONE};
use shared::library;

use crate::coverage::Coverage;

pub type Run<'a> = shared::compare::Run<'a, Coverage>;

#[derive(Clone, Copy, PartialEq, Eq)]
pub enum Entry {
    Take,
    Line,
}

use Entry::*;

/// What a call gets. Only one that takes the text gets orders.
pub struct Call {
    pub entry: Entry,
    pub text: Vec<u8>,
    pub orders: Vec<u8>,
}

impl shared::compare::Call for Call {
    const NAMES: [&'static str; 3] = ["text", "orders", "none"];

    fn slices(&self) -> [&[u8]; 3] {
        [&self.text, &self.orders, &[]]
    }

    fn title(&self) -> String {
        let name = match self.entry {
            Take => "take_orders",
            Line => "refused_line",
        };
        format!("{name} of {:?}", String::from_utf8_lossy(&self.text))
    }

    fn second(&self, [text, orders, _]: [&mut [u8]; 3]) -> u32 {
        match self.entry {
            Take => take_orders(text, orders),
            Line => refused_line(text),
        }
    }

    fn library(&self, [text, orders, _]: [&mut [u8]; 3]) -> u32 {
        match self.entry {
            Take => library::take_orders(text, orders),
            Line => library::refused_line(text),
        }
    }

    fn take(&mut self, [text, orders, _]: [&[u8]; 3]) {
        self.text.copy_from_slice(text);
        self.orders.copy_from_slice(orders);
    }
}

/// The text taken, and asked for its line: the number returned for the first. The orders are left
/// as after it, which is as before if the text is refused.
pub fn take(run: &mut Run, text: &[u8], orders: &mut Vec<u8>) -> Result<u32, String> {
    let mut call = Call {
        entry: Take,
        text: text.to_vec(),
        orders: orders.clone(),
    };
    let number = run.make(&mut call)?;
    if number != DONE && call.orders != *orders {
        return Err(format!("{} is refused, but changed a byte\n", run.place()));
    }
    *orders = call.orders;
    run.make(&mut Call {
        entry: Line,
        text: call.text,
        orders: Vec::new(),
    })?;
    Ok(number)
}
