//! A call that was made, carried out or refused, and every refusal that fits it.

use second::orders::*;

use crate::call::{Call, Entry};
use crate::flaws::Flaw;
use crate::reading::{order, order_number, Order, Reading};

pub struct Made {
    pub entry: Entry,
    pub answer: u32,
    pub text: Facts,
    /// Of a text that is taken: the orders before it.
    pub orders: Vec<u8>,
    /// In the order of asking, if those of the text are all of one line: there the order is that of
    /// the numbers, else that of the lines.
    pub fits: Option<Vec<u32>>,
    /// Those of the text, with their lines.
    pub fits_at: Vec<(usize, u32)>,
}

/// What there is to know of a text.
pub struct Facts {
    pub bytes: usize,
    pub lines: usize,
    /// Whether it ends with a line feed.
    pub ends: bool,
    /// Of an accepted one.
    pub orders: Vec<Order>,
    /// Of the line at which it is refused.
    pub refused: Option<Refused>,
}

pub struct Refused {
    pub line: usize,
    pub bytes: usize,
    /// Whether a line feed ends it.
    pub ends: bool,
    /// Of one that is not of the form, if one thing is wrong.
    pub flaw: Option<Flaw>,
    /// Of one that is: its order, and the line that has its number before.
    pub order: Option<Order>,
    pub twice: Option<Twice>,
    /// Whether the next line is not of the form.
    pub flawed_behind: bool,
}

pub struct Twice {
    pub line: usize,
    /// Whether the two lines are alike in all of their bytes.
    pub alike: bool,
}

impl Made {
    pub fn new(call: &Call, answer: u32) -> Made {
        let reading = Reading::of(&call.text);
        let text = Facts::of(&call.text, &reading);
        let fits_at = reading.fits;
        Made {
            entry: call.entry,
            answer,
            fits: fits(call, &fits_at),
            text,
            orders: call.orders.clone(),
            fits_at,
        }
    }

    pub fn taken(&self) -> bool {
        self.entry == Entry::Take && self.answer == DONE
    }

    /// Refused, or named, for one thing that is wrong with one line.
    pub fn alone(&self, refusal: u32) -> Option<&Refused> {
        let refused = self.text.refused.as_ref()?;
        let answer = match self.entry {
            Entry::Take => refusal,
            Entry::Line => refused.line as u32,
        };
        (self.fits_at == [(refused.line, refusal)] && self.answer == answer).then_some(refused)
    }

    /// Taken, and refused for the orders' length, with an accepted text.
    pub fn wrong_length(&self) -> bool {
        self.entry == Entry::Take && self.answer == REFUSED_ORDERS_LENGTH && self.fits_at.is_empty()
    }
}

fn fits(call: &Call, fits_at: &[(usize, u32)]) -> Option<Vec<u32>> {
    let wrong_length = call.entry == Entry::Take && call.orders.len() != ORDERS_BYTES;
    let of_length = wrong_length.then_some(REFUSED_ORDERS_LENGTH);
    let of_one_line = fits_at.iter().all(|fit| fit.0 == fits_at[0].0);
    let of_lines = fits_at.iter().map(|fit| fit.1);
    of_one_line.then(|| of_length.into_iter().chain(of_lines).collect())
}

impl Facts {
    fn of(text: &[u8], reading: &Reading) -> Facts {
        let ends = text.ends_with(b"\n");
        let refused = reading.fits.first().map(|&(line, _)| {
            let is_last = line == reading.lines.len();
            Refused::of(&reading.lines, line, !is_last || ends)
        });
        Facts {
            bytes: text.len(),
            lines: reading.lines.len(),
            ends,
            orders: match refused {
                Some(_) => Vec::new(),
                None => reading.orders.clone(),
            },
            refused,
        }
    }
}

impl Refused {
    fn of(lines: &[&[u8]], line: usize, ends: bool) -> Refused {
        let at = line - 1;
        let own = lines[at];
        let number = order_number(own);
        let has_it = |before: &&[u8]| number.is_some() && order_number(before) == number;
        let twice = lines[..at].iter().position(has_it).map(|before| Twice {
            line: before + 1,
            alike: lines[before] == own,
        });
        Refused {
            line,
            bytes: own.len(),
            ends,
            flaw: Flaw::of(own),
            order: order(own),
            twice,
            flawed_behind: lines.get(line).is_some_and(|next| order(next).is_none()),
        }
    }
}
