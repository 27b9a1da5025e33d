//! How often each thing worth comparing occurred, part by part.

use shared::compare::Tables;
use shared::coverage::{Every, Report, Table};

use crate::call::Call;
use crate::facts::{self, Placed};
use crate::made::Made;
use crate::sessions::Heard;

/// Rows about all calls, about the orders of accepted texts, about texts of sessions; and those of
/// which every kind has to occur.
pub struct Coverage {
    made: Table<Made>,
    placed: Table<Placed>,
    heard: Table<Heard>,
    every_made: Vec<Every<Made>>,
    every_placed: Vec<Every<Placed>>,
    calls: u64,
}

/// The part of the sessions.
const SESSIONS: usize = 0;

impl Coverage {
    /// A text of a session was answered.
    pub fn count_heard(&mut self, heard: &Heard) {
        self.heard.count(SESSIONS, heard);
    }

    fn count_placed(&mut self, part: usize, made: &Made) {
        for (order, line) in made.text.orders.iter().zip(1..) {
            let placed = Placed {
                order: *order,
                line,
            };
            self.placed.count(part, &placed);
            for every in &mut self.every_placed {
                every.count(part, &placed);
            }
        }
    }
}

impl Tables for Coverage {
    type Call = Call;

    fn new() -> Coverage {
        Coverage {
            made: facts::of_calls(),
            placed: facts::of_placed(),
            heard: facts::of_heard(),
            every_made: facts::EVERY_MADE.iter().map(Every::new).collect(),
            every_placed: facts::EVERY_PLACED.iter().map(Every::new).collect(),
            calls: 0,
        }
    }

    fn count(&mut self, part: usize, call: &Call, number: u32, _: [&[u8]; 3]) {
        self.calls += 1;
        let made = Made::new(call, number);
        self.made.count(part, &made);
        for every in &mut self.every_made {
            every.count(part, &made);
        }
        if made.taken() {
            self.count_placed(part, &made);
        }
    }

    fn report(&self, factor: u64) -> Result<String, String> {
        let mut report = Report::new(factor);
        report.table(&self.made);
        report.table(&self.placed);
        report.table(&self.heard);
        report.every(&self.every_made);
        report.every(&self.every_placed);
        report.end("orders_compare", self.calls)
    }
}
