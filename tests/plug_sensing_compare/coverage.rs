//! How often each thing worth comparing occurred, part by part.

use shared::compare::Tables;
use shared::coverage::{Every, Report, Table};

use crate::call::Call;
use crate::facts;
use crate::made::Made;
use crate::sessions::Heard;

/// Rows about all calls, about values in lists; and those of which every kind has to occur.
pub struct Coverage {
    made: Table<Made>,
    heard: Table<Heard>,
    every: Vec<Every<Made>>,
    calls: u64,
}

/// The part of the sessions.
const SESSIONS: usize = 0;

impl Coverage {
    /// A value of a list was accepted.
    pub fn count_heard(&mut self, heard: &Heard) {
        self.heard.count(SESSIONS, heard);
    }
}

impl Tables for Coverage {
    type Call = Call;

    fn new() -> Coverage {
        Coverage {
            made: facts::of_calls(),
            heard: facts::of_heard(),
            every: facts::EVERY.iter().map(Every::new).collect(),
            calls: 0,
        }
    }

    fn count(&mut self, part: usize, call: &Call, number: u32, [_, plug, _]: [&[u8]; 3]) {
        self.calls += 1;
        let made = Made::new(call, number, plug);
        self.made.count(part, &made);
        for every in &mut self.every {
            every.count(part, &made);
        }
    }

    fn report(&self, factor: u64) -> Result<String, String> {
        let mut report = Report::new(factor);
        report.table(&self.made);
        report.table(&self.heard);
        report.every(&self.every);
        report.end("plug_sensing_compare", self.calls)
    }
}
