//! How often each thing worth comparing occurred, part by part.

use second::receiver::DONE;
use shared::compare::Tables;
use shared::coverage::{Every, Report, Table};

use crate::call::Call;
use crate::facts;
use crate::made::Made;
use crate::sessions::Past;
use crate::steps::Step;

/// Rows about all calls, about those carried out, about whole lists of them; and those of which
/// every kind has to occur.
pub struct Coverage {
    made: Table<Made>,
    steps: Table<Step>,
    pasts: Table<Past>,
    every: Vec<Every<Step>>,
    calls: u64,
}

/// The part of the sessions.
const SESSIONS: usize = 0;

impl Coverage {
    /// A list of calls from power-up on has come to its end.
    pub fn count_past(&mut self, past: &Past) {
        self.pasts.count(SESSIONS, past);
    }
}

impl Tables for Coverage {
    type Call = Call;

    fn new() -> Coverage {
        Coverage {
            made: facts::of_calls(),
            steps: facts::of_steps(),
            pasts: facts::of_pasts(),
            every: facts::EVERY.iter().map(Every::new).collect(),
            calls: 0,
        }
    }

    fn count(&mut self, part: usize, call: &Call, number: u32, left: [&[u8]; 3]) {
        self.calls += 1;
        self.made.count(part, &Made::new(call, number));
        if number == DONE {
            let step = Step::new(call, left).expect("a receiver of a call that is carried out");
            self.steps.count(part, &step);
            for every in &mut self.every {
                every.count(part, &step);
            }
        }
    }

    fn report(&self, factor: u64) -> Result<String, String> {
        let mut report = Report::new(factor);
        report.table(&self.made);
        report.table(&self.steps);
        report.table(&self.pasts);
        report.every(&self.every);
        report.end("receiver_compare", self.calls)
    }
}
