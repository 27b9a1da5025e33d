//! How often each thing worth comparing occurred, part by part.

use second::post;
use shared::compare::Tables;
use shared::coverage::{Report, Table};

use crate::causes::{Setup, Tick};
use crate::compare::Call;
use crate::facts;
use crate::turns::{turns, Turn};

/// Rows about setups, about ticks or about leads.
pub struct Coverage {
    setups: Table<Setup>,
    ticks: Table<Tick>,
    posts: Table<[Turn]>,
    turns: Table<Turn>,
    calls: u64,
}

impl Tables for Coverage {
    type Call = Call;

    fn new() -> Coverage {
        Coverage {
            setups: facts::of_setups(),
            ticks: facts::of_ticks(),
            posts: facts::of_posts(),
            turns: facts::of_turns(),
            calls: 0,
        }
    }

    fn count(&mut self, part: usize, call: &Call, number: u32, _: [&[u8]; 3]) {
        self.calls += 1;
        if let Some(numbers) = call.numbers {
            let setup = Setup::new(call, numbers, number);
            return self.setups.count(part, &setup);
        }
        self.ticks.count(part, &Tick::new(call, number));
        if number == post::DONE {
            let turns = turns(&call.state, &call.input).expect("a tick that is carried out");
            self.posts.count(part, &turns);
            for turn in &turns {
                self.turns.count(part, turn);
            }
        }
    }

    fn report(&self, factor: u64) -> Result<String, String> {
        let mut report = Report::new(factor);
        report.table(&self.setups);
        report.table(&self.ticks);
        report.table(&self.posts);
        report.table(&self.turns);
        report.end("post_compare", self.calls)
    }
}
