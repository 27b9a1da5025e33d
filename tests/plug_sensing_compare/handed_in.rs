//! Every value that is taken, with either state.

use second::plug::{AFTER_LOWEST, DONE, FRESH, MOST_MILLIVOLTS};

use crate::call::{Call, Run};

/// A run for each.
pub const VALUES: u64 = MOST_MILLIVOLTS as u64 + 1;

pub fn run(run: &mut Run) -> Result<(), String> {
    let millivolts = (run.number % VALUES) as u32;
    for state in [FRESH, AFTER_LOWEST] {
        let mut call = Call::of(&state, millivolts, &mut run.dice);
        let number = run.make(&mut call)?;
        assert_eq!(number, DONE, "a value that is taken");
    }
    Ok(())
}
