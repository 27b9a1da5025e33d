//! The two calls of the orders' library held to those of the second implementation: the number
//! returned and every byte of the text and of the orders lent, those of refused calls too, and the
//! bytes beside them.
//!
//! It links the static library `orders`. `orders_compare FACTOR` makes FACTOR times as many calls
//! as `orders_compare` does. Every text is taken and then asked for the line at which it is
//! refused. There are three parts, each a list of runs with a seed of its own, the same every time:
//!
//! - sessions: texts taken one after the other on the same bytes, accepted and refused ones mixed;
//!   the bytes in the end are held to a plain reading of the last accepted text as well
//! - handed-in: any bytes as orders in force, accepted texts of every number of lines over them,
//!   and the same lines in another order, in which they have to give the same allowances
//! - garbled: every kind of flaw in every line, a 65th line, numbers used twice, texts out of a few
//!   bytes, cut ones, long ones and wrong lengths of the orders, all of them that go together
//!
//! The first difference is printed in full and ends it. Without one it prints how often each thing
//! worth comparing occurred, and fails if one was too seldom. The calls are made in a child
//! process, so that one in which the library crashes or hangs can be named; `orders_compare PART
//! RUN` makes the calls of one run without a child, each printed ahead.

mod call;
mod coverage;
mod facts;
mod flaws;
mod garbled;
mod handed_in;
mod made;
mod reading;
mod refused;
mod sessions;
mod texts;

use std::process::ExitCode;

use shared::compare::Runs;

use coverage::Coverage;

const RUNS: Runs<Coverage> = [
    (sessions::run, 3_000),
    (handed_in::run, 10_000),
    (garbled::run, 100_000),
];

fn main() -> ExitCode {
    shared::compare::main("orders_compare", RUNS)
}
