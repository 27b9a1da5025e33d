//! The call of the plug sensing's library held to that of the second implementation: the number
//! returned and every byte of the state and of the plug lent, those of refused calls too, and the
//! bytes beside them.
//!
//! It links the static library `plug_sensing`. `plug_sensing_compare FACTOR` makes FACTOR times as
//! many calls as `plug_sensing_compare` does. There are three parts, each a list of runs with a
//! seed of its own, the same every time:
//!
//! - sessions: lists of values from a fresh state on, with refused calls in between; the bits are
//!   held to the request's rule over the values alone as well
//! - handed-in: every value that is taken, with either state
//! - garbled: values too large, states that are none and wrong lengths, all of them that go
//!   together
//!
//! The first difference is printed in full and ends it. Without one it prints how often each thing
//! worth comparing occurred, and fails if one was too seldom. The calls are made in a child
//! process, so that one in which the library crashes or hangs can be named; `plug_sensing_compare
//! PART RUN` makes the calls of one run without a child, each printed ahead.

mod call;
mod coverage;
mod facts;
mod garbled;
mod handed_in;
mod kinds;
mod made;
mod sessions;

use std::process::ExitCode;

use shared::compare::Runs;

use coverage::Coverage;

const RUNS: Runs<Coverage> = [
    (sessions::run, 4_000),
    (handed_in::run, handed_in::VALUES),
    (garbled::run, 40_000),
];

fn main() -> ExitCode {
    shared::compare::main("plug_sensing_compare", RUNS)
}
