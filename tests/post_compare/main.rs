//! The library's setup and tick held to those of the second implementation, call by call: the
//! number returned and every byte of state, input and output, those of refused calls too, and the
//! bytes beside them.
//!
//! It links the static library `post`. `post_compare FACTOR` makes FACTOR times as many calls as
//! `post_compare` does. There are three parts, each a list of runs with a seed of its own, the same
//! every time:
//!
//! - sessions: posts ticked from their setup on
//! - handed-in: states near every edge of a good one, ticked
//! - garbled: any lengths, bytes and numbers
//!
//! The first difference is printed in full and ends it. Without one it prints how often each thing
//! worth comparing occurred, and fails if one never did. The calls are made in a child process, so
//! that one in which the library crashes or hangs can be named; `post_compare PART RUN` makes the
//! calls of one run without a child, each printed ahead.

mod causes;
mod compare;
mod coverage;
mod facts;
mod flaws;
mod handed_in;
mod numbers;
mod sessions;
mod states;
mod turns;

use std::process::ExitCode;

use shared::compare::Runs;

use coverage::Coverage;

const RUNS: Runs<Coverage> = [
    (sessions::run, 2_000),
    (handed_in::run, 130_000),
    (handed_in::garbled, 110_000),
];

fn main() -> ExitCode {
    shared::compare::main("post_compare", RUNS)
}
