//! The six calls of the receive chip's library held to those of the second implementation, call by
//! call: the number returned and every byte of the receiver, of the frame and of the room lent,
//! those of refused calls too, and the bytes beside them.
//!
//! It links the static library `receiver`. `receiver_compare FACTOR` makes FACTOR times as many
//! calls as `receiver_compare` does. There are three parts, each a list of runs with a seed of its
//! own, the same every time:
//!
//! - sessions: receivers from power-up on, with hosts of several moods; the frames handed on and
//!   held are held to those that arrived as well
//! - handed-in: any bytes as a receiver, a call on each, with every pair of the bytes that decide
//! - garbled: wrong lengths and register numbers, all of them that go together
//!
//! The first difference is printed in full and ends it. Without one it prints how often each thing
//! worth comparing occurred, and fails if one was too seldom. The calls are made in a child
//! process, so that one in which the library crashes or hangs can be named; `receiver_compare PART
//! RUN` makes the calls of one run without a child, each printed ahead.

mod call;
mod coverage;
mod facts;
mod garbled;
mod handed_in;
mod made;
mod moods;
mod sessions;
mod steps;

use std::process::ExitCode;

use shared::compare::Runs;

use coverage::Coverage;

const RUNS: Runs<Coverage> = [
    (sessions::run, 400),
    (handed_in::run, handed_in::PAIRS),
    (garbled::run, 24_000),
];

fn main() -> ExitCode {
    shared::compare::main("receiver_compare", RUNS)
}
