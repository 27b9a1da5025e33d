//! The post's lead controller and power divider, written a second time.
//!
//! It describes document 01, with requests 2026-01 to 2026-08 of document 02, in
//! plain code, in the order of document 01, and gives the expected answers for
//! tests. Each layer knows only those above it in this list:
//!
//! - `readings`: what the meter board gives, and the tenths made of it
//! - `frames`: what the car sends and what the post sends
//! - `lead`: one cable with its connector
//! - `sharing`: the level up to which every want is met
//! - `post`: the two calls, setup and tick
//! - `bench`: the language of the bench program
//!
//! `receiver` is the receive chip of the new board. It stands beside this list: it
//! knows frame records and nothing else of these, and none of these knows it.
//!
//! `plug` senses a GB/T plug. It stands beside this list too: it knows none of these,
//! and none of these knows it.
//!
//! `orders` takes the site manager's orders and finds a tick's allowance (2026-09). It
//! stands beside this list as well: it knows none of these. None of these knows it
//! yet, since `post`'s tick does not take orders so far.
//!
//! `inputs` puts lead inputs together by name, for tests and test programs.

pub mod bench;
pub mod frames;
pub mod inputs;
pub mod lead;
pub mod orders;
pub mod plug;
pub mod post;
pub mod readings;
pub mod receiver;
pub mod sharing;

// A row of a table stays on one line.
#[cfg(test)]
#[rustfmt::skip]
mod tests;
