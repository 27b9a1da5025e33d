//! Lines for the bench program, which `bench_lines` prints and `bench_compare` compares.

pub mod all;
pub mod line;
pub mod long;
pub mod numbers;
pub mod odd;
pub mod refused;
pub mod sessions;
