//! What more than one of the test programs uses. The rules, their numbers and their order are the
//! second implementation's, none of them repeated here.

use std::io::{self, Write};
use std::process::ExitCode;

mod child;
pub mod compare;
pub mod coverage;
pub mod dice;
pub mod lead_input;
pub mod library;
pub mod meter;
pub mod numbers;
pub mod plan;
pub mod post;
pub mod scene;
pub mod stops;

/// A program's end: what it prints, and with an error that it failed. A closed output is no fault
/// of what is tested.
pub fn end<T: AsRef<[u8]>>(done: Result<T, T>) -> ExitCode {
    let (Ok(text) | Err(text)) = &done;
    let _ = io::stdout().write_all(text.as_ref());
    ExitCode::from(u8::from(done.is_err()))
}

/// In capitals.
pub fn hex(bytes: &[u8]) -> String {
    bytes.iter().map(|byte| format!("{byte:02X}")).collect()
}
