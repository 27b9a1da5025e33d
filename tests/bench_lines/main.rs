//! Lines for the bench program, with the answers of the second implementation: `bench_lines lines`
//! prints the lines, the last one without its line feed, `bench_lines answers` the answers, and
//! `bench_lines coverage` how often each thing worth testing occurs. It fails if one never does.
//!
//! The lines are the same on every run.

mod coverage;

use std::process::ExitCode;

fn main() -> ExitCode {
    let text = lines::all::text();
    let answers = lines::line::answers(&text);
    let (table, missing) = coverage::report(&text, &answers);
    let printed = match std::env::args().nth(1).as_deref() {
        Some("lines") => text,
        Some("answers") => answers,
        Some("coverage") => table.into_bytes(),
        _ => b"usage: bench_lines lines | answers | coverage\n".to_vec(),
    };
    shared::end(if missing > 0 {
        Err(printed)
    } else {
        Ok(printed)
    })
}
