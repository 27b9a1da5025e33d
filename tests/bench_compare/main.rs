//! The bench program held to that of the second implementation, byte for byte: `bench_compare
//! PROGRAM` runs the program on many inputs, the same every time: the lines of `bench_lines`,
//! mixtures of such lines, bytes of few kinds, any bytes; lengths of inputs and of answers around
//! the sizes of buffers; inputs that come in pieces; a long input, whose length must not show in
//! the program's memory; readers that go away, inputs and outputs that fail.
//!
//! The first difference is printed, and its input kept in a file.

mod boundaries;
mod compare;
mod endings;
mod inputs;

use std::process::ExitCode;

use compare::Comparison;
use inputs::Stock;

fn main() -> ExitCode {
    let program = std::env::args_os().nth(1);
    let compared = compare_all(Comparison {
        program: program.expect("usage: bench_compare PROGRAM").into(),
        ..Comparison::default()
    });
    shared::end(compared.map_err(|text| text + "\n"))
}

fn compare_all(mut comparison: Comparison) -> Result<String, String> {
    let stock = Stock::new();
    comparison.same("the lines of bench_lines", &lines::all::text())?;
    inputs::compare(&stock, &mut comparison)?;
    boundaries::compare(&stock, &mut comparison)?;
    let figures = inputs::steady(&stock, &mut comparison)?;
    endings::compare(&mut comparison)?;
    let compared = format!("{} inputs, {} bytes", comparison.inputs, comparison.bytes);
    Ok(format!("{figures}\nbench: {compared}, no difference\n"))
}
