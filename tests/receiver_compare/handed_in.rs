//! Any bytes handed in as a receiver, a call on each: no list of calls comes to most of them.

use second::receiver::place::*;
use second::receiver::{OVERRUN_SET, REGISTERS, STATE_BYTES};
use shared::compare::junk;

use crate::call::{Call, Entry, Run, ENTRIES};

/// A run for every pair of two bytes.
pub const PAIRS: u64 = 1 << 16;

/// The pair stands where it decides: status and turn for an arrival and a drain, status and mask
/// for the line, status and what is written to acknowledge.
pub fn run(run: &mut Run) -> Result<(), String> {
    let [first, second, ..] = run.number.to_le_bytes();
    for (entry, at) in [
        (Entry::Arrive, TURN),
        (Entry::Drain, TURN),
        (Entry::Line, MASK),
    ] {
        make(entry, run, |receiver, _| {
            (receiver[STATUS], receiver[at]) = (first, second);
        })?;
    }
    make(Entry::Write, run, |receiver, call| {
        receiver[STATUS] = first;
        (call.number, call.value) = (ACKNOWLEDGE as u32, second);
    })?;
    if second == 0 {
        each_value(first, run)?;
    }
    if first % 4 == 0 {
        anything(run)?;
    }
    Ok(())
}

/// Any call, reads and writes through all registers in turn or of those that are not a mailbox's.
fn anything(run: &mut Run) -> Result<(), String> {
    let (entry, value) = (run.dice.pick(&ENTRIES), run.dice.byte());
    let in_turn = (run.number / 4 % REGISTERS as u64) as u32;
    let low = run.dice.below(FIRST_MAILBOX as u32);
    let number = run.dice.pick(&[in_turn, in_turn, low]);
    let value = run.dice.pick(&[0, 1, value]);
    make(entry, run, |_, call| {
        (call.number, call.value) = (number, value);
    })
}

/// The registers that are not a mailbox's, read where they hold this byte, and written with it.
fn each_value(byte: u8, run: &mut Run) -> Result<(), String> {
    for register in 0..FIRST_MAILBOX {
        make(Entry::Read, run, |receiver, call| {
            receiver[register] = byte;
            call.number = register as u32;
        })?;
        make(Entry::Write, run, |_, call| {
            (call.number, call.value) = (register as u32, byte);
        })?;
    }
    Ok(())
}

/// A call of any bytes but for what is changed. Overrun is mostly what a receiver comes to by
/// itself.
fn make(
    entry: Entry,
    run: &mut Run,
    change: impl FnOnce(&mut Vec<u8>, &mut Call),
) -> Result<(), String> {
    let mut receiver = junk(STATE_BYTES, &mut run.dice);
    receiver[OVERRUN] = run.dice.pick(&[0, OVERRUN_SET, receiver[OVERRUN]]);
    let mut call = Call::of(entry, Vec::new(), &mut run.dice);
    change(&mut receiver, &mut call);
    call.slices[0] = receiver;
    run.make(&mut call)?;
    Ok(())
}
