//! A library held to the second implementation, call by call: parts, each a list of runs with a
//! seed of its own, the same every time, each run a list of calls. Compared are the number
//! returned, every slice after the call, one that is only read too, and the bytes beside them.

use std::io::{self, Write};
use std::process::ExitCode;

use crate::child;
use crate::coverage::PARTS;
use crate::dice::Dice;
use crate::{end, hex};

/// What a call gets: numbers, and up to three slices. One that it doesn't get is empty.
pub trait Call {
    /// What the slices are, in their order.
    const NAMES: [&'static str; 3];

    fn slices(&self) -> [&[u8]; 3];

    /// The entry, with its numbers.
    fn title(&self) -> String;

    fn second(&self, lent: [&mut [u8]; 3]) -> u32;

    fn library(&self, lent: [&mut [u8]; 3]) -> u32;

    /// Takes over what the call has left in the slices.
    fn take(&mut self, left: [&[u8]; 3]);
}

/// What is worth comparing, and how often it occurred.
pub trait Tables {
    type Call: Call;

    fn new() -> Self;

    /// The call as it was before, the number returned, and the slices after it.
    fn count(&mut self, part: usize, call: &Self::Call, number: u32, left: [&[u8]; 3]);

    /// All of it as text, and whether everything occurred.
    fn report(&self, factor: u64) -> Result<String, String>;
}

/// Of each part a run, and the number of runs at factor 1.
pub type Runs<T> = [(fn(&mut Run<T>) -> Result<(), String>, u64); PARTS.len()];

/// The calls are made in a child process, so that one in which the library crashes or hangs can be
/// named; those of one run without a child, each printed ahead.
pub fn main<T: Tables>(program: &'static str, runs: Runs<T>) -> ExitCode {
    let arguments: Vec<String> = std::env::args().skip(1).collect();
    let arguments: Vec<&str> = arguments.iter().map(String::as_str).collect();
    let number = |text: &str| text.parse::<u64>().unwrap_or(0);
    end(match arguments[..] {
        [] => child::watch(program, "1"),
        [factor] if number(factor) > 0 => child::watch(program, factor),
        [child::ARGUMENT, factor] => compare_all(program, runs, number(factor)),
        [part, run] => compare_one(program, runs, part, number(run)),
        _ => Err(usage(program)),
    })
}

fn usage(program: &str) -> String {
    format!("usage: {program} [FACTOR] | PART RUN\n")
}

fn compare_all<T: Tables>(
    program: &'static str,
    runs: Runs<T>,
    factor: u64,
) -> Result<String, String> {
    let notes = child::notes();
    let ahead = |place: &str, _: &T::Call| child::note(&notes, place);
    let mut tables = T::new();
    for (part, (one_run, runs)) in runs.into_iter().enumerate() {
        for number in 0..runs * factor {
            let done = one_run(&mut Run::new(program, part, number, &ahead, &mut tables));
            done.inspect_err(|_| child::note(&notes, child::FINISHED))?;
        }
    }
    child::note(&notes, child::FINISHED);
    tables.report(factor)
}

fn compare_one<T: Tables>(
    program: &'static str,
    runs: Runs<T>,
    name: &str,
    number: u64,
) -> Result<String, String> {
    let part = PARTS.iter().position(|part| *part == name);
    let part = part.ok_or_else(|| usage(program))?;
    // A closed output is no fault of the library.
    let ahead = |place: &str, call: &T::Call| drop(write!(io::stdout(), "{place}: {}", text(call)));
    runs[part].0(&mut Run::new(program, part, number, &ahead, &mut T::new()))?;
    Ok("no difference\n".to_string())
}

/// A list of calls with a seed of its own.
pub struct Run<'a, T: Tables> {
    pub dice: Dice,
    pub number: u64,
    pub tables: &'a mut T,
    program: &'static str,
    part: usize,
    calls: u64,
    ahead: Ahead<'a, T>,
}

/// Makes the call to come known, with its place.
type Ahead<'a, T> = &'a dyn Fn(&str, &<T as Tables>::Call);

impl<'a, T: Tables> Run<'a, T> {
    fn new(
        program: &'static str,
        part: usize,
        number: u64,
        ahead: Ahead<'a, T>,
        tables: &'a mut T,
    ) -> Run<'a, T> {
        // An odd factor keeps the seeds apart; none of them is 0.
        let seed = (number << 2 | (part as u64 + 1)).wrapping_mul(0x9E37_79B9_7F4A_7C15);
        Run {
            dice: Dice::new(seed),
            number,
            tables,
            program,
            part,
            calls: 0,
            ahead,
        }
    }

    /// The call is left as after it.
    pub fn make(&mut self, call: &mut T::Call) -> Result<u32, String> {
        self.calls += 1;
        let place = self.place();
        let second = through(call, T::Call::second);
        (self.ahead)(&place, call);
        let library = through(call, T::Call::library);
        if second != library {
            let answers = [second, library].map(|answer| answer_text::<T::Call>(&answer));
            let ([second, library], call) = (answers, text(call));
            return Err(format!(
                "difference in {place}: {call}second implementation\n{second}library\n{library}"
            ));
        }
        let (number, lent) = second;
        let left = lent.each_ref().map(|lent| inner(lent));
        self.tables.count(self.part, call, number, left);
        call.take(left);
        Ok(number)
    }

    /// One that has to be refused, and then changes no byte, on either side.
    pub fn make_refused(&mut self, call: &mut T::Call) -> Result<u32, String> {
        let before = call.slices().map(<[u8]>::to_vec);
        let number = self.make(call)?;
        assert_ne!(number, 0, "{}", call.title());
        match before.each_ref().map(Vec::as_slice) == call.slices() {
            true => Ok(number),
            false => Err(format!("{} is refused, but changed a byte\n", self.place())),
        }
    }

    /// With something wrong, and then refused; now and then as it is.
    pub fn make_garbled(
        &mut self,
        mut call: T::Call,
        spoil: fn(&mut T::Call, &mut Dice),
    ) -> Result<(), String> {
        if self.dice.one_in(16) {
            self.make(&mut call)?;
            return Ok(());
        }
        spoil(&mut call, &mut self.dice);
        self.make_refused(&mut call)?;
        Ok(())
    }

    /// Of the newest call.
    pub fn place(&self) -> String {
        let (program, part, number) = (self.program, PARTS[self.part], self.number);
        let calls = self.calls;
        format!("call {calls} of run {number} (alone: {program} {part} {number})")
    }
}

/// What a call came to: the number, and the three slices, each between margins.
type Answer = (u32, [Vec<u8>; 3]);

/// Bytes on either side of a slice, in which no call has any business. An odd number, as no slice
/// need begin at an even address; enough that most of what is written past a slice stays there.
const MARGIN: [u8; 99] = [0xC3; 99];

fn inner(lent: &[u8]) -> &[u8] {
    &lent[MARGIN.len()..lent.len() - MARGIN.len()]
}

fn through<C: Call>(call: &C, side: impl Fn(&C, [&mut [u8]; 3]) -> u32) -> Answer {
    let lend = |bytes| [&MARGIN[..], bytes, &MARGIN].concat();
    let mut lent = call.slices().map(lend);
    let slices = lent.each_mut().map(|lent| {
        let end = lent.len() - MARGIN.len();
        &mut lent[MARGIN.len()..end]
    });
    (side(call, slices), lent)
}

pub fn junk(length: usize, dice: &mut Dice) -> Vec<u8> {
    (0..length).map(|_| dice.byte()).collect()
}

/// Gives the bytes another length. Some are right again if all but their low 8 or 16 bits are cut
/// off.
pub fn spoil_length(bytes: &mut Vec<u8>, dice: &mut Dice) {
    let right = bytes.len();
    let length = match dice.below(10) {
        0 => 0,
        1 => 1,
        2 => right - 1,
        3 => right + 1,
        4 => right + 2,
        5 => 2 * right,
        6 => dice.below(right as u32) as usize,
        7 => right + dice.below(600) as usize,
        8 => right + (1 << 8),
        _ => right + (1 << dice.pick(&[8, 8, 8, 16])),
    };
    let length = length + 2 * usize::from(length == right);
    bytes.truncate(length);
    bytes.resize_with(length, || dice.byte());
}

fn text<C: Call>(call: &C) -> String {
    format!("{}\n{}", call.title(), slices_text::<C>(call.slices()))
}

fn answer_text<C: Call>((number, lent): &Answer) -> String {
    let slices = slices_text::<C>(lent.each_ref().map(|lent| inner(lent)));
    let kept = |lent: &Vec<u8>| lent.starts_with(&MARGIN) && lent.ends_with(&MARGIN);
    let note = "  bytes beside a slice were written\n";
    let beside = if lent.iter().all(kept) { "" } else { note };
    format!("  number {number}\n{slices}{beside}")
}

fn slices_text<C: Call>(slices: [&[u8]; 3]) -> String {
    let width = C::NAMES.map(str::len).into_iter().max().unwrap_or(0);
    let line = |(name, bytes): (&str, &[u8])| {
        format!("  {name:width$} {:4} bytes {}\n", bytes.len(), hex(bytes))
    };
    C::NAMES.into_iter().zip(slices).map(line).collect()
}
