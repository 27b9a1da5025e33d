//! The language of the bench program: tab-parted lines in, one line out for
//! each. Any bytes whatever may come in.

use std::io::{self, BufRead, BufReader, BufWriter, ErrorKind, Read, Write};

use crate::post;
use crate::sharing::MOST_LEADS;

/// "One above 1,000 characters" is answered `?`. The line feed isn't counted.
pub const LONGEST_LINE: usize = 1000;

/// "Setup's first three numbers are decimal, at most 65,535." 2026-08: the line "ends
/// with the two errors in decimal, at most 65,535, volts first".
pub const LARGEST_DECIMAL: u32 = 65_535;

const RESISTANCE_DIGITS: usize = 8;

const HEX_DIGITS: &[u8; 16] = b"0123456789ABCDEF";

/// Answers every line until the input ends. An error is one of the input or of
/// the output, such as a reader that has gone; there is nothing more to do.
pub fn run(input: impl Read, output: impl Write) -> io::Result<()> {
    let mut input = BufReader::new(input);
    let mut output = BufWriter::new(output);
    let mut bench = Bench::new();
    let mut line = Vec::with_capacity(LONGEST_LINE + 1);
    loop {
        // Whoever waits for an answer before the next line gets it.
        if input.buffer().is_empty() {
            output.flush()?;
        }
        if !read_line(&mut input, &mut line)? {
            return output.flush();
        }
        bench.answer(&line).write(&mut output)?;
    }
}

/// The next line without its line feed, of a longer one only the beginning:
/// one byte above the limit. `false` at the end of the input.
fn read_line(input: &mut impl BufRead, line: &mut Vec<u8>) -> io::Result<bool> {
    line.clear();
    let mut begun = false;
    loop {
        let bytes = match input.fill_buf() {
            Ok(bytes) => bytes,
            Err(error) if error.kind() == ErrorKind::Interrupted => continue,
            Err(error) => return Err(error),
        };
        if bytes.is_empty() {
            return Ok(begun);
        }
        begun = true;
        let end = bytes.iter().position(|&byte| byte == b'\n');
        let part = &bytes[..end.unwrap_or(bytes.len())];
        let room = LONGEST_LINE + 1 - line.len();
        line.extend_from_slice(&part[..part.len().min(room)]);
        let used = part.len() + usize::from(end.is_some());
        input.consume(used);
        if end.is_some() {
            return Ok(true);
        }
    }
}

enum Answer<'a> {
    /// Any other line, one too long, or a tick before an accepted setup.
    NotUnderstood,
    /// A setup, or a refused tick.
    Number(u32),
    /// A tick done, with its output.
    Done(&'a [u8]),
}

impl Answer<'_> {
    fn write(&self, output: &mut impl Write) -> io::Result<()> {
        match self {
            Answer::NotUnderstood => output.write_all(b"?\n"),
            Answer::Number(number) => writeln!(output, "{number}"),
            Answer::Done(bytes) => {
                write!(output, "{}\t", post::DONE)?;
                for &byte in *bytes {
                    let pair = [byte >> 4, byte & 0xF].map(|digit| HEX_DIGITS[usize::from(digit)]);
                    output.write_all(&pair)?;
                }
                output.write_all(b"\n")
            }
        }
    }
}

struct Bench {
    /// 0 before an accepted setup.
    leads: usize,
    state: [u8; post::state_bytes(MOST_LEADS)],
    output: [u8; post::output_bytes(MOST_LEADS)],
    input: Vec<u8>,
}

impl Bench {
    fn new() -> Bench {
        Bench {
            leads: 0,
            state: [0; post::state_bytes(MOST_LEADS)],
            output: [0; post::output_bytes(MOST_LEADS)],
            input: Vec::with_capacity(LONGEST_LINE / 2),
        }
    }

    fn answer(&mut self, line: &[u8]) -> Answer<'_> {
        if line.len() > LONGEST_LINE {
            return Answer::NotUnderstood;
        }
        if let Some([b"setup", leads, volts, amperes, resistance, volts_error, amperes_error]) =
            fields(line)
        {
            return self.setup(
                leads,
                volts,
                amperes,
                resistance,
                volts_error,
                amperes_error,
            );
        }
        if let Some([b"tick", hex]) = fields(line) {
            return self.tick(hex);
        }
        Answer::NotUnderstood
    }

    fn setup(
        &mut self,
        leads: &[u8],
        volts: &[u8],
        amperes: &[u8],
        resistance: &[u8],
        volts_error: &[u8],
        amperes_error: &[u8],
    ) -> Answer<'static> {
        let (
            Some(leads),
            Some(volts),
            Some(amperes),
            Some(resistance),
            Some(volts_error),
            Some(amperes_error),
        ) = (
            decimal(leads),
            decimal(volts),
            decimal(amperes),
            resistance_bits(resistance),
            decimal(volts_error),
            decimal(amperes_error),
        )
        else {
            return Answer::NotUnderstood;
        };
        // With a wrong number of leads any length will do: 1 comes before 5.
        let count = (leads as usize).min(MOST_LEADS);
        let state = &mut self.state[..post::state_bytes(count)];
        // "A refused setup keeps the earlier post": setup writes nothing then.
        let number = post::setup(
            leads,
            volts,
            amperes,
            resistance,
            volts_error,
            amperes_error,
            state,
        );
        if number == post::DONE {
            self.leads = count;
        }
        Answer::Number(number)
    }

    fn tick(&mut self, hex: &[u8]) -> Answer<'_> {
        if self.leads == 0 || !read_hex(hex, &mut self.input) {
            return Answer::NotUnderstood;
        }
        // "Missing final bytes 0; surplus bytes are passed on."
        let whole = post::input_bytes(self.leads);
        if self.input.len() < whole {
            self.input.resize(whole, 0);
        }
        let state = &mut self.state[..post::state_bytes(self.leads)];
        let output = &mut self.output[..post::output_bytes(self.leads)];
        match post::tick(state, &self.input, output) {
            post::DONE => Answer::Done(output),
            number => Answer::Number(number),
        }
    }
}

/// The fields between the tabs, if they are N.
fn fields<const N: usize>(line: &[u8]) -> Option<[&[u8]; N]> {
    let mut parts = line.split(|&byte| byte == b'\t');
    let mut fields: [&[u8]; N] = [&[]; N];
    for field in &mut fields {
        *field = parts.next()?;
    }
    parts.next().is_none().then_some(fields)
}

/// Decimal digits only; leading zeros count for nothing.
fn decimal(field: &[u8]) -> Option<u32> {
    if field.is_empty() {
        return None;
    }
    let mut number = 0;
    for &byte in field {
        if !byte.is_ascii_digit() {
            return None;
        }
        number = number * 10 + u32::from(byte - b'0');
        if number > LARGEST_DECIMAL {
            return None;
        }
    }
    Some(number)
}

fn hex_digit(byte: u8) -> Option<u8> {
    match byte {
        b'0'..=b'9' => Some(byte - b'0'),
        b'a'..=b'f' => Some(byte - b'a' + 10),
        b'A'..=b'F' => Some(byte - b'A' + 10),
        _ => None,
    }
}

/// "8 hex digits, as one number, highest first."
fn resistance_bits(field: &[u8]) -> Option<u32> {
    if field.len() != RESISTANCE_DIGITS {
        return None;
    }
    let mut bits = 0;
    for &byte in field {
        bits = bits << 4 | u32::from(hex_digit(byte)?);
    }
    Some(bits)
}

/// "Hex comes in pairs of digits, in either case." `false` for anything else.
fn read_hex(field: &[u8], bytes: &mut Vec<u8>) -> bool {
    bytes.clear();
    let (pairs, rest) = field.as_chunks::<2>();
    for &[high, low] in pairs {
        let (Some(high), Some(low)) = (hex_digit(high), hex_digit(low)) else {
            return false;
        };
        bytes.push(high << 4 | low);
    }
    rest.is_empty()
}
