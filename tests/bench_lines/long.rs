//! Lines of exact lengths, around the most characters that a line may have and around the sizes of
//! pieces in which a program may read.

use second::bench::LONGEST_LINE as MOST;
use shared::dice::Dice;

use crate::line::{Line, SETUP, START};

/// In characters.
#[rustfmt::skip]
pub const LENGTHS: [usize; 15] = [
    MOST - 2, MOST - 1, MOST, MOST + 1, MOST + 2, 4_095, 4_096, 4_097, 8_191, 8_192, 8_193,
    65_535, 65_536, 65_537, 150_000,
];

/// Faults of lines that are too long, by their names.
pub fn faults() -> Vec<(String, Line)> {
    let faults = [
        ("a setup", setup(MOST + 1, 0)),
        ("a tick", tick(MOST + 1)),
        (
            "the first 1,000 a line",
            filled(setup(MOST, 1), MOST + 1, b'0'),
        ),
        (
            "all but 1,000 a line",
            filled(START, START.len() + MOST, b'x'),
        ),
        ("after the first 1,000 a line", tailed(MOST, START)),
        ("after the first 1,001 a line", tailed(MOST + 1, START)),
    ];
    let named = |(name, line)| (format!("above 1,000 characters, {name}"), line);
    faults.map(named).to_vec()
}

/// Seven lines of this length, the first four understood but for it, longer ones with a line at one
/// end of what is none, and two of this length that are understood but for it.
pub fn forms(length: usize, dice: &mut Dice) -> [Line; 14] {
    let mut rubbish = |byte: fn(u8) -> u8| (0..length).map(|_| byte(dice.byte())).collect();
    let [volts_error, amperes_error] = zeros_of_errors(length);
    [
        tick(length),
        setup(length, 0),
        setup(length, 1),
        setup(length, 2),
        rubbish(|_| b'\t'),
        rubbish(|any| b'0' + any % 10),
        rubbish(|any| if any == b'\n' { b'\r' } else { any }),
        tailed(length, START),
        tailed(length, SETUP),
        filled(START, length, b'x'),
        filled(SETUP, length, b'x'),
        filled(setup(MOST, 1), length.max(MOST + 1), b'0'),
        volts_error,
        amperes_error,
    ]
}

/// Setups with zeros before one of their errors.
pub fn zeros_of_errors(length: usize) -> [Line; 2] {
    [4, 5].map(|place| setup(length, place))
}

/// A setup with zeros before one of its numbers, by the place of its field.
pub fn setup(length: usize, place: usize) -> Line {
    let (tab, _) = SETUP.match_indices('\t').nth(place).expect("a field");
    let (before, after) = SETUP.split_at(tab + 1);
    let zeros = "0".repeat(length - SETUP.len());
    [before, &zeros, after].concat().into_bytes()
}

/// A tick of zeros. Of an even length it has a digit without its pair.
pub fn tick(length: usize) -> Line {
    filled("tick\t", length, b'0')
}

fn tailed(before: usize, tail: &str) -> Line {
    [&filled("", before, b'x'), tail.as_bytes()].concat()
}

fn filled(head: impl Into<Line>, length: usize, byte: u8) -> Line {
    let mut line = head.into();
    line.resize(length, byte);
    line
}
