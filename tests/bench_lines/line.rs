//! Lines put together. None has its line feed yet.

use shared::dice::Dice;

pub type Line = Vec<u8>;

/// The two lines of document 01's whole case: a post, and the start of its lead.
pub const SETUP: &str = "setup\t1\t500\t125\t00000000\t0\t0";
pub const START: &str = "tick\t0000000021";

/// The whole case's setup with these fields in place of its first ones.
pub fn setup(fields: &[&str]) -> Line {
    let mut all: Vec<&str> = SETUP.split('\t').collect();
    all[1..=fields.len()].copy_from_slice(fields);
    all.join("\t").into_bytes()
}

/// A tick of all these bytes, in digits of either case or of both.
pub fn whole_tick(input: &[u8], dice: &mut Dice) -> Line {
    let mut line = format!("tick\t{}", shared::hex(input)).into_bytes();
    let case = dice.below(4);
    for digit in &mut line[b"tick\t".len()..] {
        if case == 2 || (case == 3 && dice.one_in(2)) {
            digit.make_ascii_lowercase();
        }
    }
    line
}

/// "Missing final bytes 0": of the final zero bytes most often all are left out, now and then some
/// or none.
pub fn tick(input: &[u8], dice: &mut Dice) -> Line {
    let least = without_final_zeros(input).len();
    let zeros = (input.len() - least) as u32;
    let kept = match dice.below(16) {
        0 => zeros,
        1 => dice.below(zeros + 1),
        _ => 0,
    };
    whole_tick(&input[..least + kept as usize], dice)
}

pub fn without_final_zeros(input: &[u8]) -> &[u8] {
    let last = input.iter().rposition(|&byte| byte != 0);
    &input[..last.map_or(0, |at| at + 1)]
}

/// Every line with its line feed.
pub fn join(lines: &[Line]) -> Vec<u8> {
    let with_end = |line: &Line| [line, &b"\n"[..]].concat();
    lines.iter().flat_map(with_end).collect()
}

/// The second implementation's.
pub fn answers(text: &[u8]) -> Vec<u8> {
    let mut answers = Vec::new();
    second::bench::run(text, &mut answers).expect("memory is read and written");
    answers
}

/// Whether a post has a number for the line.
pub fn understood(line: &[u8]) -> bool {
    let answers = answers(&join(&[Line::from(SETUP), line.to_vec()]));
    !answers.ends_with(b"?\n")
}
