//! Inputs of every kind, whole and in pieces; and long ones, of many lines and of one: memory stays
//! as it is, and how fast it goes.

use std::io::Write;
use std::time::{Duration, Instant};
use std::{fs, thread};

use lines::line::{answers, join, Line, SETUP, START};
use lines::{long, numbers, odd, sessions};
use shared::dice::Dice;
use shared::numbers::Numbers;

use crate::compare::{self, Comparison, Outcome};

/// Lines to draw from, made once.
pub struct Stock {
    odd: Vec<Line>,
    no_lines: Vec<Line>,
}

impl Stock {
    pub fn new() -> Stock {
        let (odd, no_lines) = (odd::lines(), odd::no_lines());
        Stock { odd, no_lines }
    }

    /// A post set up and ticked, with lines between that change nothing.
    pub fn session(&self, leads: u32, ticks: usize, dice: &mut Dice) -> Vec<Line> {
        sessions::roaming(a_post(leads, dice), ticks, &self.no_lines, dice)
    }

    /// Lines of all kinds, of about this many bytes. One in two has no line feed at its end.
    pub fn mixture(&self, size: usize, dice: &mut Dice) -> Vec<u8> {
        let mut text = Vec::new();
        while text.len() < size {
            text.extend(join(&self.some_lines(dice)));
        }
        if dice.one_in(2) {
            text.pop();
        }
        text
    }

    fn some_lines(&self, dice: &mut Dice) -> Vec<Line> {
        let leads = 1 + dice.below(4);
        match dice.below(40) {
            0 => {
                let forms = long::forms(dice.pick(&long::LENGTHS[..11]), dice);
                vec![forms[dice.below(forms.len() as u32) as usize].clone()]
            }
            1..10 => vec![self.odd[dice.below(self.odd.len() as u32) as usize].clone()],
            10..15 => vec![numbers::line(&a_post(leads, dice))],
            15..20 => {
                let number = dice.pick(&numbers::refusals());
                vec![numbers::refused(number, leads, dice)]
            }
            _ => self.session(leads, dice.below(40) as usize, dice),
        }
    }
}

/// One in two has errors.
fn a_post(leads: u32, dice: &mut Dice) -> Numbers {
    match dice.one_in(2) {
        true => numbers::good_with_errors(leads, dice),
        false => numbers::good(leads, dice),
    }
}

pub fn compare(stock: &Stock, comparison: &mut Comparison) -> Outcome {
    let mut dice = Dice::new(0xD1B5_4A32_D192_ED03);
    comparison.same("nothing", b"")?;
    for byte in 0..=255 {
        comparison.same("one byte", &[byte])?;
    }
    for text in ["\n\n", "\r\n", "\n\r", "\n\0", "tick\t\n\n", "\ntick\t"] {
        comparison.same("a few bytes", text.as_bytes())?;
    }
    let text = format!("{SETUP}\n{START}\ntick\t\n");
    for length in 0..=text.len() {
        comparison.same("a beginning of the whole case", &text.as_bytes()[..length])?;
    }
    // Every length in every form: alone, without its line feed, and among lines.
    for length in long::LENGTHS {
        for line in long::forms(length, &mut dice) {
            comparison.same("one long line", &line)?;
            let [setup, tick] = [SETUP, START].map(Line::from);
            let among = join(&[setup, tick.clone(), line, tick]);
            comparison.same("a long line among others", &among)?;
        }
    }
    for _ in 0..120 {
        let size = 1 + dice.below(40_000) as usize;
        comparison.same("a mixture of lines", &stock.mixture(size, &mut dice))?;
    }
    for _ in 0..40 {
        noise(comparison, &mut dice)?;
    }
    for _ in 0..40 {
        let size = dice.pick(&[200, 3_000, 20_000, 100_000, 400_000]);
        let text = stock.mixture(size, &mut dice);
        comparison.same_in_pieces("an input in pieces", &text, &draw_sizes(&mut dice))?;
    }
    // A short text cut in two at every place.
    let text = format!("{SETUP}\n{START}\n\ntick\t");
    for cut in 1..text.len() {
        comparison.same_in_pieces("a text cut in two", text.as_bytes(), &[cut])?;
    }
    Ok(())
}

/// Single bytes, lines or so, sizes of buffers, or anything up to 100,000.
fn draw_sizes(dice: &mut Dice) -> Vec<usize> {
    let most = dice.pick(&[1, 8, 60, 1_000, 8_192, 100_000, 0]);
    let size = |_| match most {
        0 => dice.pick(&[1, 4_095, 4_096, 4_097, 8_192, 65_535, 65_536, 65_537]),
        _ => 1 + dice.below(most) as usize,
    };
    (0..150).map(size).collect()
}

/// Bytes that make up no lines but by chance: any, or of few kinds.
fn noise(comparison: &mut Comparison, dice: &mut Dice) -> Outcome {
    const WORDS: &str =
        "setup setup\t1\t500\t125\t00000000 tick \t \t \t \t \n \n 1 2 4 50 51 500 125 00000000 3F000000 00 21 \r";
    let length = 1 + dice.below(200_000) as usize;
    let any: Vec<u8> = (0..length).map(|_| dice.byte()).collect();
    comparison.same("any bytes", &any)?;
    for few in [&b"0123456789\t\n"[..], b"\n\n\n\r\t"] {
        let bytes: Vec<u8> = (0..length / 8).map(|_| dice.pick(few)).collect();
        comparison.same("bytes of few kinds", &bytes)?;
    }
    let words: Vec<&str> = WORDS.split(' ').chain([" "]).collect();
    let words: Vec<&str> = (0..length / 16).map(|_| dice.pick(&words)).collect();
    comparison.same("words and tabs", words.concat().as_bytes())
}

/// Some 2 MB of four leads' ticks.
const TICKS: usize = 2_900;
const TIMES_LONGER: usize = 10;

/// In KB.
const MOST_GROWTH: u64 = 1_024;

/// After the input is taken, for what the program still does with it.
const PAUSE: Duration = Duration::from_millis(300);

/// Says what it found.
pub fn steady(stock: &Stock, comparison: &mut Comparison) -> Result<String, String> {
    let mut dice = Dice::new(0xE703_7ED1_A0B4_28DB);
    let ticks = join(&stock.session(4, TICKS, &mut dice));
    let more = ticks.repeat(TIMES_LONGER);
    let [line, longer] = [&ticks, &more].map(|text| long::tick(text.len()));
    let mut figures = String::new();
    for (short, long) in [(line, longer), (ticks, more)] {
        let (for_short, _) = measure(&short, comparison)?;
        let (for_long, seconds) = measure(&long, comparison)?;
        let bytes = long.len();
        if for_long > for_short + MOST_GROWTH {
            let told = format!("{for_short} KB for less, {for_long} KB for {bytes} bytes");
            return Err(format!("memory grows with the input: {told}"));
        }
        let answers = answers(&long);
        let answers = answers.split(|&byte| byte == b'\n');
        let done = answers.filter(|answer| answer.starts_with(b"0\t")).count();
        let speed = format!("{:.0} ticks of four leads a second", done as f64 / seconds);
        figures = format!("bench: {for_long} KB of memory after {bytes} bytes; {speed}");
    }
    Ok(figures)
}

/// The most memory that the program has had, in KB, and the seconds that it took.
fn measure(input: &[u8], comparison: &mut Comparison) -> Result<(u64, f64), String> {
    let mut measured = Err("the input wasn't taken".to_string());
    let run = compare::run(&comparison.program, |mut stdin, number| {
        let start = Instant::now();
        if stdin.write_all(input).is_ok() {
            let seconds = start.elapsed().as_secs_f64();
            thread::sleep(PAUSE);
            // The program still waits for more, and so can be asked about.
            measured = peak(number).map(|peak| (peak, seconds));
        }
    });
    comparison.held_to_second("a long input", input, run, false)?;
    measured
}

fn peak(number: u32) -> Result<u64, String> {
    let path = format!("/proc/{number}/status");
    let status = fs::read_to_string(&path).map_err(|error| format!("{path}: {error}"))?;
    let line = status.lines().find_map(|line| line.strip_prefix("VmHWM:"));
    let peak = line.and_then(|line| line.trim().strip_suffix(" kB")?.parse().ok());
    peak.ok_or_else(|| format!("{path} doesn't tell the peak of memory"))
}
