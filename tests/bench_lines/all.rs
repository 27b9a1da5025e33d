//! The lines of `bench_lines` in their order.

use second::bench::LONGEST_LINE;
use second::inputs::LeadInput;
use second::lead::contact::{PLUG, START_BUTTON};
use second::lead::input_place::OHMS;
use second::lead::{QUESTIONS, REASON_NONE};
use second::post::{input_bytes, ALLOWANCE_BYTES, REFUSED_ERROR};
use shared::dice::Dice;
use shared::post::input;

use crate::line::{join, setup, whole_tick, Line, SETUP, START};
use crate::{long, numbers, odd, refused, sessions};

/// The text that the bench program reads: the last line has no line feed.
pub fn text() -> Vec<u8> {
    let mut text = join(&lines());
    text.pop();
    text
}

fn lines() -> Vec<Line> {
    let dice = &mut Dice::new(0x2545_F491_4F6C_DD1D);
    let no_lines = odd::no_lines();
    let mut lines = before_a_setup(&no_lines, dice);
    lines.extend([SETUP, START].map(Line::from));
    // Now and then a tick shows how the post stands.
    for some in odd::lines().chunks(16) {
        lines.extend_from_slice(some);
        lines.push(Line::from(START));
    }
    // After each setup, taken or not, what the post makes of a tick.
    for setup in numbers::edges() {
        lines.extend([setup, probe(dice)]);
    }
    for leads in 1..=4 {
        lines.extend(lengths_of_inputs(leads, dice));
    }
    lines.extend([0, 0xA5].map(|byte| refused::longest(byte, dice)));
    // The second lead charges on, up to the next setup.
    let unchanging = refused::each_kind(dice);
    lines.extend(sessions::stopped(6, &[24, REASON_NONE], unchanging, dice));
    let several = [&[24, 26][..], &[20, 14, 26], &[25, 11, 17, 23]];
    let mut stops: Vec<(u8, Vec<u8>)> = several.map(|stops| (6, stops.to_vec())).to_vec();
    for question in &QUESTIONS {
        let phase = match question.number {
            // The shortest wait there is.
            28 => 2,
            // In 7 and 8 no reason is recorded.
            _ => dice.pick(&[question.first, question.last.min(6)]),
        };
        stops.push((phase, vec![question.number]));
    }
    for (phase, questions) in stops {
        let unchanging = vec![refused::any(questions.len(), &no_lines, dice)];
        lines.extend(sessions::stopped(phase, &questions, unchanging, dice));
    }
    // With dice of their own, so that the lines behind them are what they are without them.
    lines.extend(sessions::withdrawn(&mut Dice::new(2026_06)));
    lines.extend(with_errors(&no_lines, &mut Dice::new(2026_08)));
    for (leads, ticks) in ROAMING {
        let numbers = numbers::good(leads, dice);
        lines.extend(sessions::roaming(numbers, ticks, &no_lines, dice));
    }
    // The last one is carried out, without its line feed.
    lines.extend(long_lines(dice));
    lines
}

/// So many leads, for so many ticks.
const ROAMING: [(u32, usize); 4] = [(1, 20), (2, 8), (3, 4), (4, 2)];

/// Setups with errors, taken or not, and posts that have them.
fn with_errors(no_lines: &[Line], dice: &mut Dice) -> Vec<Line> {
    let mut lines = Vec::new();
    let zeros = long::zeros_of_errors(LONGEST_LINE);
    for setup in numbers::edges_of_errors().into_iter().chain(zeros) {
        lines.extend([setup, probe(dice)]);
    }
    lines.extend(sessions::volts_off(dice));
    lines.extend(sessions::amperes_off(dice));
    lines.extend(sessions::ended_by_age(dice));
    for (leads, ticks) in ROAMING {
        let numbers = numbers::good_with_errors(leads, dice);
        lines.extend(sessions::roaming(numbers, ticks, no_lines, dice));
    }
    lines
}

/// A start, and a reading that shows the cable resistance: 400.25 V and 10 A.
fn probe(dice: &mut Dice) -> Line {
    let lead = LeadInput::new(PLUG | START_BUTTON).reading(400.25, 10.0);
    whole_tick(&input(0, [lead])[..ALLOWANCE_BYTES + OHMS], dice)
}

/// No tick is understood yet, whatever was refused before it.
fn before_a_setup(no_lines: &[Line], dice: &mut Dice) -> Vec<Line> {
    let mut lines = vec![probe(dice), b"tick\t".to_vec()];
    lines.extend(no_lines.iter().step_by(29).cloned());
    lines.push(refused::longest(0, dice));
    for number in numbers::refusals_of_fields() {
        lines.extend([numbers::refused(number, 1, dice), probe(dice)]);
    }
    // With dice of its own, so that the lines behind it are what they are without it.
    let own = &mut Dice::new(2026_08);
    lines.extend([numbers::refused(REFUSED_ERROR, 1, own), probe(own)]);
    lines.extend([format!("{SETUP}\r").into_bytes(), probe(dice)]);
    lines
}

/// Inputs that are short, whole and too long, and flaws in the last lead.
fn lengths_of_inputs(leads: usize, dice: &mut Dice) -> Vec<Line> {
    let whole = input_bytes(leads);
    let mut lines = vec![setup(&[&leads.to_string()])];
    for length in [0, 1, 3, 4, 5, whole - 1, whole] {
        lines.push(whole_tick(&vec![0; length], dice));
    }
    // Surplus counts before a flaw.
    lines.extend([0, 0xFF].map(|byte| refused::surplus(leads, byte, dice)));
    // In one lead all of them, in the later ones a few.
    for flaw in refused::flaws().into_iter().step_by(2 * leads - 1) {
        lines.push(refused::flawed(leads - 1, flaw, dice));
    }
    lines.push(probe(dice));
    lines
}

/// After the long lines of each length a short one that is answered. The longest come in one form
/// each, as a slow program has to read them too.
fn long_lines(dice: &mut Dice) -> Vec<Line> {
    let mut lines = Vec::new();
    for (at, length) in long::LENGTHS.into_iter().enumerate() {
        let forms = long::forms(length, dice);
        match length {
            ..2_000 => lines.extend(forms[at % 2..7].iter().step_by(2).cloned()),
            _ => lines.push(forms[at % 7].clone()),
        }
        lines.push(probe(dice));
    }
    lines
}
