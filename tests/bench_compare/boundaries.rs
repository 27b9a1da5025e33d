//! Inputs and answers whose lengths, or the ends of whose lines, lie around the sizes of pieces in
//! which a program may read or write.

use lines::line::{answers, join, Line};
use second::post::{input_bytes, output_bytes};
use second::sharing::MOST_LEADS;
use shared::dice::Dice;

use crate::compare::{Comparison, Outcome};
use crate::inputs::Stock;

const PIECES: [usize; 6] = [4_096, 8_192, 16_384, 32_768, 65_536, 131_072];

/// In bytes, the line feed too.
const LONGEST_TICK: usize = "tick\t\n".len() + 2 * input_bytes(MOST_LEADS);
pub const LONGEST_ANSWER: usize = "0\t\n".len() + 2 * output_bytes(MOST_LEADS);

/// Enough for the largest piece: a tick of one lead has some 80 bytes, its answer 51.
const TICKS: usize = 3_000;

pub fn compare(stock: &Stock, comparison: &mut Comparison) -> Outcome {
    let mut dice = Dice::new(0x8CB9_2BA7_2F3D_8DD7);
    for piece in PIECES {
        let session = stock.session(1 + dice.below(4), TICKS, &mut dice);
        let answers = answers(&join(&session));
        let answers = answers.split_inclusive(|&byte| byte == b'\n');
        let answers: Vec<usize> = answers.map(<[u8]>::len).collect();
        for length in piece - 2..=piece + 2 {
            // Within the tick, behind its line feed, behind its tab.
            let any = dice.next() as usize;
            for text in [
                input_of(length, |tick| 6 + any % (tick - 6), &session),
                input_of(length, |tick| tick + 1, &session),
                input_of(length, |_| "tick\t".len(), &session),
            ] {
                let name = format!("an input that ends at byte {length}");
                comparison.same(&name, &text[..length])?;
                let name = format!("an input with a boundary at byte {length}");
                comparison.same(&name, &text)?;
            }
            for (last, lines) in answered_by(length, &answers, &session) {
                let name = format!("{length} bytes of answers, the last {last}");
                comparison.same(&name, &join(&lines))?;
            }
        }
    }
    Ok(())
}

/// A text that has so many bytes of a tick, by the tick's length, just before this length; empty
/// lines before it fill up. Then it goes on.
fn input_of(length: usize, of_tick: impl Fn(usize) -> usize, session: &[Line]) -> Vec<u8> {
    let mut left = length - LONGEST_TICK;
    let mut count = 0;
    while left > session[count].len() {
        left -= session[count].len() + 1;
        count += 1;
    }
    let (sent, more) = session.split_at(count);
    let fits = |line: &&Line| (20..LONGEST_TICK).contains(&line.len());
    let mut ticks = more.iter().filter(|line| line.starts_with(b"tick\t"));
    let crossing = ticks.find(fits).expect("ticks are left");
    let empty_lines = vec![Line::new(); left + LONGEST_TICK - of_tick(crossing.len())];
    join(&[sent, &empty_lines, &[crossing.clone()], &more[..20]].concat())
}

/// Lines by the last of their answers, which have this length altogether. In one of the three the
/// input goes on behind it.
fn answered_by(length: usize, sizes: &[usize], of: &[Line]) -> [(&'static str, Vec<Line>); 3] {
    // Each answer has 2 bytes or an odd number; empty lines, answered with 2, fill up what is left.
    let mut left = length;
    let mut count = 0;
    while left > 5 * LONGEST_ANSWER || left % 2 == 1 {
        left -= sizes[count];
        count += 1;
    }
    let (sent, more) = of.split_at(count);
    let empty_lines = vec![Line::new(); left / 2];
    [
        ("?", [sent, &empty_lines].concat()),
        ("a tick's", [&empty_lines, sent].concat()),
        ("? and more", [sent, &empty_lines, &more[..20]].concat()),
    ]
}
