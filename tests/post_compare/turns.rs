//! What the second implementation makes of a tick that is carried out, lead by lead.

use second::frames::{hear, Heard, RECORD_BYTES};
use second::lead::*;
use second::post::{Head, ALLOWANCE_BYTES, HEAD_BYTES};
use second::readings::Measured;
use second::sharing::{level, MOST_LEADS};
use shared::dice::Dice;
use shared::stops::Standing;

pub struct Turn {
    pub input: [u8; INPUT_BYTES],
    pub measured: Option<Measured>,
    pub standing: Standing,
    pub before: Lead,
    /// After the division.
    pub after: Lead,
    pub output: [u8; OUTPUT_BYTES],
    pub decision: Decision,
    /// In watts.
    pub want: u32,
    pub level: u32,
    /// What the frames up to the count say, and those past it.
    pub sent: Heard,
    pub past_the_count: Heard,
}

impl Turn {
    /// What the tick adds to the energy, as far as there is room for it.
    pub fn watts(&self) -> u64 {
        u64::from(self.after.command) * u64::from(self.after.threshold)
    }
}

/// `None` if the tick is refused for its state or its input.
pub fn turns(state: &[u8], input: &[u8]) -> Option<Vec<Turn>> {
    let (head, records) = state.split_first_chunk::<HEAD_BYTES>()?;
    let Head { leads, rating } = Head::read(head)?;
    let (records, rest) = records.as_chunks::<STATE_BYTES>();
    let (allowance, inputs) = input.split_first_chunk::<ALLOWANCE_BYTES>()?;
    let (inputs, input_rest) = inputs.as_chunks::<INPUT_BYTES>();
    let whole = rest.is_empty() && input_rest.is_empty();
    if !whole || records.len() != leads || inputs.len() != leads {
        return None;
    }
    let mut turns = Vec::with_capacity(leads);
    let mut wants = [0; MOST_LEADS];
    for ((record, bytes), want) in records.iter().zip(inputs).zip(&mut wants) {
        let before = Lead::read(record, &rating)?;
        let input = Input::read(bytes, &rating)?;
        let mut after = before;
        let decision = after.advance(&input, &rating);
        *want = after.want(&rating);
        let (frames, _) = bytes[input_place::FRAMES..].as_chunks::<RECORD_BYTES>();
        turns.push(Turn {
            input: *bytes,
            measured: input.measured,
            standing: Standing {
                phase: before.phase,
                threshold: before.threshold,
                rating,
            },
            before,
            after,
            output: [0; OUTPUT_BYTES],
            decision,
            want: *want,
            level: 0,
            sent: hear(input.frames),
            past_the_count: hear(&frames[input.frames.len()..]),
        });
    }
    let level = level(wants, u32::from_le_bytes(*allowance));
    for turn in &mut turns {
        turn.level = level;
        turn.after.take(level, &rating);
        let input = Input::read(&turn.input, &rating)?;
        turn.after.output(&input, level, &rating, &mut turn.output);
    }
    Some(turns)
}

/// By all together, in watts.
pub fn wanted(turns: &[Turn]) -> u32 {
    turns.iter().map(|turn| turn.want).sum()
}

/// Those in phase 6 after the tick.
pub fn charging(turns: &[Turn]) -> impl Iterator<Item = &Turn> {
    turns.iter().filter(|turn| turn.after.phase == 6)
}

/// An allowance near one at which a command or an offer changes.
pub fn edge(turns: &[Turn], dice: &mut Dice) -> u32 {
    let offered: Vec<&Turn> = charging(turns).collect();
    match offered.is_empty() || dice.below(4) > 0 {
        true => edge_of_commands(turns, dice),
        false => edge_of_an_offer(dice.pick(&offered), dice),
    }
}

/// All wants, as many times one of them as there are, or so much that the level is a whole number
/// of amperes; then a watt or a lead's watt more or less.
fn edge_of_commands(turns: &[Turn], dice: &mut Dice) -> u32 {
    let wanting: Vec<&Turn> = turns.iter().filter(|turn| turn.want > 0).collect();
    let count = wanting.len() as u32;
    if count == 0 {
        return dice.below(8);
    }
    let one = dice.pick(&wanting);
    let volts = u32::from(one.after.threshold);
    let watts = match dice.below(4) {
        0 => wanted(turns),
        1 => one.want * count,
        2 => dice.below(one.want / volts + 1) * volts * count,
        _ => dice.below(wanted(turns) + 1),
    };
    let more = dice.pick(&[0, 1, count - 1]);
    let less = dice.pick(&[0, 1, count]);
    (watts + more).saturating_sub(less)
}

/// Where all wants fit, the level is the allowance: a lead's rated amperes or fewer, or a watt more
/// or less.
fn edge_of_an_offer(turn: &Turn, dice: &mut Dice) -> u32 {
    let rated = u32::from(turn.standing.rating.amperes);
    let fewer = dice.below(rated);
    let amperes = dice.pick(&[rated, fewer, 0]);
    let watts = amperes * u32::from(turn.after.threshold);
    (watts + dice.below(2)).saturating_sub(dice.below(2))
}
