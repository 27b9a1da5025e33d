//! A lead's input for one tick: what the scene says, with much around it that changes nothing of
//! what it says.

use second::frames::{Data, CAR_LIMITS, CAR_STATUS, CAR_TIMES, FAULTS, FRAME_LENGTH, RECORD_BYTES};
use second::inputs::LeadInput;
use second::lead::{contact, input_place, present, FRAME_RECORDS};

use crate::dice::Dice;
use crate::meter;
use crate::scene::Scene;

pub const KNOWN: [u16; 3] = [CAR_LIMITS, CAR_TIMES, CAR_STATUS];

/// Other identifiers: neighbours, the post's own, the car's with a bit more or with their bytes
/// exchanged.
const OTHERS: [u16; 12] = [
    0x0000, 0x0001, 0x0002, 0x0201, 0x00FF, 0x0103, 0x0108, 0x0109, 0x0902, 0x8100, 0x8102, 0xFFFF,
];

/// The scene's bytes, with frames and values that change nothing.
pub fn build(scene: Scene, phase: u8, dice: &mut Dice) -> LeadInput {
    let mut input = scene.build();
    if dice.one_in(2) {
        mix_in(&mut input, phase, dice);
    }
    if dice.one_in(2) {
        // Something stands where the values of missing readings would.
        for (bit, at) in [
            (present::VOLTS, input_place::VOLTS),
            (present::AMPERES, input_place::AMPERES),
            (present::RESISTANCE, input_place::OHMS),
        ] {
            if input.0[input_place::PRESENT] & bit == 0 {
                input.0[at..][..4].copy_from_slice(&meter::odd(dice).to_le_bytes());
            }
        }
    }
    input
}

/// Any bytes that are not refused.
pub fn anything(dice: &mut Dice) -> LeadInput {
    let mut input = LeadInput(dice.bytes());
    input.0[input_place::CONTACTS] &= !contact::SPARE;
    input.0[input_place::PRESENT] &= !present::SPARE;
    input.0[input_place::COUNT] %= FRAME_RECORDS as u8 + 1;
    input.0[input_place::SPARE] = 0;
    // Most records would be ignored as they are.
    let at = dice.below(FRAME_RECORDS as u32) as usize;
    let data = dice.bytes();
    input.record(at, dice.pick(&KNOWN), FRAME_LENGTH, data);
    input
}

type Frame = (u16, u8, Data);

/// Bytes and bits that nothing is said of, some of which the state keeps.
fn fill_unused((identifier, _, data): &mut Frame, dice: &mut Dice) {
    let unused: &[usize] = match *identifier {
        CAR_LIMITS => &[0, 1, 2, 3, 6, 7],
        CAR_TIMES => &[0, 3, 4, 5, 6, 7],
        _ => &[0, 6, 7],
    };
    for &at in unused {
        data[at] = dice.byte();
    }
    if *identifier == CAR_STATUS {
        data[4] |= dice.byte() & !FAULTS;
        data[5] |= dice.byte() & 0xE0;
    }
}

/// What a phase takes no notice of: frames that it doesn't hear, other identifiers, other lengths.
fn ignored(phase: u8, dice: &mut Dice) -> Frame {
    let unheard = match phase {
        1 => &[],
        2..=8 => &KNOWN[..2],
        _ => &KNOWN[..],
    };
    let kind = dice.below(3);
    let (length, identifiers) = match kind {
        0 => (dice.pick(&[0, 1, 7, 9, 16, 255]), &KNOWN[..]),
        1 if !unheard.is_empty() => (FRAME_LENGTH, unheard),
        _ => (FRAME_LENGTH, &OTHERS[..]),
    };
    (dice.pick(identifiers), length, dice.bytes())
}

/// Mixes other frames in: ignored ones anywhere, and before each one that counts now and then
/// another of its identifier.
fn mix_in(input: &mut LeadInput, phase: u8, dice: &mut Dice) {
    let (records, _) = input.0[input_place::FRAMES..].as_chunks::<RECORD_BYTES>();
    let counted = &records[..usize::from(input.0[input_place::COUNT])];
    let read = |&[low, high, length, ref data @ ..]: &[u8; RECORD_BYTES]| {
        (u16::from_le_bytes([low, high]), length, *data)
    };
    let mut frames: Vec<Frame> = counted.iter().map(read).collect();
    for frame in &mut frames {
        fill_unused(frame, dice);
    }
    let count = frames.len() + dice.below((FRAME_RECORDS - frames.len()) as u32 + 1) as usize;
    while frames.len() < count {
        let at = dice.below(frames.len() as u32 + 1) as usize;
        let frame = match frames.get(at) {
            Some(&(identifier, length, _)) if dice.one_in(2) => (identifier, length, dice.bytes()),
            _ => ignored(phase, dice),
        };
        frames.insert(at, frame);
    }
    // Past the count anything may stand.
    while frames.len() < FRAME_RECORDS {
        frames.push((dice.pick(&KNOWN), FRAME_LENGTH, dice.bytes()));
    }
    for (at, (identifier, length, data)) in frames.into_iter().enumerate() {
        input.record(at, identifier, length, data);
    }
    *input = input.count(count as u8);
}
