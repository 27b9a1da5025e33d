//! Setup's six numbers, inside and outside their edges.

use second::lead::Rating;
use second::post::*;
use second::readings::{Tenths, MOST_ERROR};
use second::sharing::MOST_LEADS;
use shared::dice::Dice;
use shared::numbers::{Numbers, SIGNALLING, TINY};
use shared::post::number;

/// Cable resistances that setup takes.
#[rustfmt::skip]
const OHMS: [f32; 10] = [0.0, -0.0, TINY, 1e-40, 0.020_833_334, 0.1, 0.333, 0.5, 1.0f32.next_down(), 1.0];

/// Errors that setup takes. Within one of 25, question 17 leaves the rated amperes themselves; rated
/// amperes of 1 and 2 leave 0 A within 35 and 45, and none within a larger one. With one of 7, a
/// reading a whole above an edge is above the limit too, and its lower end is not.
#[rustfmt::skip]
const ERRORS: [u32; 13] = [0, 0, 1, 7, 7, 25, 35, 36, 45, 46, MOST_ERROR.0 - 1, MOST_ERROR.0, MOST_ERROR.0];

/// Numbers that setup takes: any, or more often at the edges.
pub fn good(leads: u32, dice: &mut Dice) -> Numbers {
    let any = dice.one_in(3);
    let mut draw = |edges: &[u32], least: u32, most: u32| match any {
        true => least + dice.below(most - least + 1),
        false => dice.pick(edges),
    };
    let [least, most] = [LEAST_RATED_VOLTS, MOST_RATED_VOLTS];
    let edges = [least, least + 1, 60, 200, 255, 256, 400, most - 1, most];
    let volts = draw(&edges, least, most);
    let [least, most] = [LEAST_RATED_AMPERES, MOST_RATED_AMPERES];
    let amperes = draw(&[least, 2, 10, 63, 125, 128, 199, most], least, most);
    let resistance = draw(&OHMS.map(f32::to_bits), 0, 1.0f32.to_bits());
    let errors = errors(dice);
    Numbers::of([leads, volts, amperes, resistance, errors[0], errors[1]])
}

/// Of the volts and of the amperes. In every other post both are 0.
fn errors(dice: &mut Dice) -> [u32; 2] {
    match dice.one_in(2) {
        true => [0, 0],
        false => [(); 2].map(|()| match dice.one_in(5) {
            true => dice.below(MOST_ERROR.0 + 1),
            false => dice.pick(&ERRORS),
        }),
    }
}

/// Puts one of the six, or both errors, outside its edges. Some are a good number again if bits are
/// cut off: of leads those above 8 or 27 (a state has 32 bytes a lead), of volts above 16, of
/// amperes and of errors above 8.
#[rustfmt::skip]
pub fn spoil(numbers: &mut Numbers, dice: &mut Dice) {
    const NO_OHMS: [f32; 9] = [-TINY, 1.0f32.next_up(), -0.5, -1.0, 2.0, f32::NAN, -SIGNALLING, f32::INFINITY, f32::NEG_INFINITY];
    let [low, high] = [LEAST_RATED_VOLTS - 1, MOST_RATED_VOLTS + 1];
    let most = MOST_ERROR.0;
    let [one, other] = [(); 2].map(|()| dice.pick(&[most + 1, most + 1, 255, 255, 256, 256 + most, 65_536, 1 << 31, u32::MAX]));
    match dice.below(7) {
        0 => numbers.leads = dice.pick(&[0, MOST_LEADS as u32 + 1, 255, 256, 257, 260, 65_537, 0x0800_0001, u32::MAX]),
        1 => numbers.volts = dice.pick(&[0, low, high, 65_535, 65_586, 65_936, 0x8000_0190, u32::MAX]),
        2 => numbers.amperes = dice.pick(&[0, MOST_RATED_AMPERES + 1, 255, 256, 257, 381, 65_546, u32::MAX]),
        3 => numbers.volts_error = one,
        4 => numbers.amperes_error = one,
        5 => (numbers.volts_error, numbers.amperes_error) = (one, other),
        _ => numbers.resistance = dice.pick(&NO_OHMS).to_bits(),
    }
}

/// The head of a state, of numbers that are too large their low bytes.
pub fn head(numbers: Numbers) -> [u8; HEAD_BYTES] {
    let mut head = [0; HEAD_BYTES];
    head[head_place::LEADS] = numbers.leads as u8;
    head[head_place::AMPERES] = numbers.amperes as u8;
    head[head_place::VOLTS..][..2].copy_from_slice(&(numbers.volts as u16).to_le_bytes());
    head[head_place::RESISTANCE..][..4].copy_from_slice(&numbers.resistance.to_le_bytes());
    head[head_place::VOLTS_ERROR] = numbers.volts_error as u8;
    head[head_place::AMPERES_ERROR] = numbers.amperes_error as u8;
    head
}

/// What a head says, whether or not setup would take it.
pub fn of_head(head: &[u8; HEAD_BYTES]) -> Numbers {
    let resistance = head[head_place::RESISTANCE..].first_chunk();
    Numbers {
        leads: head[head_place::LEADS].into(),
        volts: number(head, head_place::VOLTS).into(),
        amperes: head[head_place::AMPERES].into(),
        resistance: resistance.map_or(0, |bits| u32::from_le_bytes(*bits)),
        volts_error: head[head_place::VOLTS_ERROR].into(),
        amperes_error: head[head_place::AMPERES_ERROR].into(),
    }
}

/// Of numbers from a head.
pub fn rating(numbers: Numbers) -> Rating {
    Rating {
        volts: numbers.volts as u16,
        amperes: numbers.amperes as u8,
        cable_resistance: f32::from_bits(numbers.resistance),
        volts_error: Tenths(numbers.volts_error),
        amperes_error: Tenths(numbers.amperes_error),
    }
}
