//! Setup's numbers, inside and outside their edges, as lines.

use second::bench::LARGEST_DECIMAL as LARGEST;
use second::post::*;
use second::readings::MOST_ERROR;
use shared::dice::Dice;
use shared::numbers::{Numbers, PLAIN};

use crate::line::{self, Line};

/// The refusal for each of the first four numbers, what it lets pass, and what it doesn't. Of the resistance the bits:
/// of 0, −0, the least above 0 and another small one, 0.02, 0.333, 0.5, and 1 with its lower
/// neighbour; of the least below 0, 1's upper neighbour, −0.5, −1, 2, the infinities, and NaNs, two
/// of which arithmetic would make others of.
#[rustfmt::skip]
const FIELDS: [(u32, &[u32], &[u32]); 4] = [
    (REFUSED_LEADS, &[1, 2, 3, 4], &[0, 5, 255, 256, 257, 260, LARGEST]),
    (REFUSED_RATED_VOLTS,
     &[LEAST_RATED_VOLTS, LEAST_RATED_VOLTS + 1, 255, 256, 400, 450, MOST_RATED_VOLTS - 1, MOST_RATED_VOLTS],
     &[0, LEAST_RATED_VOLTS - 1, MOST_RATED_VOLTS + 1, 756, LARGEST]),
    (REFUSED_RATED_AMPERES,
     &[LEAST_RATED_AMPERES, 2, 20, 125, 128, MOST_RATED_AMPERES - 1, MOST_RATED_AMPERES],
     &[0, MOST_RATED_AMPERES + 1, 255, 256, 381, LARGEST]),
    (REFUSED_RESISTANCE,
     &[0, 0x8000_0000, 1, 0x1_16C2, 0x3CAA_AAAB, 0x3EAA_7EFA, 0x3F00_0000, 0x3F7F_FFFF, 0x3F80_0000],
     &[0x8000_0001, 0x3F80_0001, 0xBF00_0000, 0xBF80_0000, 0x4000_0000, 0x7F80_0000, 0xFF80_0000, 0x7FC0_0000, 0xFFC0_0000,
       0x7F80_0001, 0xFF80_0001]),
];

/// Errors that pass, and others.
const ERRORS: [&[u32]; 2] = [
    &[0, 1, MOST_ERROR.0 - 1, MOST_ERROR.0],
    &[MOST_ERROR.0 + 1, 255, 256, 256 + MOST_ERROR.0, LARGEST],
];

/// All that lines bring about: the state that the bench program lends has the right length.
pub fn refusals() -> Vec<u32> {
    let all = SETUP_REFUSALS.into_iter();
    all.filter(|&refusal| refusal != REFUSED_SETUP_LENGTH)
        .collect()
}

/// Those of the first four numbers. Lines that were drawn before there were errors are drawn from
/// these, so that they are what they were.
pub fn refusals_of_fields() -> [u32; 4] {
    FIELDS.map(|(refusal, ..)| refusal)
}

pub fn line(numbers: &Numbers) -> Line {
    let resistance = format!("{:08X}", numbers.resistance);
    let decimals = [numbers.leads, numbers.volts, numbers.amperes];
    let [leads, volts, amperes] = decimals.map(|number| number.to_string());
    let errors = [numbers.volts_error, numbers.amperes_error];
    let [volts_error, amperes_error] = errors.map(|error| error.to_string());
    line::setup(&[
        &leads,
        &volts,
        &amperes,
        &resistance,
        &volts_error,
        &amperes_error,
    ])
}

fn with_errors([leads, volts, amperes, resistance]: [u32; 4], errors: [u32; 2]) -> Numbers {
    Numbers::of([leads, volts, amperes, resistance, errors[0], errors[1]])
}

/// Without errors.
pub fn good(leads: u32, dice: &mut Dice) -> Numbers {
    let mut fields = FIELDS.map(|(_, good, _)| dice.pick(good));
    fields[0] = leads;
    with_errors(fields, [0, 0])
}

/// With errors, of which either may be 0.
pub fn good_with_errors(leads: u32, dice: &mut Dice) -> Numbers {
    let numbers = good(leads, dice);
    let [volts_error, amperes_error] = [(); 2].map(|()| match dice.one_in(2) {
        true => dice.below(MOST_ERROR.0 + 1),
        false => dice.pick(ERRORS[0]),
    });
    Numbers {
        volts_error,
        amperes_error,
        ..numbers
    }
}

/// A setup that is refused with this number; of the first four numbers, those that are asked about
/// later may be wrong too. The errors are 0 where they are not what is refused.
pub fn refused(refusal: u32, leads: u32, dice: &mut Dice) -> Line {
    let place = |refusal| SETUP_REFUSALS.iter().position(|asked| *asked == refusal);
    let any_later = dice.one_in(3);
    let fields = FIELDS.map(|(asked, good, wrong)| match asked {
        _ if asked == refusal => dice.pick(wrong),
        _ if any_later && place(asked) > place(refusal) => dice.pick(wrong),
        REFUSED_LEADS => leads,
        _ => dice.pick(good),
    });
    let errors = match refusal {
        REFUSED_ERROR => {
            let [good, wrong] = ERRORS.map(|errors| dice.pick(errors));
            dice.pick(&[[wrong, good], [good, wrong], [wrong, wrong]])
        }
        _ => [0, 0],
    };
    line(&with_errors(fields, errors))
}

/// Each number in turn on either side of its edges, the others as they should be; then several
/// wrong at once, the first of which counts.
pub fn edges() -> Vec<Line> {
    let mut all = vec![];
    for (at, (_, good, wrong)) in FIELDS.into_iter().enumerate() {
        for number in good.iter().chain(wrong) {
            let mut fields = PLAIN_FIELDS;
            fields[at] = *number;
            all.push(line(&with_errors(fields, [0, 0])));
        }
    }
    for fields in WRONG_FROM {
        all.push(line(&with_errors(fields, [0, 0])));
    }
    all
}

#[rustfmt::skip]
const PLAIN_FIELDS: [u32; 4] = [PLAIN.leads, PLAIN.volts, PLAIN.amperes, PLAIN.resistance];

/// Wrong from the first number on, from the second, from the third, and the fourth alone.
const WRONG_FROM: [[u32; 4]; 4] = [
    [0, 0, 0, 0x7FC0_0000],
    [4, 0, 0, 0x7FC0_0000],
    [4, 50, 0, 0x7FC0_0000],
    [4, 50, 1, 0x7FC0_0000],
];

/// Likewise each error, then both; then errors that are wrong with other numbers that are, of which
/// the first counts, and with others at their edges.
pub fn edges_of_errors() -> Vec<Line> {
    let [good, wrong] = ERRORS;
    let (most, above) = (MOST_ERROR.0, MOST_ERROR.0 + 1);
    let mut all = vec![];
    for &error in good.iter().chain(wrong) {
        all.extend([[error, 0], [0, error], [error, error]].map(|errors| (PLAIN_FIELDS, errors)));
    }
    let beside = [[most, above], [above, most], [1, most], [most, 1]];
    all.extend(beside.map(|errors| (PLAIN_FIELDS, errors)));
    all.extend(WRONG_FROM.map(|fields| (fields, [above, above])));
    let ones = 1.0f32.to_bits();
    all.extend([above, most].map(|error| ([4, 50, 1, ones], [error, most])));
    let line = |(fields, errors)| line(&with_errors(fields, errors));
    all.into_iter().map(line).collect()
}
