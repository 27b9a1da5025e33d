//! Readings near the edges of what is asked about them.

use second::lead::{Rating, SAFE_AMPERES_IN_TENTHS, SAFE_VOLTS_IN_TENTHS};
use second::readings::{Measured, Tenths, MOST_AMPERES, MOST_VOLTS};

use crate::dice::Dice;
use crate::numbers::{SIGNALLING, TINY};
use crate::scene::Scene;
use crate::stops::Standing;

const NAN: f32 = f32::NAN;
const INFINITY: f32 = f32::INFINITY;

#[rustfmt::skip]
const ODD: [f32; 19] = [
    NAN, -NAN, SIGNALLING, INFINITY, -INFINITY, 0.0, -0.0, TINY, -TINY, f32::MIN_POSITIVE, f32::MAX, -1.0, 255.0, 255.5,
    MOST_AMPERES, MOST_AMPERES.next_up(), MOST_VOLTS, MOST_VOLTS.next_up(), 65_537.0,
];

/// Small currents that a good reading may have.
const SMALL: [f32; 5] = [0.0, -0.0, TINY, 0.3, 3.7];

pub fn odd(dice: &mut Dice) -> f32 {
    if dice.one_in(4) {
        f32::from_bits(dice.next())
    } else {
        dice.pick(&ODD)
    }
}

/// The largest float that is no more than so many tenths. Few tenths are floats: the float nearest
/// to 4.9 is above it.
pub fn largest(tenths: Tenths) -> f32 {
    let exact = f64::from(tenths.0) / f64::from(Tenths::IN_A_WHOLE);
    let nearest = exact as f32;
    if f64::from(nearest) > exact {
        nearest.next_down()
    } else {
        nearest
    }
}

/// The largest float whose upper end is no more than so many tenths. There is none where the error
/// alone is more.
pub fn largest_within(limit: Tenths, error: Tenths) -> Option<f32> {
    let left = limit.0.checked_sub(error.0)?;
    Some(largest(Tenths(left)))
}

/// On either side of a value.
pub fn around(value: f32, dice: &mut Dice) -> f32 {
    let [up, down] = [value.next_up(), value.next_down()];
    let steps = [0.1, -0.1, 0.5, -0.5, 1.0, -1.0].map(|step| value + step);
    dice.pick(&[&[value, value, up, down], &steps[..]].concat())
}

/// At a value or below it.
fn up_to(value: f32, dice: &mut Dice) -> f32 {
    dice.pick(&[value, value, value.next_down(), value - 0.1, value - 0.5, value - 1.0])
}

/// A reading whose upper end is at an edge of what this phase asks. In phases 5 to 7 nearly all
/// pass, so that charging goes on, unless the amperes' error alone is above the limit.
pub fn at_an_edge(scene: Scene, standing: &Standing, dice: &mut Dice) -> Scene {
    let amperes = dice.pick(&SMALL);
    let safe = standing.meter_volts(SAFE_VOLTS_IN_TENTHS, amperes);
    match standing.phase {
        3 => {
            let least = standing.least_ohms();
            let ohms = dice.pick(&[least, least, least.next_up(), f32::MAX, INFINITY]);
            let volts = dice.pick(&[0.0, -0.0, TINY, 77.7, MOST_VOLTS]);
            let scene = scene.reads(volts, MOST_AMPERES);
            scene.ohms.map_or(scene, |_| scene.gives(ohms))
        }
        4 if dice.one_in(8) => scene.reads(MOST_VOLTS, amperes),
        4 => scene.reads(around(safe, dice).max(0.0), amperes),
        5 | 6 => {
            let most = standing.amperes_within(standing.most_amperes());
            let amperes = up_to(most, dice).max(0.0);
            let most = standing.meter_volts(standing.most_volts(), amperes);
            scene.reads(up_to(most, dice).clamp(0.0, MOST_VOLTS), amperes)
        }
        7 => {
            let safe = standing.amperes_within(SAFE_AMPERES_IN_TENTHS);
            scene.reads(20.25, around(safe, dice).max(0.0))
        }
        9 if dice.one_in(2) => scene.reads(around(safe, dice), amperes),
        // Any reading will do.
        _ => scene.reads(odd(dice), odd(dice)),
    }
}

/// What a meter shows in a good reading, its error, and that of the other meter.
pub struct Shown {
    pub tenths: Tenths,
    pub error: Tenths,
    pub other_error: Tenths,
}

impl Shown {
    /// At the connector.
    pub fn volts(of: Measured, rating: &Rating) -> Shown {
        Shown {
            tenths: of.connector_volts,
            error: rating.volts_error,
            other_error: rating.amperes_error,
        }
    }

    pub fn amperes(of: Measured, rating: &Rating) -> Shown {
        Shown {
            tenths: of.amperes,
            error: rating.amperes_error,
            other_error: rating.volts_error,
        }
    }

    pub fn upper_end(&self) -> Tenths {
        self.tenths.upper_end(self.error)
    }

    /// If the errors were exchanged.
    pub fn other_end(&self) -> Tenths {
        self.tenths.upper_end(self.other_error)
    }

    pub fn is_exact(&self) -> bool {
        self.error == Tenths(0)
    }

    /// The upper end is at the limit, and that by an error.
    pub fn is_at_by_error(&self, limit: Tenths) -> bool {
        !self.is_exact() && self.upper_end() == limit
    }

    /// What is shown is within the limit, the upper end isn't.
    pub fn is_above_by_error(&self, limit: Tenths) -> bool {
        self.tenths <= limit && self.upper_end() > limit
    }
}

/// Question 27 gets a no.
pub fn too_few_ohms(scene: Scene, standing: &Standing, dice: &mut Dice) -> Scene {
    let least = standing.least_ohms();
    let [below, far_below] = [least.next_down(), least - 1.0];
    scene.gives(dice.pick(&[below, far_below, 0.0, -0.0, -least, NAN, -NAN, -INFINITY]))
}

/// Question 15 gets a no.
pub fn not_good(mut scene: Scene, dice: &mut Dice) -> Scene {
    let bad = dice.pick(&[-TINY, -3.5, NAN, SIGNALLING, INFINITY, -INFINITY]);
    match dice.below(6) {
        0 => scene.volts = None,
        1 => scene.amperes = None,
        2 => scene = scene.reads(MOST_VOLTS.next_up(), 0.0),
        3 => scene = scene.reads(5.0, MOST_AMPERES.next_up()),
        4 => scene = scene.reads(bad, 0.0),
        _ => scene = scene.reads(5.0, bad),
    }
    scene
}

/// Question 16 gets a no, 17 now and then too.
pub fn above_the_threshold(scene: Scene, standing: &Standing, dice: &mut Dice) -> Scene {
    let small = dice.pick(&SMALL);
    let most = standing.amperes_within(standing.most_amperes());
    let amperes = dice.pick(&[small, small, most + 1.0]);
    let most = standing.meter_volts(standing.most_volts(), amperes);
    let volts = dice.pick(&[most.next_up(), most + 0.05, most + 0.25, most + 1.0, MOST_VOLTS]);
    scene.reads(volts, amperes)
}

/// Question 17 gets a no.
pub fn above_the_amperes(scene: Scene, standing: &Standing, dice: &mut Dice) -> Scene {
    let most = standing.amperes_within(standing.most_amperes());
    let amperes = dice.pick(&[most.next_up(), most + 0.1, most + 0.5, most + 2.5, MOST_AMPERES]);
    scene.reads(30.0, amperes)
}
