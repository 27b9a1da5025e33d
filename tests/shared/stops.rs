//! The stop questions: how each gets a no.

use second::frames::{CONTACTOR_OPEN, ENABLED, FAULTS, NOT_IN_PARK, STOP_REQUEST, SYSTEM_FAULT};
use second::lead::{contact, Question, Rating, AMPERES_OVER_RATED_IN_TENTHS, LEAST_VOLTS, QUESTIONS};
use second::readings::{Tenths, INSULATION_OHMS_PER_VOLT};

use crate::dice::Dice;
use crate::meter;
use crate::scene::{Car, Scene};

/// What a lead is held to.
#[derive(Clone, Copy)]
pub struct Standing {
    pub phase: u8,
    /// In phase 1 the one to come.
    pub threshold: u16,
    pub rating: Rating,
}

impl Standing {
    /// `kept` is the state's threshold.
    pub fn new(phase: u8, kept: u16, car: &Car, rating: &Rating) -> Standing {
        let to_come = car.maximum_voltage.min(rating.volts);
        Standing {
            phase,
            threshold: if phase == 1 { to_come } else { kept },
            rating: *rating,
        }
    }

    /// Question 17's limit.
    pub fn most_amperes(&self) -> Tenths {
        Tenths::of_whole(self.rating.amperes.into()) + AMPERES_OVER_RATED_IN_TENTHS
    }

    /// Question 16's limit, at the connector.
    pub fn most_volts(&self) -> Tenths {
        Tenths::of_whole(self.threshold)
    }

    pub fn least_ohms(&self) -> f32 {
        INSULATION_OHMS_PER_VOLT * f32::from(self.threshold)
    }

    /// The most amperes whose upper end is within a limit; 0 where there are none.
    pub fn amperes_within(&self, limit: Tenths) -> f32 {
        meter::largest_within(limit, self.rating.amperes_error).unwrap_or(0.0)
    }

    /// What the meter shows, about, when the upper end of the connector's volts is at a limit.
    pub fn meter_volts(&self, limit: Tenths, amperes: f32) -> f32 {
        let connector = meter::largest_within(limit, self.rating.volts_error).unwrap_or(0.0);
        connector + self.rating.cable_resistance * amperes
    }
}

pub fn any_question(dice: &mut Dice) -> &'static Question {
    &QUESTIONS[dice.below(QUESTIONS.len() as u32) as usize]
}

/// The least and the highest number that a question has.
pub fn reasons() -> [u8; 2] {
    let numbers = || QUESTIONS.iter().map(|question| question.number);
    [numbers().min(), numbers().max()].map(|number| number.expect("there are questions"))
}

/// Whether a no is a matter of waiting: for the silence, for the age.
pub fn takes_time(question: u8) -> bool {
    matches!(question, 19 | 28)
}

/// The scene with a no to this question, if it is asked. 28 and 29 are a matter of time, and 19
/// takes ten of these scenes.
pub fn no(question: u8, scene: Scene, standing: &Standing, dice: &mut Dice) -> Scene {
    match question {
        11 => scene.close(contact::EMERGENCY_STOP),
        12 => scene.open(contact::PLUG),
        13 => scene.close(contact::GROUND_FAULT),
        14 => scene.open(contact::CHARGE_PERMISSION),
        15 => meter::not_good(scene, dice),
        16 => meter::above_the_threshold(scene, standing, dice),
        17 => meter::above_the_amperes(scene, standing, dice),
        18 => scene.open(contact::CONNECTOR_LOCK),
        19 => scene.silent(),
        20 => match dice.below(7) {
            5 => scene.status(|car| car.status |= SYSTEM_FAULT),
            6 => scene.status(|car| car.faults |= FAULTS),
            bit => scene.status(|car| car.faults |= 1 << bit),
        },
        21 => voltages_apart(scene, standing, dice),
        22 => scene.status(|car| car.status |= NOT_IN_PARK),
        23 => scene.status(|car| car.status &= !ENABLED),
        24 => scene.status(|car| car.status |= STOP_REQUEST),
        25 => scene.status(|car| car.status |= CONTACTOR_OPEN),
        26 => scene.close(contact::STOP_BUTTON),
        27 => meter::too_few_ohms(scene, standing, dice),
        _ => scene,
    }
}

/// The threshold of phase 1 is worked out of a maximum voltage that may be too low itself.
fn voltages_apart(mut scene: Scene, standing: &Standing, dice: &mut Dice) -> Scene {
    let low = LEAST_VOLTS - 1;
    let target = if standing.phase == 1 && dice.one_in(2) {
        let maximum = dice.pick(&[0, 1, low]);
        scene.maximum_voltage = Some(maximum);
        dice.pick(&[maximum, low, LEAST_VOLTS])
    } else {
        dice.pick(&[0, low, standing.threshold.saturating_add(1), u16::MAX])
    };
    scene.status(|car| car.target_voltage = target)
}

/// A no, and often another to the question asked before or after it or to any: the first in their
/// order is the stop. 14 and 23 often get theirs together, as the reason is another then (2026-06),
/// and a third beside them.
pub fn no_and_more(question: u8, scene: Scene, standing: &Standing, dice: &mut Dice) -> Scene {
    let mut scene = no(question, scene, standing, dice);
    let any = any_question(dice);
    let at = QUESTIONS.iter().position(|asked| asked.number == question);
    let beside = |step| QUESTIONS.get(at?.checked_add_signed(step)?);
    let another = match (dice.below(8), question) {
        (0, _) => beside(-1),
        (1 | 2, _) => beside(1),
        (3, _) => Some(any),
        (4..7, 14 | 23) => {
            scene = no(14, no(23, scene, standing, dice), standing, dice);
            Some(any)
        }
        _ => None,
    };
    another.map_or(scene, |another| no(another.number, scene, standing, dice))
}

/// A no to some question, whether or not it is asked here.
pub fn any_no(scene: Scene, standing: &Standing, dice: &mut Dice) -> Scene {
    no_and_more(any_question(dice).number, scene, standing, dice)
}

pub fn flip_a_contact(mut scene: Scene, dice: &mut Dice) -> Scene {
    scene.contacts ^= 1 << dice.below(contact::SPARE.trailing_zeros());
    scene
}
