//! What a lead is led through from one start to the next: a car, waits, stops, and what happens
//! beside.

use second::frames::IN_MINUTES;
use second::lead::{Lead, Rating, AGE_LIMITS, LAST_PHASE, LEAST_VOLTS, QUESTIONS, SILENCE_LIMIT};

use crate::dice::Dice;
use crate::meter;
use crate::scene::{Car, Scene};
use crate::stops::{any_no, any_question, flip_a_contact, no, no_and_more, takes_time, Standing};

pub struct Plan {
    rating: Rating,
    /// Makes for phase 6 and stays there long.
    eager: bool,
    car: Car,
    /// The questions that get a no, each in its phase.
    stops: Vec<(u8, u8)>,
    /// How long the lead waits in each phase.
    patience: [u32; LAST_PHASE as usize + 1],
    /// How long the car is silent at a time.
    quiet: u8,
}

/// Waits until the phase ends by itself, if it does.
const FOREVER: u32 = u32::MAX;

impl Plan {
    pub fn draw(rating: Rating, eager: bool, dice: &mut Dice) -> Plan {
        let stops = draw_stops(eager || !dice.one_in(3), dice);
        let mut patience = std::array::from_fn(|phase| match (phase, eager) {
            (6, true) => 50 + dice.below(150),
            (1..=5, true) => 0,
            _ => draw_patience(phase, dice),
        });
        for &(_, phase) in stops.iter().filter(|stop| takes_time(stop.0)) {
            patience[usize::from(phase)] = FOREVER;
        }
        let quiet = &[0, 0, 0, 0, 1, 9, 14];
        Plan {
            rating,
            eager,
            car: draw_car(&rating, stops.contains(&(29, 6)), dice),
            stops,
            patience,
            quiet: if eager { 0 } else { dice.pick(quiet) },
        }
    }

    /// For the lead as it stands. A lead that has come round gets another plan.
    pub fn scene(&mut self, lead: &Lead, dice: &mut Dice) -> Scene {
        let phase = lead.phase;
        if phase == 0 && lead.age == 0 {
            *self = Plan::draw(self.rating, self.eager, dice);
        }
        let standing = Standing::new(phase, lead.threshold, &self.car, &self.rating);
        if phase == 6 && dice.one_in(15) {
            self.car.request = draw_request(&self.rating, dice);
        }
        let onward = Scene::onward(phase, lead.command, &self.car).less_errors(&self.rating);
        let waiting = Scene::waiting(phase, lead.command, &self.car).less_errors(&self.rating);
        let patient = lead.age < self.patience[usize::from(phase)];
        let mut scene = match self.stops.iter().find(|stop| stop.1 == phase) {
            // A reading could end the wait.
            _ if patient && matches!(phase, 4 | 7 | 9) => waiting,
            _ if patient => readings(waiting, &standing, dice),
            Some(&(question, _)) => {
                let scene = if dice.one_in(2) { onward } else { waiting };
                no_and_more(question, scene, &standing, dice)
            }
            None => readings(onward, &standing, dice),
        };
        scene = incidents(scene, &standing, dice);
        // In 2 to 6 a silence up to the limit is a stop.
        let quiet = match phase {
            _ if self.stops.contains(&(19, phase)) => SILENCE_LIMIT,
            2..=6 => self.quiet.min(SILENCE_LIMIT - 1),
            _ => self.quiet,
        };
        if lead.silence < quiet {
            scene = scene.silent();
        }
        scene
    }
}

/// Mostly short; in 7 and 8 the phase may end by its age, in 1 to 5 just not.
fn draw_patience(phase: usize, dice: &mut Dice) -> u32 {
    match (phase, dice.below(24)) {
        (6, 0..12) => dice.below(150),
        (6, _) => dice.below(60),
        (7, 0..12) | (8, 0..4) => FOREVER,
        (1..=5, 0) => AGE_LIMITS[phase] - dice.below(2),
        (1..=5, 1..8) => dice.below(20),
        _ => dice.below(3),
    }
}

/// A no in some phase of its question's bracket; a late one in 6, 7 or 8. To 7 leads an ordinary
/// stop from 6, to 8 one from 2 to 5 too.
fn draw_stops(late: bool, dice: &mut Dice) -> Vec<(u8, u8)> {
    let (question, phase) = loop {
        let question = any_question(dice);
        let phases = u32::from(question.last - question.first) + 1;
        let phase = question.first + dice.below(phases) as u8;
        if phase >= 6 || !late {
            break (question.number, phase);
        }
    };
    let mut stops = vec![(question, phase)];
    if phase >= 7 {
        let from = match phase {
            8 => 2 + dice.below(5) as u8,
            _ => 6,
        };
        let mut ordinary: Vec<_> = QUESTIONS.iter().filter(|asked| !asked.urgent).collect();
        ordinary.retain(|asked| (asked.first..=asked.last).contains(&from));
        stops.push((dice.pick(&ordinary).number, from));
    }
    stops
}

#[rustfmt::skip]
const SHORT_TIMES: [(u8, u8); 6] = [(0, 0), (0, 9), (1, 0), (1, 200), (IN_MINUTES, 0), (IN_MINUTES, 1)];
#[rustfmt::skip]
const TIMES: [(u8, u8); 6] = [(3, 7), (60, 0), (254, 255), (IN_MINUTES, 1), (IN_MINUTES, 30), (IN_MINUTES, 255)];

fn draw_car(rating: &Rating, short: bool, dice: &mut Dice) -> Car {
    let (least, rated) = (LEAST_VOLTS, rating.volts);
    let any = least + dice.below(u32::from(rated - least) + 1) as u16;
    let maximum = dice.pick(&[least, any, any, rated - 1, rated, rated + 1, 600, u16::MAX]);
    let maximum_voltage = maximum.max(least);
    let threshold = maximum_voltage.min(rated);
    let target = dice.pick(&[least, threshold, threshold, any.min(threshold)]);
    let request = draw_request(rating, dice);
    let time = dice.pick(if short { &SHORT_TIMES } else { &TIMES });
    Car::new(maximum_voltage, target, request, time)
}

fn draw_request(rating: &Rating, dice: &mut Dice) -> u8 {
    let any = dice.byte();
    dice.pick(&[0, 1, any, any, rating.amperes, rating.amperes + 1, 255, 255])
}

/// Now and then at an edge.
fn readings(scene: Scene, standing: &Standing, dice: &mut Dice) -> Scene {
    match dice.one_in(if standing.phase == 6 { 12 } else { 4 }) {
        true => meter::at_an_edge(scene, standing, dice),
        false => scene,
    }
}

/// What happens beside the plan. Most of it changes nothing that is decided.
fn incidents(mut scene: Scene, standing: &Standing, dice: &mut Dice) -> Scene {
    let phase = standing.phase;
    // Phase 1 waits for all of these.
    if phase == 1 && dice.one_in(4) {
        match dice.below(3) {
            0 => scene.maximum_voltage = None,
            1 => scene.time = None,
            _ => scene = no(23, scene, standing, dice),
        }
    }
    if phase != 3 && dice.one_in(10) {
        scene.ohms = Some(meter::odd(dice));
    }
    // In 0, 9 and 10 no question is asked.
    if dice.one_in(if matches!(phase, 0 | 9 | 10) { 10 } else { 150 }) {
        scene = flip_a_contact(scene, dice);
    }
    if dice.one_in(300) {
        scene = any_no(scene, standing, dice);
    }
    scene
}
