//! Posts set up and ticked: leads steered through their phases to a stop.

use second::frames::IN_MINUTES;
use second::lead::{Lead, REASON_NONE};
use second::post::REFUSED_ERROR;
use second::readings::MOST_ERROR;
use shared::dice::Dice;
use shared::lead_input::{anything, build};
use shared::numbers::{Numbers, PLAIN};
use shared::plan::Plan;
use shared::post::{self, Post};
use shared::scene::{Car, Scene};
use shared::stops::{no, takes_time, Standing};

use crate::line::{self, Line};
use crate::{numbers, refused};

/// Never short.
const AMPLE: u32 = 500_000;

/// More ticks than any phase but 6 lasts here.
const PATIENCE: usize = 40;

struct Session<'a> {
    lines: Vec<Line>,
    dice: &'a mut Dice,
    post: Post,
    cars: Vec<Car>,
    allowance: u32,
}

impl<'a> Session<'a> {
    /// A post that is set up, and a car for each lead, with this charging time.
    fn begin(numbers: Numbers, time: (u8, u8), dice: &'a mut Dice) -> Session<'a> {
        let car = |(volts, request)| Car::new(volts, volts - 10, request, time);
        let cars = [(400, 60), (200, 60), (500, 9), (60, 255)].map(car);
        Session {
            lines: vec![numbers::line(&numbers)],
            dice,
            post: Post::set_up(&numbers),
            cars: cars[..numbers.leads as usize].to_vec(),
            allowance: AMPLE,
        }
    }

    /// What takes every lead to its next phase; one that has ended stays unplugged.
    fn scenes(&self) -> Vec<Scene> {
        let onward = |(lead, car): (&Lead, &Car)| match lead.phase {
            0 if lead.reason != REASON_NONE => Scene::empty(0),
            phase => Scene::onward(phase, lead.command, car).less_errors(&self.post.rating),
        };
        let leads = self.post.leads();
        leads.iter().zip(&self.cars).map(onward).collect()
    }

    fn tick(&mut self, scenes: &[Scene]) {
        let input = post::input(self.allowance, scenes.iter().map(Scene::build));
        self.lines.push(line::tick(&input, self.dice));
        self.post.tick(&input);
    }

    /// A tick in which a lead's meters show this.
    fn show(&mut self, at: usize, volts: f32, amperes: f32) {
        let mut scenes = self.scenes();
        scenes[at] = scenes[at].reads(volts, amperes);
        self.tick(&scenes);
    }

    /// Elsewhere a tick would take the leads on.
    fn stay_in_6(&mut self) {
        if self.post.leads()[0].phase == 6 {
            self.tick(&self.scenes());
        }
    }

    /// The first lead to this phase.
    fn to(&mut self, phase: u8) {
        let mut ticks = 0..PATIENCE;
        while self.post.leads()[0].phase != phase {
            ticks.next().expect("the phase is reached");
            self.tick(&self.scenes());
        }
    }

    fn standing(&self, at: usize) -> Standing {
        let lead = self.post.leads()[at];
        Standing::new(
            lead.phase,
            lead.threshold,
            &self.cars[at],
            &self.post.rating,
        )
    }

    /// One lead gets a no to a question until it stops, the others go on. Where it takes time,
    /// refused ticks come between, which are not to be counted.
    fn stop(&mut self, question: u8, at: usize) {
        let mut ticks = 0..PATIENCE;
        while self.post.leads()[at].reason != question {
            ticks.next().expect("the question is a stop");
            let lead = self.post.leads()[at];
            let standing = self.standing(at);
            let mut scenes = self.scenes();
            if takes_time(question) {
                let waiting = Scene::waiting(lead.phase, lead.command, &self.cars[at]);
                scenes[at] = waiting.less_errors(&self.post.rating);
                let flaw = self.dice.pick(&refused::flaws());
                self.lines.push(refused::flawed(at, flaw, self.dice));
            }
            scenes[at] = no(question, scenes[at], &standing, self.dice);
            self.tick(&scenes);
        }
    }
}

/// A lead for each question, or for none. All start at once, and when the first has reached this
/// phase, lines come that change nothing; then each is stopped by its question. In 6 ticks come
/// between, and the power becomes short, so that what one lead gives up makes another rise.
pub fn stopped(phase: u8, questions: &[u8], unchanging: Vec<Line>, dice: &mut Dice) -> Vec<Line> {
    let leads = questions.len();
    let amperes = dice.pick(&[60, 125, 200]);
    let ohms = dice.pick(&[0.0f32, -0.0, 0.333]).to_bits();
    let numbers = Numbers {
        leads: leads as u32,
        amperes,
        resistance: ohms,
        ..PLAIN
    };
    let time = (IN_MINUTES, if questions.contains(&29) { 0 } else { 10 });
    let mut session = Session::begin(numbers, time, dice);
    session.to(phase);
    for line in unchanging {
        session.lines.push(line);
        session.stay_in_6();
    }
    for allowance in [2_000, 1_501] {
        session.allowance = allowance * numbers.leads;
        session.stay_in_6();
    }
    for (at, &question) in questions.iter().enumerate() {
        session.stop(question, at);
    }
    session.to(0);
    session.lines
}

/// Two leads charge; permission opens at one of them in the tick in which its car says not enabled
/// (2026-06).
pub fn withdrawn(dice: &mut Dice) -> Vec<Line> {
    let numbers = Numbers { leads: 2, ..PLAIN };
    let mut session = Session::begin(numbers, (IN_MINUTES, 10), dice);
    session.to(6);
    session.stay_in_6();
    let standing = session.standing(0);
    let mut scenes = session.scenes();
    for question in [14, 23] {
        scenes[0] = no(question, scenes[0], &standing, session.dice);
    }
    session.tick(&scenes);
    session.to(0);
    session.lines
}

/// The volts may be 5 V more than shown (2026-08): in 4 and in 9 a lead waits until it shows 5 V, and
/// it charges at 5 V below its threshold, where a tenth more is a stop. The amperes' error adds
/// nothing by way of the cable.
pub fn volts_off(dice: &mut Dice) -> Vec<Line> {
    let numbers = Numbers {
        resistance: 0.5f32.to_bits(),
        volts_error: MOST_ERROR.0,
        amperes_error: 3,
        ..PLAIN
    };
    let mut session = Session::begin(numbers, (IN_MINUTES, 10), dice);
    for (phase, shown) in [
        (4, &[10.0, 5.0625, 5.0][..]),
        (6, &[395.0, 395.0625]),
        (9, &[10.0, 5.0625, 5.0]),
    ] {
        session.to(phase);
        for &volts in shown {
            session.show(0, volts, 0.0);
        }
    }
    session.to(0);
    session.lines
}

/// The amperes may be 2 A more than shown (2026-08): question 17 stops one lead at a tenth above
/// 125.5 A, and 2.9 A end the other's phase 7. A setup that is refused for its errors changes nothing.
pub fn amperes_off(dice: &mut Dice) -> Vec<Line> {
    let numbers = Numbers {
        leads: 2,
        volts_error: 9,
        amperes_error: 20,
        ..PLAIN
    };
    let mut session = Session::begin(numbers, (IN_MINUTES, 10), dice);
    session.to(6);
    session.stay_in_6();
    let refused = numbers::refused(REFUSED_ERROR, numbers.leads, session.dice);
    session.lines.push(refused);
    session.stay_in_6();
    for amperes in [125.5, 125.5625] {
        session.show(0, 300.0, amperes);
    }
    session.stop(24, 1);
    while session.post.leads()[1].command > 0 {
        session.tick(&session.scenes());
    }
    for amperes in [4.75, 2.9375, 2.875] {
        session.show(1, 150.0, amperes);
    }
    session.to(0);
    session.lines
}

/// With 5 A more than shown (2026-08), no current ends phase 7: its age does.
pub fn ended_by_age(dice: &mut Dice) -> Vec<Line> {
    let numbers = Numbers {
        volts_error: 7,
        amperes_error: MOST_ERROR.0,
        ..PLAIN
    };
    let mut session = Session::begin(numbers, (IN_MINUTES, 10), dice);
    session.to(6);
    session.stay_in_6();
    session.stop(24, 0);
    session.to(0);
    session.lines
}

/// Leads with plans of their own, with other frames and stale values around what they say; now and
/// then any bytes at all, or a line that changes nothing.
pub fn roaming(numbers: Numbers, ticks: usize, no_lines: &[Line], dice: &mut Dice) -> Vec<Line> {
    let leads = numbers.leads;
    let mut lines = vec![numbers::line(&numbers)];
    let mut post = Post::set_up(&numbers);
    let eager = dice.one_in(2);
    let plans = (0..leads).map(|_| Plan::draw(post.rating, eager, dice));
    let mut plans: Vec<Plan> = plans.collect();
    for _ in 0..ticks {
        let any = dice.next();
        let allowance = dice.pick(&[AMPLE, any % 5_000, any]);
        let mut inputs = Vec::new();
        for (lead, plan) in post.leads().iter().zip(&mut plans) {
            let scene = plan.scene(lead, dice);
            inputs.push(match dice.below(60) {
                0 => anything(dice),
                1..15 => build(scene, lead.phase, dice),
                _ => scene.build(),
            });
        }
        if dice.one_in(8) {
            lines.push(refused::any(leads as usize, no_lines, dice));
        }
        let input = post::input(allowance, inputs);
        lines.push(line::tick(&input, dice));
        post.tick(&input);
    }
    lines
}
