//! The session in demo/: two leads share 50,000 W, until one car has had enough and the other gets
//! what becomes free. `demo_session lines` prints what the bench program reads, `demo_session
//! answers` what it answers.

use std::process::ExitCode;

use lines::line::{answers, join, without_final_zeros, Line};
use lines::numbers;
use second::frames::{CONTACTOR_OPEN, ENABLED, IN_MINUTES, STOP_REQUEST};
use second::lead::contact::{CONNECTOR_LOCK, PLUG, STOP_BUTTON};
use second::lead::{Lead, REASON_NONE};
use shared::numbers::{Numbers, PLAIN};
use shared::post::{input, Post};
use shared::scene::{Car, Scene, CLOSED, NOT_READY};

const ALLOWANCE: u32 = 50_000;

/// For how many ticks the leads charge with what they have come to.
const HOLD: usize = 3;

/// Far above 100 ohms × threshold.
const INSULATION_OHMS: f32 = 1e6;

/// What is left in the cable after a discharge.
const LOW_VOLTS: f32 = 8.0;

const CARS: [Car; 2] = [
    Car::new(400, 390, 125, (IN_MINUTES, 60)),
    Car::new(200, 195, 125, (180, 0)),
];

/// A battery's volts without a current, and ohms by which they rise with one.
const BATTERIES: [(f32, f32); 2] = [(360.0, 0.125), (180.0, 0.0625)];

/// What takes a lead on from where it stands. The amperes are those that it was commanded in the
/// tick before. In 6 a button may be pressed, and the car says what its status is.
fn scene(at: usize, lead: &Lead, button: u8, status: u8) -> Scene {
    let car = &CARS[at];
    let (volts, ohms) = BATTERIES[at];
    let amperes = f32::from(lead.command);
    let charging = Scene::empty(CLOSED).reads(volts + ohms * amperes, amperes);
    let not_ready = Scene::empty(CLOSED).says(car, NOT_READY);
    let threshold = f32::from(lead.threshold);
    let stopped = Scene::empty(PLUG | CONNECTOR_LOCK);
    match lead.phase {
        // Unplugged.
        0 if lead.reason != REASON_NONE => Scene::empty(0),
        3 => not_ready.reads(threshold, 0.0).gives(INSULATION_OHMS),
        4 => not_ready.reads(LOW_VOLTS, 0.0),
        5 => charging.says(car, ENABLED),
        6 => charging.close(button).says(car, status),
        7 => charging.says(car, 0),
        8 => stopped.reads(volts, 0.0).says(car, CONTACTOR_OPEN),
        9 => stopped.reads(LOW_VOLTS, 0.0),
        phase => Scene::onward(phase, lead.command, car),
    }
}

fn session() -> Vec<Line> {
    let numbers = Numbers { leads: 2, ..PLAIN };
    let mut post = Post::set_up(&numbers);
    let mut lines = vec![numbers::line(&numbers)];
    let mut commands = Vec::new();
    loop {
        let leads = post.leads();
        let has_ended = |lead: &Lead| lead.phase == 0 && lead.reason != REASON_NONE;
        if leads.iter().all(has_ended) {
            return lines;
        }
        commands.push([leads[0].command, leads[1].command]);
        // Lead 2's car asks for the end, then lead 1's driver does.
        let request = STOP_REQUEST * u8::from(held([62, 125], &commands));
        let button = STOP_BUTTON * u8::from(held([125, 0], &commands));
        let scenes = [
            scene(0, &leads[0], button, ENABLED),
            scene(1, &leads[1], 0, ENABLED | request),
        ];
        let input = input(ALLOWANCE, scenes.map(|scene| scene.build()));
        post.tick(&input);
        let hex = shared::hex(without_final_zeros(&input));
        lines.push(format!("tick\t{hex}").into_bytes());
    }
}

fn held(wanted: [u8; 2], commands: &[[u8; 2]]) -> bool {
    let newest = commands.iter().rev().take(HOLD);
    newest.filter(|&&given| given == wanted).count() == HOLD
}

fn main() -> ExitCode {
    let lines = join(&session());
    shared::end(match std::env::args().nth(1).as_deref() {
        Some("lines") => Ok(lines),
        Some("answers") => Ok(answers(&lines)),
        _ => Err(b"usage: demo_session lines | answers\n".to_vec()),
    })
}
