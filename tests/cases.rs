//! What the program of crates/cases prints, as the second implementation answers:
//! document 01's whole case, setups with its cable resistances, sessions.

use std::io::{self, Write};

use second::frames::{CONTACTOR_OPEN, ENABLED, IN_MINUTES};
use second::inputs::LeadInput;
use second::lead::contact::*;
use second::post::{self, head_place};
use shared::hex;
use shared::numbers::{Numbers, PLAIN};
use shared::post::Post;

fn main() {
    let text = whole_case() + &setups() + &sessions();
    // A closed output is no fault of the cases.
    let _ = io::stdout().write_all(text.as_bytes());
}

fn whole_case() -> String {
    let lines = "setup\t1\t500\t125\t00000000\t0\t0\ntick\t0000000021\n";
    let mut answers = Vec::new();
    second::bench::run(lines.as_bytes(), &mut answers).expect("memory is read and written");
    String::from_utf8(answers).expect("answers are text")
}

/// Cable resistances that document 01 names, and what stands beside them: 0.5,
/// minus zero, 1, the next float above it, minus the smallest float, plus
/// infinity, two NaNs.
#[rustfmt::skip]
const RESISTANCES: [u32; 8] = [
    0x3F00_0000, 0x8000_0000, 0x3F80_0000, 0x3F80_0001, 0x8000_0001, 0x7F80_0000, 0x7FC0_0000, 0xFFC0_0001,
];

/// Setup's number, and the head's bytes for the resistance.
fn setups() -> String {
    let line = |resistance| {
        let mut state = [0; post::state_bytes(1)];
        let number = Numbers {
            resistance,
            ..PLAIN
        }
        .set_up(&mut state);
        format!(
            "{number}\t{}\n",
            hex(&state[head_place::RESISTANCE..head_place::VOLTS_ERROR])
        )
    };
    RESISTANCES.map(line).concat()
}

/// For so many ticks: the contacts, whether volts and amperes are there, whether
/// the ohms are, the volts, and the status that both cars send.
type Step = (usize, u8, bool, bool, f32, u8);

const STARTED: u8 = PLUG | START_BUTTON;
const PERMITTED: u8 = PLUG | CHARGE_PERMISSION;
const LOCKED: u8 = PERMITTED | CONNECTOR_LOCK;
const OPEN: u8 = CONTACTOR_OPEN;

#[rustfmt::skip]
const BEGIN: [Step; 6] = [
    (1, STARTED, false, false, 0.0, OPEN),
    (1, PERMITTED, false, false, 0.0, OPEN | ENABLED),
    (1, LOCKED, true, false, 0.0, OPEN | ENABLED),
    (1, LOCKED, true, true, 190.0, OPEN | ENABLED),
    (1, LOCKED, true, false, 0.0, OPEN | ENABLED),
    (12, LOCKED, true, false, 190.0, ENABLED),
];

/// Ended by the stop button, and by the emergency button.
#[rustfmt::skip]
const ENDS: [[Step; 4]; 2] = [
    [
        (4, LOCKED | STOP_BUTTON, true, false, 190.0, ENABLED),
        (1, LOCKED, true, false, 190.0, OPEN),
        (1, LOCKED, true, false, 0.0, OPEN),
        (1, 0, false, false, 0.0, OPEN),
    ],
    [
        (2, LOCKED | EMERGENCY_STOP, true, false, 190.0, ENABLED),
        (1, LOCKED, true, false, 0.0, OPEN),
        (1, 0, false, false, 0.0, OPEN),
        (1, STARTED, false, false, 0.0, OPEN),
    ],
];

/// Two cars, of which the batteries take 400 V and 200 V, at a post of 5,000 W.
fn input((_, contacts, meter, ohms, volts, status): Step) -> Vec<u8> {
    let lead = |battery| {
        let mut lead = LeadInput::new(contacts);
        if meter {
            lead = lead.reading(volts, 0.0);
        }
        if ohms {
            lead = lead.ohms(100_000.0);
        }
        let lead = lead.maximum_voltage(battery).charging_time(IN_MINUTES, 30);
        lead.status(190, 20, 0, status)
    };
    shared::post::input(5_000, [400, 200].map(lead))
}

/// As the bench program prints them.
fn sessions() -> String {
    let mut text = String::new();
    for end in ENDS {
        text += "0\n";
        let mut post = Post::set_up(&Numbers {
            leads: 2,
            resistance: 0.5f32.to_bits(),
            ..PLAIN
        });
        for step in BEGIN.into_iter().chain(end) {
            for _ in 0..step.0 {
                text += &format!("0\t{}\n", hex(&post.tick(&input(step))));
            }
        }
    }
    text
}
