//! The two that are measured, behind the same two calls, each with a post that is brought to where
//! it is measured; and what the posts' leads are handed: the way to phase 6, then the ticks to be
//! measured. Both sides get the same lists.

use std::hint::black_box;

use second::frames::{CAR_LIMITS, CAR_STATUS, CAR_TIMES, ENABLED, FRAME_LENGTH, IN_MINUTES};
use second::inputs::{car_status, limits, times, LeadInput};
use second::lead::{contact, input_place, output_place, FRAME_RECORDS, INPUT_BYTES, OUTPUT_BYTES};
use second::post::{self, DONE, REFUSED_INPUT};
use second::sharing::MOST_LEADS;
use shared::numbers::{Numbers, PLAIN};
use shared::post::input;
use shared::scene::{Car, Scene, CLOSED, NOT_READY};
use shared::{hex, library};

type Tick = fn(&mut [u8], &mut [u8], &mut [u8]) -> u32;

/// A name, setup and tick. Both sides are called through pointers, so that neither is built into
/// the loop that times it.
pub type Side = (&'static str, fn(&Numbers, &mut [u8]) -> u32, Tick);

pub const SIDES: [Side; 2] = [
    ("library", library::setup, library::tick),
    ("second", Numbers::set_up, |s, i, o| post::tick(s, i, o)),
];

pub struct Post {
    tick: Tick,
    pub state: Vec<u8>,
    output: Vec<u8>,
}

impl Post {
    fn set_up((name, setup, tick): Side, leads: usize) -> Post {
        let mut state = vec![0xEE; post::state_bytes(leads)];
        let (mut numbers, output) = (PLAIN, vec![0xEE; post::output_bytes(leads)]);
        (numbers.leads, numbers.resistance) = (leads as u32, 0.05f32.to_bits());
        assert_eq!(setup(&numbers, &mut state), DONE, "setup of {name}");
        Post {
            tick,
            state,
            output,
        }
    }

    /// A post that charges, its commands as high as they get.
    pub fn charging(side: Side, kind: &str, leads: usize) -> Post {
        let mut post = Post::set_up(side, leads);
        post.run(&mut way_to_charging(kind, leads));
        post
    }

    fn tick(&mut self, input: &mut [u8]) -> u32 {
        (self.tick)(&mut self.state, input, &mut self.output)
    }

    /// The part that is timed and counted. Nothing is cleared: the state goes on from tick to tick,
    /// the output is overwritten. It stays by itself, so that what is around it makes no difference
    /// to the loop.
    #[inline(never)]
    pub fn run(&mut self, inputs: &mut [Vec<u8>]) {
        for input in inputs {
            black_box(self.tick(black_box(input)));
        }
    }
}

/// The number returned and every byte of state and output of both sides, after setup and after each
/// tick up to the last measured one. The measured ticks have to be what their kind says.
pub fn compare(kind: &str, leads: usize) -> Result<(), String> {
    let mut posts = SIDES.map(|side| Post::set_up(side, leads));
    let mut all = way_to_charging(kind, leads);
    let way = all.len();
    all.extend(list(kind, leads));
    for (at, mut input) in all.into_iter().enumerate() {
        same_bytes(&posts)?;
        let [library, second] = posts.each_mut().map(|post| post.tick(&mut input));
        if library != second || at >= way && !is_of_kind(kind, second, &posts[1].output) {
            let place = format!("{kind}, {leads} leads, tick {at}");
            return Err(format!("{place}: {library}, {second}\n"));
        }
    }
    same_bytes(&posts)
}

pub fn same_bytes(posts: &[Post; 2]) -> Result<(), String> {
    let text = |post: &Post| hex(&post.state) + " " + &hex(&post.output);
    match posts.each_ref().map(text) {
        [library, second] if library == second => Ok(()),
        [library, second] => Err(format!("library {library}\nsecond  {second}\n")),
    }
}

/// All leads in phase 6, at what the cars ask for unless power is short; a refused tick leaves them
/// so.
fn is_of_kind(kind: &str, number: u32, output: &[u8]) -> bool {
    let (leads, _) = output.as_chunks::<OUTPUT_BYTES>();
    let mut asked = leads.iter().zip(CARS);
    let asked_met = asked.all(|(lead, car)| lead[output_place::COMMAND] == car.request);
    number == if kind == REFUSED { REFUSED_INPUT } else { DONE }
        && leads.iter().all(|lead| lead[output_place::PHASE] == 6)
        && asked_met == (kind != SHARING)
}

/// The ticks of a list: long enough for the clock, short enough that a round is seldom interrupted.
pub const LIST: usize = 256;

/// Ample power, one H'102 a lead.
const CHARGING: &str = "charging";
/// The same with less power than the leads want.
const SHARING: &str = "sharing";
/// As charging, with eight frame records a lead.
const EIGHT_FRAMES: &str = "eight-frames";
/// As charging, but for a spare bit in the last lead's input: everything is read before it is
/// refused.
const REFUSED: &str = "refused";

pub const KINDS: [&str; 4] = [CHARGING, SHARING, EIGHT_FRAMES, REFUSED];

const fn car(maximum_voltage: u16, request: u8) -> Car {
    Car::new(maximum_voltage, 280, request, (IN_MINUTES, 254))
}

/// The thresholds differ, and one car asks so little that the others can have part of its share.
const CARS: [Car; MOST_LEADS] = [car(450, 125), car(300, 20), car(400, 110), car(350, 90)];

/// Watts a lead: more than the rating, and less than three of the cars want.
const AMPLE: u32 = 70_000;
const SHORT: u32 = 15_000;

/// From a fresh post to phase 6, each tick one phase further; then the list that leaves the
/// commands as high as they get, so that the measured ticks are all alike.
fn way_to_charging(kind: &str, leads: usize) -> Vec<Vec<u8>> {
    let low = Scene::empty(CLOSED).reads(5.0, 0.0);
    let scene = |phase, car| match phase {
        0 | 1 => Scene::onward(phase, 0, car),
        3 => low.gives(100_000.0).says(car, NOT_READY),
        5 => low.says(car, ENABLED),
        _ => low.says(car, NOT_READY),
    };
    let tick = |phase| {
        let cars = CARS[..leads].iter().map(|car| scene(phase, car).build());
        input(AMPLE * leads as u32, cars)
    };
    let raising = list(if kind == REFUSED { CHARGING } else { kind }, leads);
    (0..6).map(tick).chain(raising).collect()
}

/// The ticks to be measured. Readings and allowance change from tick to tick, as the processor
/// would learn one and the same tick by heart.
pub fn list(kind: &str, leads: usize) -> Vec<Vec<u8>> {
    let each = if kind == SHARING { SHORT } else { AMPLE };
    let tick = |tick: usize| {
        let allowance = each * leads as u32 + (tick * 977 % 3_000) as u32;
        let inputs = (0..leads).map(|lead| lead_input(kind, lead, tick));
        let mut input = input(allowance, inputs);
        if kind == REFUSED {
            let last = input.len() - INPUT_BYTES;
            input[last + input_place::CONTACTS] |= contact::SPARE;
        }
        input
    };
    (0..LIST).map(tick).collect()
}

fn lead_input(kind: &str, lead: usize, tick: usize) -> LeadInput {
    let volts = 250.25 + ((7 * tick + 13 * lead) % 40) as f32;
    let amperes = 0.5 + ((11 * tick + 29 * lead) % 120) as f32;
    let (car, scene) = (&CARS[lead], Scene::empty(CLOSED).reads(volts, amperes));
    if kind != EIGHT_FRAMES {
        return scene.says(car, ENABLED).build();
    }
    // Every identifier heard and some not, two H'102 that say the same and one of a wrong length,
    // in an order that goes round.
    let says = car_status(car.target_voltage, car.request, 0, ENABLED);
    let mut frames = [
        (CAR_LIMITS, FRAME_LENGTH, limits(450)),
        (CAR_TIMES, FRAME_LENGTH, times(60, 0)),
        (CAR_STATUS, FRAME_LENGTH, says),
        (0x103, FRAME_LENGTH, says),
        (CAR_STATUS, 7, says),
        (0x108, FRAME_LENGTH, says),
        (CAR_STATUS, FRAME_LENGTH, says),
        (0x700, FRAME_LENGTH, says),
    ];
    frames.rotate_left((lead + tick) % FRAME_RECORDS);
    let add = |input: LeadInput, (identifier, length, data)| input.frame(identifier, length, data);
    frames.into_iter().fold(scene.build(), add)
}
