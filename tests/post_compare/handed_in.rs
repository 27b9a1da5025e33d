//! States handed in, and ticks of them; then calls with anything in them.

use second::inputs::LeadInput;
use second::lead::{place, Rating, LEAST_VOLTS, STATE_BYTES};
use second::post;
use second::sharing::MOST_LEADS;
use shared::compare::junk;
use shared::dice::Dice;
use shared::lead_input::{anything, build};
use shared::meter;
use shared::numbers::Numbers;
use shared::post::number;
use shared::scene::{Car, Scene};
use shared::stops::{any_no, flip_a_contact, Standing};

use crate::compare::{Call, Run};
use crate::flaws::{one_of, wrong_length};
use crate::numbers;
use crate::states::{self, around};
use crate::turns::{edge, Turn};

/// A state, and up to four ticks of it, as long as it is good.
pub fn run(run: &mut Run) -> Result<(), String> {
    let sharing = run.dice.one_in(3);
    let mut state = match sharing {
        true => states::sharing(&mut run.dice),
        false => states::any(&mut run.dice),
    };
    for _ in 0..1 + run.dice.below(4) {
        let mut call = call_on(state, sharing, &mut run.dice);
        if run.make(&mut call)? == post::REFUSED_STATE {
            break;
        }
        state = call.state;
    }
    Ok(())
}

/// A tick of a state, good or not, all cars going on or not. One in three has its energies moved,
/// one in twelve has something else wrong.
fn call_on(state: Vec<u8>, going_on: bool, dice: &mut Dice) -> Call {
    let mut inputs = Vec::new();
    if let Some((head, records)) = state.split_first_chunk() {
        let numbers = numbers::of_head(head);
        let rating = numbers::rating(numbers);
        let (records, _) = records.as_chunks();
        inputs.extend((0..numbers.leads as usize).map(|at| match records.get(at) {
            Some(record) => lead_input(record, going_on, &rating, dice),
            None => anything(dice),
        }));
    }
    let allowance = |turns: &[Turn], dice: &mut Dice| match turns.is_empty() || dice.one_in(3) {
        true => dice.next() >> dice.below(32),
        false => edge(turns, dice),
    };
    let mut call = Call::tick(state, inputs, allowance, dice);
    if dice.one_in(3) {
        states::move_energies(&mut call, dice);
    }
    if dice.one_in(12) {
        call.spoil_beside_the_state(dice);
    }
    call
}

type Record = [u8; STATE_BYTES];

/// The car goes on as the record remembers it, or something happens.
fn lead_input(record: &Record, going_on: bool, rating: &Rating, dice: &mut Dice) -> LeadInput {
    let phase = record[place::PHASE];
    let command = record[place::COMMAND];
    let car = match phase {
        1 => new_car(rating, dice),
        _ => remembered(record),
    };
    let kept = number(record, place::THRESHOLD);
    let standing = Standing::new(phase, kept, &car, rating);
    let scene = match dice.one_in(2) {
        true => Scene::onward(phase, command, &car),
        false => Scene::waiting(phase, command, &car),
    };
    let scene = scene.less_errors(rating);
    if going_on && !dice.one_in(30) {
        return build(scene, phase, dice);
    }
    if dice.one_in(12) {
        return anything(dice);
    }
    build(disturbed(scene, &standing, dice), phase, dice)
}

fn disturbed(mut scene: Scene, standing: &Standing, dice: &mut Dice) -> Scene {
    if dice.one_in(3) {
        scene = meter::at_an_edge(scene, standing, dice);
    }
    for _ in 0..dice.pick(&[0, 0, 0, 0, 0, 1, 1, 2]) {
        scene = any_no(scene, standing, dice);
    }
    if dice.one_in(20) {
        scene = flip_a_contact(scene, dice);
    }
    if dice.one_in(3) {
        scene = scene.silent();
    }
    if dice.one_in(6) {
        let ohms = meter::around(standing.least_ohms(), dice);
        scene = scene.gives(dice.pick(&[ohms, ohms, f32::INFINITY]));
    }
    scene
}

fn remembered(record: &Record) -> Car {
    let voltages = [place::MAXIMUM_VOLTAGE, place::TARGET_VOLTAGE];
    let [maximum, target] = voltages.map(|at| number(record, at));
    let time = (record[place::TIME_BYTE_1], record[place::TIME_BYTE_2]);
    Car::new(maximum, target, record[place::REQUEST], time)
}

/// In phase 1 the car may not have spoken yet.
fn new_car(rating: &Rating, dice: &mut Dice) -> Car {
    let [below, rated, above] = around(rating.volts);
    let maximum = dice.pick(&[LEAST_VOLTS, below, rated, above, 600]);
    let target = dice.pick(&[LEAST_VOLTS, maximum, rated]);
    Car::new(maximum, target, dice.byte(), (dice.byte(), dice.byte()))
}

/// Calls with anything in them: any lengths, any bytes, numbers of any size.
pub fn garbled(run: &mut Run) -> Result<(), String> {
    let dice = &mut run.dice;
    let mut call = match dice.below(4) {
        0 => setup(dice),
        1 => noise(dice),
        _ => damaged(dice),
    };
    run.make(&mut call)?;
    if call.numbers.is_some() {
        // A tick of what the setup left, taken or not.
        let mut call = call_on(call.state, false, &mut run.dice);
        run.make(&mut call)?;
    }
    Ok(())
}

fn setup(dice: &mut Dice) -> Call {
    let numbers = draw_numbers(dice);
    // Of a number that is too large the low byte.
    let right = post::state_bytes(usize::from(numbers.leads as u8));
    let length = match dice.below(4) {
        0 => wrong_length(right, STATE_BYTES, dice),
        _ => right,
    };
    Call::setup(numbers, junk(length, dice))
}

fn draw_numbers(dice: &mut Dice) -> Numbers {
    let any = |dice: &mut Dice| dice.next() >> dice.below(32);
    if dice.one_in(16) {
        let resistance = dice.next();
        return Numbers {
            resistance,
            ..Numbers::of([(); 6].map(|()| any(dice)))
        };
    }
    let mut numbers = numbers::good(1 + dice.below(MOST_LEADS as u32), dice);
    for _ in 0..dice.pick(&[0, 0, 1, 1, 2, 3]) {
        numbers::spoil(&mut numbers, dice);
    }
    numbers
}

/// Nothing that fits, but for the lengths and the head now and then.
fn noise(dice: &mut Dice) -> Call {
    let leads = dice.below(6) as usize;
    let mut any = |right| match dice.below(4) {
        0 => Vec::new(),
        1 => junk(dice.below(700) as usize, dice),
        _ => junk(right, dice),
    };
    let lengths = [post::state_bytes, post::input_bytes, post::output_bytes];
    let mut call = Call::of(lengths.map(|length: fn(usize) -> usize| any(length(leads))));
    if dice.one_in(2) {
        let good = numbers::head(numbers::good(leads as u32, dice));
        let length = call.state.len().min(good.len());
        call.state[..length].copy_from_slice(&good[..length]);
    }
    call
}

/// A call that was sound, or nearly, with damage in places.
fn damaged(dice: &mut Dice) -> Call {
    let mut call = call_on(states::any(dice), false, dice);
    for _ in 0..1 + dice.below(3) {
        match dice.below(4) {
            0 => flip_a_bit(&mut call.state, dice),
            1 => flip_a_bit(&mut call.input, dice),
            _ => call.spoil(dice),
        }
    }
    call
}

fn flip_a_bit(bytes: &mut [u8], dice: &mut Dice) {
    if let Some(byte) = one_of(bytes, dice) {
        *byte ^= 1 << dice.below(8);
    }
}
