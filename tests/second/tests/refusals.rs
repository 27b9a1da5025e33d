use super::*;
use crate::post::{SETUP_REFUSALS, TICK_REFUSALS};

const FILL: u8 = 0xA5;

/// Setup into `length` bytes that hold something already, with one error for both meters. A refusal
/// leaves them alone.
fn setup_of(leads: u32, volts: u32, amperes: u32, resistance: u32, error: u32, length: usize) -> u32 {
    let mut state = vec![FILL; length];
    let number = setup(leads, volts, amperes, resistance, error, error, &mut state);
    assert!(number == DONE || state == vec![FILL; length]);
    number
}

/// A tick. A refusal leaves every byte of state and output alone.
fn tick_of(state: &[u8], input: &[u8], output: usize) -> u32 {
    let (mut after, mut shown) = (state.to_vec(), vec![FILL; output]);
    let number = tick(&mut after, input, &mut shown);
    assert!(number == DONE || after == state && shown == vec![FILL; output]);
    number
}

#[test]
fn setup_refuses() {
    let half = 0.5f32.to_bits();
    // The first no counts: all that is asked about later is wrong as well.
    for leads in [0, 5, 256, 257, u32::MAX] {
        assert_eq!(setup_of(leads, 0, 0, !0, !0, 0), 1);
        assert_eq!(setup_of(leads, 500, 125, half, 0, state_bytes(leads as usize % 256)), 1);
    }
    for volts in [0, 49, 501, 65_535, 65_536 + 400, u32::MAX] {
        assert_eq!(setup_of(1, volts, 0, !0, !0, 0), 2);
    }
    for amperes in [0, 201, 256, 256 + 125, u32::MAX] {
        assert_eq!(setup_of(1, 500, amperes, !0, !0, 0), 3);
    }
    for ohms in [1.0f32.next_up(), -f32::from_bits(1), -0.5, f32::NAN, -f32::NAN, f32::INFINITY, f32::NEG_INFINITY] {
        assert_eq!(setup_of(1, 500, 125, ohms.to_bits(), !0, 0), 4);
    }
    for error in [51, 256, 65_536, u32::MAX] {
        assert_eq!(setup_of(1, 500, 125, half, error, 0), 32);
    }
    for leads in 1..=4 {
        let right = state_bytes(leads as usize);
        for length in [0, 1, HEAD_BYTES, right - 1, right + 1, right + STATE_BYTES] {
            assert_eq!(setup_of(leads, 500, 125, half, 0, length), 5);
        }
        for (volts, amperes, ohms) in [(50, 1, 0.0f32), (500, 200, 1.0), (499, 2, -0.0)] {
            assert_eq!(setup_of(leads, volts, amperes, ohms.to_bits(), 0, right), DONE);
        }
    }
    assert_eq!((SETUP_REFUSALS, TICK_REFUSALS), ([1, 2, 3, 4, 32, 5], [6, 7, 8, 9]));
}

#[test]
fn a_fresh_state() {
    let mut state = [FILL; state_bytes(2)];
    // Minus zero is kept bit for bit.
    assert_eq!(setup(2, 300, 125, 0x8000_0000, 0, 0, &mut state), DONE);
    assert_eq!(state[..HEAD_BYTES], [2, 125, 0x2C, 0x01, 0, 0, 0, 0x80, 0, 0]);
    assert_eq!(state[HEAD_BYTES..], [0; 2 * STATE_BYTES]);
}

#[test]
fn a_bad_head_or_length_of_the_state() {
    for leads in 1..=4 {
        let good = fresh(leads, 400, 125);
        let tick = |state: &[u8]| tick_of(state, &vec![0; input_bytes(leads)], output_bytes(leads));
        for length in 0..good.len() {
            assert_eq!(tick(&good[..length]), 6);
        }
        for surplus in [1, STATE_BYTES] {
            assert_eq!(tick(&[&good[..], &vec![0; surplus]].concat()), 6);
        }
        for (at, bytes, number) in [
            (0, &[0][..], 6), (0, &[5], 6), (0, &[255], 6), (0, &[leads as u8], DONE),
            (1, &[0], 6), (1, &[1], DONE), (1, &[200], DONE), (1, &[201], 6),
            (2, &49u16.to_le_bytes(), 6), (2, &50u16.to_le_bytes(), DONE),
            (2, &500u16.to_le_bytes(), DONE), (2, &501u16.to_le_bytes(), 6),
            (4, &f32::NAN.to_le_bytes(), 6), (4, &1.5f32.to_le_bytes(), 6),
            (4, &(-0.0f32).to_le_bytes(), DONE), (4, &(-f32::from_bits(1)).to_le_bytes(), 6),
            (8, &[50], DONE), (8, &[51], 6), (9, &[50], DONE), (9, &[51], 6), (8, &[50, 50], DONE), (8, &[51, 51], 6),
        ] {
            let mut state = good.clone();
            state[at..at + bytes.len()].copy_from_slice(bytes);
            assert_eq!(tick(&state), number, "{at} {bytes:?}");
        }
    }
}

/// Whether a state of two leads at 400 V, 125 A, the second one with these bytes, is a good one.
fn good(bytes: &[(usize, u8)]) -> bool {
    let mut state = fresh(2, 400, 125);
    bytes.iter().for_each(|(at, value)| state[HEAD_BYTES + STATE_BYTES + at] = *value);
    let number = tick_of(&state, &[0; input_bytes(2)], output_bytes(2));
    assert!(number == DONE || number == 6);
    number == DONE
}

#[test]
fn a_bad_lead() {
    for byte in 0..=255 {
        assert_eq!(good(&[(PHASE, byte), (THRESHOLD, if byte == 1 { 0 } else { 100 })]), byte <= 10);
        assert_eq!(good(&[(REASON, byte)]), byte == 0 || (11..=29).contains(&byte));
        assert_eq!(good(&[(SEEN, byte)]), byte <= 7);
    }
    for phase in 0..=10 {
        let charging = matches!(phase, 6 | 7);
        for (command, expected) in [(1, charging), (125, charging), (126, false)] {
            let threshold = (THRESHOLD, if phase == 1 { 0 } else { 100 });
            assert_eq!(good(&[(PHASE, phase), (COMMAND, command), threshold]), expected);
        }
        // 400 is H'190.
        let threshold = |(low, high)| good(&[(PHASE, phase), (THRESHOLD, low), (THRESHOLD + 1, high)]);
        assert_eq!(threshold((0, 0)), !matches!(phase, 2..=7));
        assert_eq!([(50, 0), (0x90, 1)].map(threshold), [phase != 1; 2]);
        assert_eq!([(49, 0), (0x91, 1)].map(threshold), [false; 2]);
    }
    // Spare bytes are 0; nothing is asked of the others.
    for at in (REQUEST..SEEN).chain(MAXIMUM_VOLTAGE..STATE_BYTES) {
        assert_eq!([1, 0x80, 0xFF].map(|byte| good(&[(at, byte)])), [at < SPARE; 3]);
    }
}

#[test]
fn any_energy_and_no_spare_byte() {
    for phase in 0..=10 {
        let with = |bytes: &[(usize, u8)]| {
            let threshold = (THRESHOLD, if phase == 1 { 0 } else { 100 });
            good(&[&[(PHASE, phase), threshold], bytes].concat())
        };
        for (at, byte) in (20..32).flat_map(|at| (0..=255).map(move |byte| (at, byte))) {
            assert_eq!(with(&[(at, byte)]), at < 28 || byte == 0, "{byte} at {at} in phase {phase}");
        }
        // All eight at once; a spare byte is found beside them too.
        let all = [20, 21, 22, 23, 24, 25, 26, 27].map(|at| (at, 0xFF));
        assert!(with(&all));
        for at in 28..32 {
            assert!(!with(&[&all[..], &[(at, 1)]].concat()));
        }
    }
}

#[test]
fn a_bad_input() {
    let state = fresh(2, 400, 125);
    for length in (0..input_bytes(2)).chain([input_bytes(2) + 1, input_bytes(3)]) {
        assert_eq!(tick_of(&state, &vec![0; length], output_bytes(2)), 7);
    }
    for length in (0..output_bytes(2)).chain([output_bytes(2) + 1, output_bytes(3)]) {
        assert_eq!(tick_of(&state, &[0; input_bytes(2)], length), 8);
    }
    // Missing values and frame records may hold anything.
    for (at, byte) in (0..2 * INPUT_BYTES).flat_map(|at| (0..=255).map(move |byte| (at, byte))) {
        let most = [0x7F, 0x07, 8, 0].get(at % INPUT_BYTES).unwrap_or(&255);
        let mut input = [0; input_bytes(2)];
        input[ALLOWANCE_BYTES] = PLUG | START_BUTTON;
        input[ALLOWANCE_BYTES + at] = byte;
        assert_eq!(tick_of(&state, &input, output_bytes(2)), if byte <= *most { DONE } else { 9 });
    }
}

#[test]
fn the_first_fitting_number() {
    let (state, input) = (fresh(1, 400, 125), [0xFF; input_bytes(1)]);
    let (long, short, right) = ([&state[..], &[0]].concat(), &input[1..], output_bytes(1));
    for (state, input, output, number) in [
        (&state, &input[..], right, 9), (&state, &input, 23, 8), (&state, short, 23, 7), (&long, short, 23, 6),
        (&long, &input, right, 6), (&long, short, right, 6), (&state, short, right, 7), (&vec![], &[], 0, 6),
    ] {
        assert_eq!(tick_of(state, input, output), number);
    }
}

#[test]
fn a_call_without_a_refusal_is_done_whatever_else_it_holds() {
    let mut next = generator();
    for _ in 0..20_000 {
        let mut case = Case::new(next() % 11).allowance(u32::from_le_bytes([0; 4].map(|_| next())) >> 12);
        case.state[REQUEST..SEEN].fill_with(&mut next);
        case.state[MAXIMUM_VOLTAGE..SPARE].fill_with(&mut next);
        case.input.0.fill_with(&mut next);
        case.input.0[..input_place::VOLTS].copy_from_slice(&[next() & 0x7F, next() & 0x07, next() % 9, 0]);
        case.tick();
    }
}
