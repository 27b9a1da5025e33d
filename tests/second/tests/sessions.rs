use super::*;

/// One tick with an ample allowance: phase, reason and command.
fn step(state: &mut [u8], input: LeadInput) -> (u8, u8, u8) {
    let [phase, reason, command, ..] = done(state, AMPLE, &[input])[0];
    (phase, reason, command)
}

const START: LeadInput = LeadInput::new(PLUG | START_BUTTON);

/// A lead in its first tick of phase 6. All that phases 0 to 5 wait for is there at once, and still
/// it makes one move a tick.
fn in_phase_6(byte_1: u8, byte_2: u8) -> Vec<u8> {
    let mut state = fresh(1, 500, 125);
    let input = START.close(CLOSED).reading(5.0, 0.0).ohms(40_000.0);
    let input = input.maximum_voltage(400).charging_time(byte_1, byte_2).status(TARGET, 255, 0, ENABLED);
    for (phase, command) in [(1, 0), (2, 0), (3, 0), (4, 0), (5, 0), (6, 2)] {
        assert_eq!(step(&mut state, input), (phase, 0, command));
    }
    state
}

#[test]
fn a_whole_charge() {
    let mut state = in_phase_6(60, 0);
    let still = LeadInput::new(CLOSED);
    // Up 2 A a tick, to the rated 125 A.
    let charging = still.reading(380.0, 100.0).status(TARGET, 255, 0, ENABLED);
    for command in (4..125).step_by(2).chain([125, 125]) {
        assert_eq!(step(&mut state, charging), (6, 0, command));
    }
    // Ordinary stop: 115 in that tick, 5 in the 12th, 0 in the 13th.
    for command in [115, 105, 95, 85, 75, 65, 55, 45, 35, 25, 15, 5, 0] {
        assert_eq!(step(&mut state, charging.close(STOP_BUTTON)), (7, 26, command));
    }
    // The amperes hold it in 7, the contactor in 8, the volts in 9, the plug in 10. The reason
    // shows until the next start.
    for (input, phase, reason) in [
        (still.reading(380.0, 5.0), 7, 26), (still.reading(380.0, 4.5), 8, 26),
        (still, 8, 26), (still.status(TARGET, 0, 0, CONTACTOR_OPEN), 9, 26),
        (still, 9, 26), (still.reading(11.0, 0.0), 9, 26), (still.reading(10.0, 0.0), 10, 26),
        (still, 10, 26), (LeadInput::new(0), 0, 26), (LeadInput::new(0), 0, 26), (START, 1, 0),
    ] {
        assert_eq!(step(&mut state, input), (phase, reason, 0));
    }
}

#[test]
fn stops_after_so_many_ticks() {
    // The tenth without an H'102, the first where there is no charging time.
    let quiet = LeadInput::new(CLOSED).reading(380.0, 10.0);
    let mut state = in_phase_6(60, 0);
    for command in [4, 6, 8, 10, 12, 14, 16, 18, 20] {
        assert_eq!(step(&mut state, quiet), (6, 0, command));
    }
    assert_eq!(step(&mut state, quiet), (7, 19, 10));
    assert_eq!(step(&mut in_phase_6(0, 9), quiet), (7, 29, 0));
    // The 101st in phase 1.
    let mut state = fresh(1, 500, 125);
    assert_eq!(step(&mut state, START), (1, 0, 0));
    for silence in 1..=100 {
        assert_eq!(step(&mut state, LeadInput::new(PLUG)), (1, 0, 0));
        assert_eq!(state[HEAD_BYTES + SILENCE], silence);
    }
    assert_eq!(step(&mut state, LeadInput::new(PLUG)), (10, 28, 0));
}

#[test]
fn leads_are_ticked_apart_and_the_head_stays() {
    let mut state = fresh(2, 500, 125);
    let mut expected = state.clone();
    assert_eq!(done(&mut state, 0, &[LeadInput::new(0), START])[0], [0; OUTPUT_BYTES]);
    // An idle lead ages.
    expected[HEAD_BYTES + AGE] = 1;
    expected[HEAD_BYTES + STATE_BYTES + PHASE] = 1;
    assert_eq!(state, expected);
}
