use super::*;

const FULL: u64 = u64::MAX;

/// The count of a lead in the state of a post.
fn count(state: &[u8], lead: usize) -> u64 {
    u64::from_le_bytes(state[HEAD_BYTES + STATE_BYTES * lead..][ENERGY..SPARE].try_into().unwrap())
}

/// One tick of a post of one lead: phase, command and the count after it.
fn step(state: &mut [u8], allowance: u32, input: LeadInput) -> (u8, u8, u64) {
    let [phase, _, command, ..] = done(state, allowance, &[input])[0];
    (phase, command, count(state, 0))
}

#[test]
fn a_tick_adds_the_new_command_times_the_threshold() {
    check(After::energy, &[
        // Up from 20 A to 22 A at 400 V, down from 20 A to 10 A.
        (6, |c| c, 8_800), (6, |c| c.energy(1_000), 9_800), (7, |c| c, 4_000), (7, |c| c.energy(1_000), 5_000),
        // The tick of the move to 6 gives 2 A already, that of an ordinary stop 10 A; neither zeroes.
        (5, |c| c.hears(ENABLED), 800), (5, |c| c.hears(ENABLED).energy(77), 877),
        (6, |c| c.close(STOP_BUTTON), 4_000), (6, |c| c.close(STOP_BUTTON).energy(77), 4_077),
        // Whole amperes, not the watts dealt out: 21 A of 8,799 watts, 19 A of 7,999.
        (6, |c| c.byte(REQUEST, 5), 2_000), (6, |c| c.allowance(8_799), 8_400), (6, |c| c.allowance(399).energy(77), 77),
        (7, |c| c.byte(COMMAND, 40).allowance(7_999), 7_600), (7, |c| c.byte(COMMAND, 10).energy(77), 77),
        // The kept threshold, neither the maximum nor the target voltage nor the meter's volts and amperes.
        (6, |c| c.number(THRESHOLD, 333).voltages(400, 300), 7_326), (7, |c| c.number(THRESHOLD, 499), 4_990),
        (6, |c| c.volts(390.0).amperes(99.0), 8_800), (7, |c| c.volts(390.0).amperes(99.0), 4_000),
        (6, |c| c.byte(COMMAND, 125).byte(REQUEST, 255).number(THRESHOLD, 500), 62_500),
        // Out of 6 and 7 the command is 0 at once.
        (6, |c| c.open(PLUG).energy(77), 77), (7, |c| c.open(PLUG).energy(77), 77),
        (7, |c| c.byte(COMMAND, 100).age(30).energy(77), 77),
    ]);
}

#[test]
fn a_start_zeroes_it_and_nothing_else_does() {
    for energy in [0, 1, 77, 1 << 32, FULL] {
        // Staying, with whatever is remembered.
        for phase in [0, 1, 2, 3, 4, 5, 8, 9, 10] {
            let after = Case::new(phase).energy(energy).tick();
            assert_eq!((after.phase_and_reason().0, after.energy()), (phase, energy));
        }
        let rows: &[(u8, Change, u8)] = &[
            (1, |c| c.byte(SEEN, 7).byte(STATUS, ENABLED).voltages(410, 390), 2), (2, |c| c.close(CONNECTOR_LOCK), 3),
            (3, |c| c.ohms(1e6), 4), (4, |c| c.volts(10.0), 5), (5, |c| c.hears(ENABLED).allowance(0), 6),
            (7, |c| c.byte(COMMAND, 0).amperes(4.0), 8), (8, |c| c.age(40), 9), (9, |c| c.volts(10.0), 10),
            (10, |c| c.open(PLUG), 0), (10, |c| c.open(PLUG).close(START_BUTTON), 0),
            (1, |c| c.close(STOP_BUTTON), 10), (2, |c| c.close(STOP_BUTTON), 8), (5, |c| c.open(PLUG), 9),
            (6, |c| c.close(STOP_BUTTON).allowance(0), 7), (6, |c| c.open(PLUG), 9), (7, |c| c.open(PLUG), 9),
            (8, |c| c.open(PLUG), 9),
            // The button alone is no start.
            (0, |c| c.close(START_BUTTON).open(PLUG), 0), (0, |c| c.close(START_BUTTON | EMERGENCY_STOP), 0),
            (10, |c| c.close(START_BUTTON), 10),
        ];
        for (row, (phase, change, to)) in rows.iter().enumerate() {
            let after = change(Case::new(*phase).energy(energy)).tick();
            assert_eq!((after.phase_and_reason().0, after.energy()), (*to, energy), "row {row}, phase {phase}");
        }
        // The tick of the start adds nothing, whatever threshold the last charge left.
        for threshold in [0, 50, 500] {
            let case = Case::new(0).number(THRESHOLD, threshold).byte(REQUEST, 255).energy(energy);
            let after = case.close(START_BUTTON).tick();
            assert_eq!((after.phase_and_reason().0, after.energy()), (1, 0));
        }
    }
}

#[test]
fn a_charge_and_the_next_one() {
    let mut state = fresh(1, 500, 125);
    // All that phases 0 to 5 wait for. The threshold is 370 V.
    let ready = LeadInput::new(CLOSED | START_BUTTON).reading(5.0, 0.0).ohms(37_000.0)
        .maximum_voltage(370).charging_time(60, 0).status(360, 255, 0, ENABLED);
    let still = LeadInput::new(CLOSED);
    let asks = |request| still.reading(350.0, 9.0).status(360, request, 0, ENABLED);
    let stop = asks(255).close(STOP_BUTTON);
    let rows = [
        (ready, AMPLE, (1, 0, 0)), (ready, AMPLE, (2, 0, 0)), (ready, AMPLE, (3, 0, 0)), (ready, AMPLE, (4, 0, 0)),
        (ready, AMPLE, (5, 0, 0)), (ready, AMPLE, (6, 2, 740)),
        (asks(255), AMPLE, (6, 4, 2_220)), (asks(255), AMPLE, (6, 6, 4_440)), (asks(255), AMPLE, (6, 8, 7_400)),
        // The car asks for less, then the allowance is short: 8 A are 2,960 watts.
        (asks(5), AMPLE, (6, 5, 9_250)), (asks(255), AMPLE, (6, 7, 11_840)), (asks(255), 2_999, (6, 8, 14_800)),
        (asks(255), AMPLE, (6, 10, 18_500)), (asks(255), AMPLE, (6, 12, 22_940)), (asks(255), AMPLE, (6, 14, 28_120)),
        (asks(255), AMPLE, (6, 16, 34_040)), (asks(255), AMPLE, (6, 18, 40_700)), (asks(255), AMPLE, (6, 20, 48_100)),
        (asks(255), AMPLE, (6, 22, 56_240)), (asks(255), AMPLE, (6, 24, 65_120)),
        // Down 10 A a tick; of 1,000 watts 2 A are left.
        (stop, AMPLE, (7, 14, 70_300)), (stop, 1_000, (7, 2, 71_040)), (stop, AMPLE, (7, 0, 71_040)),
        (stop, AMPLE, (7, 0, 71_040)),
        // Kept to the next start, however long that takes.
        (still.reading(350.0, 4.0), AMPLE, (8, 0, 71_040)), (still, AMPLE, (8, 0, 71_040)),
        (still.status(360, 0, 0, CONTACTOR_OPEN), AMPLE, (9, 0, 71_040)), (still, AMPLE, (9, 0, 71_040)),
        (still.reading(10.0, 0.0), AMPLE, (10, 0, 71_040)), (ready, AMPLE, (10, 0, 71_040)),
        (ready.open(PLUG), AMPLE, (0, 0, 71_040)), (LeadInput::new(0), AMPLE, (0, 0, 71_040)),
        (still, AMPLE, (0, 0, 71_040)),
        // The next one counts from 0, up to an urgent stop.
        (ready, AMPLE, (1, 0, 0)), (ready, AMPLE, (2, 0, 0)), (ready, AMPLE, (3, 0, 0)), (ready, AMPLE, (4, 0, 0)),
        (ready, AMPLE, (5, 0, 0)), (ready, AMPLE, (6, 2, 740)), (asks(255), AMPLE, (6, 4, 2_220)),
        (asks(255).open(CHARGE_PERMISSION), AMPLE, (9, 0, 2_220)), (still, AMPLE, (9, 0, 2_220)),
    ];
    for (row, (input, allowance, expected)) in rows.into_iter().enumerate() {
        assert_eq!(step(&mut state, allowance, input), expected, "row {row}");
    }
    // Setup throws it away.
    assert_eq!(setup(1, 500, 125, 0, 0, 0, &mut state), DONE);
    assert_eq!(count(&state, 0), 0);
}

#[test]
fn it_stops_at_its_largest_value() {
    // In 6 a tick adds 8,800, in 7 it adds 4,000.
    for (phase, watts) in [(6, 8_800), (7, 4_000)] {
        let after = |energy| Case::new(phase).energy(energy).tick().energy();
        // One short of it, exactly there, cut short by 1, by all but 1, by all.
        let left = [watts + 1, watts, watts - 1, 1, 0];
        assert_eq!(left.map(|left| after(FULL - left)), [FULL - 1, FULL, FULL, FULL, FULL]);
    }
    // There it stays, and all else goes on: 22, 24 and 26 A, then 16 and 6.
    let mut state = fresh(1, 500, 125);
    state[HEAD_BYTES..].copy_from_slice(&Case::new(6).energy(FULL - 10_000).state);
    let charging = Case::new(6).input;
    for (input, phase, command, energy) in [
        (charging, 6, 22, FULL - 1_200), (charging, 6, 24, FULL), (charging, 6, 26, FULL),
        (charging.close(STOP_BUTTON), 7, 16, FULL), (charging, 7, 6, FULL), (charging, 7, 0, FULL),
        (charging.reading(5.0, 0.0), 8, 0, FULL), (charging.open(PLUG), 9, 0, FULL),
        (charging.reading(5.0, 0.0), 10, 0, FULL), (LeadInput::new(0), 0, 0, FULL),
        (LeadInput::new(PLUG | START_BUTTON), 1, 0, 0),
    ] {
        assert_eq!(step(&mut state, AMPLE, input), (phase, command, energy));
    }
}

#[test]
fn lowest_byte_first() {
    // 8,800 is H'2260.
    for (phase, before, expected) in [
        (8, [0x11, 0x22, 0x33, 0x44, 0x55, 0x66, 0x77, 0x88], [0x11, 0x22, 0x33, 0x44, 0x55, 0x66, 0x77, 0x88]),
        (6, [0x11, 0x22, 0x33, 0x44, 0x55, 0x66, 0x77, 0x88], [0x71, 0x44, 0x33, 0x44, 0x55, 0x66, 0x77, 0x88]),
        (6, [0xFF, 0x22, 0x33, 0x44, 0x55, 0x66, 0x77, 0x88], [0x5F, 0x45, 0x33, 0x44, 0x55, 0x66, 0x77, 0x88]),
        (6, [0xA0, 0xDD, 0x33, 0x44, 0x55, 0x66, 0x77, 0x88], [0x00, 0x00, 0x34, 0x44, 0x55, 0x66, 0x77, 0x88]),
        (6, [0xFF, 0xFF, 0xFF, 0xFF, 0x55, 0x66, 0x77, 0x88], [0x5F, 0x22, 0x00, 0x00, 0x56, 0x66, 0x77, 0x88]),
        (6, [0xFF, 0xFF, 0xFF, 0xFF, 0xFF, 0xFF, 0xFF, 0x7E], [0x5F, 0x22, 0x00, 0x00, 0x00, 0x00, 0x00, 0x7F]),
        (6, [0, 0, 0, 0, 0, 0, 0, 0], [0x60, 0x22, 0, 0, 0, 0, 0, 0]),
    ] {
        let mut case = Case::new(phase);
        case.state[20..28].copy_from_slice(&before);
        let state = case.tick().state;
        assert_eq!((&state[20..28], &state[28..]), (&expected[..], &[0; 4][..]));
    }
}

#[test]
fn setup_writes_zeros() {
    for leads in 1..=4 {
        let mut state = vec![0xFF; state_bytes(leads)];
        assert_eq!(setup(leads as u32, 500, 125, 0, 0, 0, &mut state), DONE);
        (0..leads).for_each(|lead| assert_eq!(state[HEAD_BYTES + STATE_BYTES * lead..][20..28], [0; 8]));
    }
}

#[test]
fn nothing_else_depends_on_it() {
    let changes: [Change; 8] = [
        |c| c, |c| c.close(START_BUTTON), |c| c.close(STOP_BUTTON), |c| c.open(PLUG), |c| c.hears(ENABLED),
        |c| c.volts(5.0).amperes(0.0).ohms(1e6), |c| c.age(u32::MAX), |c| c.allowance(5_000),
    ];
    for (phase, change) in (0..=10).flat_map(|phase| changes.map(|change| (phase, change))) {
        let without = change(Case::new(phase)).tick();
        for energy in [1, 0xFF, 8_800, 1 << 32, 0x0102_0304_0506_0708, FULL - 1, FULL] {
            let with = change(Case::new(phase)).energy(energy).tick();
            assert_eq!(with.output, without.output);
            assert_eq!((&with.state[..20], &with.state[28..]), (&without.state[..20], &without.state[28..]));
        }
    }
}

#[test]
fn leads_count_apart() {
    // Wants of 7,500, 60,000, 0 and 7,000 watts. Of 50,000 the second gets 35,500, which carry 88 A.
    let leads = [
        Case::new(6).number(THRESHOLD, 300).voltages(300, 290).byte(COMMAND, 25).byte(REQUEST, 25).energy(1),
        Case::new(6).byte(COMMAND, 150).byte(REQUEST, 150).energy(20),
        Case::new(0).energy(300),
        Case::new(7).number(THRESHOLD, 350).byte(COMMAND, 30).energy(4_000),
    ];
    let mut state = fresh(4, 400, 150)[..HEAD_BYTES].to_vec();
    leads.iter().for_each(|lead| state.extend(lead.state));
    let shown = done(&mut state, 50_000, &leads.map(|lead| lead.input));
    assert_eq!([0, 1, 2, 3].map(|lead: usize| shown[lead][output_place::COMMAND]), [25, 88, 0, 20]);
    assert_eq!([0, 1, 2, 3].map(|lead| count(&state, lead)), [7_501, 35_220, 300, 11_000]);
}

/// 2026-01: "For every list of ticks from a fresh post, too short to reach that value, each count
/// equals the sum over the outputs since the lead's start." Refused ticks stand between them.
#[test]
fn the_sum_over_the_outputs_since_the_start() {
    let mut next = generator();
    let mut state = fresh(4, 300, 125);
    let (mut phases, mut sums) = ([0; 4], [0; 4]);
    // Ticks that added something in 6 and in 7, starts that took something away.
    let (mut charging, mut ending, mut anew) = (0, 0, 0);
    for _ in 0..20_000 {
        let inputs = [(); 4].map(|_| {
            let input = LeadInput::new(CLOSED | START_BUTTON).reading(5.0, 0.0).ohms(1e6)
                .maximum_voltage(100 + u16::from(next())).charging_time(60, 0).status(90, 25 | next(), 0, ENABLED);
            match next() {
                0..=3 => input.open(PLUG),
                4 => input.open(CHARGE_PERMISSION),
                5..=9 => input.close(STOP_BUTTON),
                _ => input,
            }
        });
        let shown = done(&mut state, u32::from(next()) * 200, &inputs);
        assert_eq!(tick(&mut state, &[], &mut []), 7);
        for (lead, shown) in shown.iter().enumerate() {
            let [phase, _, command, ..] = *shown;
            if (phases[lead], phase) == (0, 1) {
                anew += u32::from(sums[lead] > 0);
                sums[lead] = 0;
            }
            phases[lead] = phase;
            // The threshold that H'108 shows.
            let threshold = u16::from_le_bytes([shown[output_place::H108 + 4], shown[output_place::H108 + 5]]);
            let watts = u64::from(command) * u64::from(threshold);
            charging += u32::from(phase == 6 && watts > 0);
            ending += u32::from(phase == 7 && watts > 0);
            sums[lead] += watts;
            assert_eq!(count(&state, lead), sums[lead]);
        }
    }
    assert!(charging > 1_000 && ending > 100 && anew > 100, "{charging} {ending} {anew}");
}
