use super::*;
use crate::bench::run;
use crate::frames::{self, CAR_STATUS, NOT_IN_PARK, STOP_REQUEST, SYSTEM_FAULT};
use crate::inputs::car_status;
use crate::lead::switch::{FRAMES, LOCK};
use crate::lead::{reason_of_no, Decision, Input, Lead, QUESTIONS};

/// A status byte with enabled clear.
const WITHDRAWS: u8 = 0;

/// Permission opens in the tick whose H'102 has this status byte.
fn opens(phase: u8, status: u8) -> Case {
    Case::new(phase).open(CHARGE_PERMISSION).hears(status)
}

/// Phase and reason of an ordinary stop from phases 2 to 6.
fn ordinary(phase: u8, reason: u8) -> (u8, u8) {
    (if phase == 6 { 7 } else { 8 }, reason)
}

#[test]
fn each_phase() {
    for (phase, recorded) in (0..=10).flat_map(|phase| [0, 13, 14, 23, 26].map(|recorded| (phase, recorded))) {
        let with = |status| opens(phase, status).byte(REASON, recorded).tick().phase_and_reason();
        // In 1 and 8 permission is not asked about. In 7 it is, and the reason recorded first remains.
        let (withdraws, enabled) = match phase {
            2..=6 => ((9, 23), (9, 14)),
            7 => ((9, recorded), (9, recorded)),
            _ => ((phase, recorded), (phase, recorded)),
        };
        assert_eq!((with(WITHDRAWS), with(ENABLED)), (withdraws, enabled), "phase {phase}, reason {recorded} before");
    }
    check(After::phase_and_reason, &[
        // The phase in which the tick began decides, with a move open beside it.
        (2, |c| c.close(CONNECTOR_LOCK).open(CHARGE_PERMISSION).hears(WITHDRAWS), (9, 23)),
        (5, |c| c.open(CHARGE_PERMISSION).hears(WITHDRAWS), (9, 23)),
        (7, |c| c.byte(COMMAND, 0).amperes(0.0).open(CHARGE_PERMISSION).hears(WITHDRAWS), (9, 0)),
        (8, |c| c.age(40).open(CHARGE_PERMISSION).hears(WITHDRAWS), (9, 0)),
        (8, |c| c.open(CHARGE_PERMISSION).hears(CONTACTOR_OPEN), (9, 0)),
        // In 1 the lead waits, with all else there for the move to 2, or stops by another question.
        (1, |c| c.byte(SEEN, 7).voltages(410, 390).byte(STATUS, ENABLED).open(CHARGE_PERMISSION).hears(WITHDRAWS), (1, 0)),
        (1, |c| c.close(STOP_BUTTON).open(CHARGE_PERMISSION).hears(WITHDRAWS), (10, 26)),
        (1, |c| c.open(PLUG | CHARGE_PERMISSION).hears(WITHDRAWS), (10, 12)),
    ]);
}

#[test]
fn permission_closed_is_an_ordinary_stop() {
    for phase in 2..=6 {
        let case = Case::new(phase).hears(WITHDRAWS);
        assert_eq!(case.tick().phase_and_reason(), ordinary(phase, 23));
        assert_eq!(case.open(CHARGE_PERMISSION).tick().phase_and_reason(), (9, 23));
    }
    // With current flowing it ramps. When permission opens later, in 7, the reason is the one recorded.
    let mut state = fresh(1, 500, 125);
    state[HEAD_BYTES..].copy_from_slice(&Case::new(6).byte(COMMAND, 25).state);
    let says = Case::new(6).hears(WITHDRAWS).input;
    for (input, expected) in [
        (says, [7, 23, 15]), (says, [7, 23, 5]), (says.open(CHARGE_PERMISSION), [9, 23, 0]), (says, [9, 23, 0]),
    ] {
        assert_eq!(done(&mut state, AMPLE, &[input])[0][..3], expected);
    }
}

#[test]
fn every_status_byte() {
    for (phase, status) in (2..=6).flat_map(|phase| (0..=255).map(move |status| (phase, status))) {
        let reason = if status & 1 == 0 { 23 } else { 14 };
        assert_eq!(opens(phase, status).tick().phase_and_reason(), (9, reason), "{status:02X} in phase {phase}");
        // No other byte of the frame is asked.
        let full = |data: u8| [data, data, data, data, data, status, data, data];
        for data in [0, 0xFF] {
            let case = Case::new(phase).open(CHARGE_PERMISSION).input(|i| i.frame(0x102, 8, full(data)));
            assert_eq!(case.tick().phase_and_reason(), (9, reason));
        }
    }
}

/// Frames of a tick, with the enabled bit of the H'102 that counts, if one does.
const FRAMES_OF_A_TICK: &[(fn(LeadInput) -> LeadInput, Option<bool>)] = &[
    (|i| i, None),
    (clear, Some(false)), (set, Some(true)),
    // The last counts.
    (|i| set(clear(i)), Some(true)), (|i| clear(set(i)), Some(false)),
    (|i| set(clear(set(i))), Some(true)), (|i| clear(set(clear(i))), Some(false)),
    (|i| clear(clear(i)), Some(false)), (|i| set(set(i)), Some(true)),
    // Of length 8, alone and behind one that counts.
    (|i| other(i, CAR_STATUS, 7, 0), None), (|i| other(i, CAR_STATUS, 9, 0), None),
    (|i| other(i, CAR_STATUS, 0, 0), None), (|i| other(i, CAR_STATUS, 255, 0), None),
    (|i| other(set(i), CAR_STATUS, 7, 0), Some(true)), (|i| other(clear(i), CAR_STATUS, 9, ENABLED), Some(false)),
    (|i| set(other(i, CAR_STATUS, 7, 0)), Some(true)), (|i| clear(other(i, CAR_STATUS, 9, ENABLED)), Some(false)),
    // Within the count.
    (|i| clear(i).count(0), None), (|i| clear(set(i)).count(1), Some(true)), (|i| set(clear(i)).count(1), Some(false)),
    (|i| clear(set(i)).count(2), Some(false)), (|i| clear(seven_of(set(i))).count(7), Some(true)),
    (|i| clear(seven_of(set(i))), Some(false)), (|i| set(seven_of(clear(i))).count(7), Some(false)),
    (|i| set(seven_of(clear(i))), Some(true)), (|i| clear(seven_of(i)), Some(false)),
    // Of identifier H'102.
    (|i| other(i, 0x100, 8, 0), None), (|i| other(i, 0x101, 8, 0), None), (|i| other(i, 0x103, 8, 0), None),
    (|i| other(i, 0x108, 8, 0), None), (|i| other(i, 0x8102, 8, 0), None), (|i| other(i, 0x0201, 8, 0), None),
    (|i| other(i, 0x002, 8, 0), None), (|i| other(set(i), 0x101, 8, 0), Some(true)),
    (|i| other(clear(i), 0x8102, 8, ENABLED), Some(false)), (|i| other(clear(i), 0x100, 8, ENABLED), Some(false)),
];

fn clear(input: LeadInput) -> LeadInput { other(input, CAR_STATUS, 8, WITHDRAWS) }
fn set(input: LeadInput) -> LeadInput { other(input, CAR_STATUS, 8, ENABLED) }
fn other(input: LeadInput, identifier: u16, length: u8, status: u8) -> LeadInput {
    input.frame(identifier, length, car_status(TARGET, ASKED, 0, status))
}
/// Frames of no meaning behind those there are, up to seven.
fn seven_of(mut input: LeadInput) -> LeadInput {
    while input.0[input_place::COUNT] < 7 {
        input = other(input, 0x7FF, 8, 0);
    }
    input
}

#[test]
fn the_frame_that_counts() {
    for (row, (frames, counts)) in FRAMES_OF_A_TICK.iter().enumerate() {
        let withdraws = *counts == Some(false);
        let input = frames(Case::new(6).input);
        assert_eq!(frames::hear(Input::read(&input.0, &RATING).unwrap().frames).withdraws(), withdraws, "row {row}");
        for (phase, remembered) in (2..=6).flat_map(|phase| [(phase, ENABLED), (phase, WITHDRAWS)]) {
            // What is remembered takes part in question 23 only.
            let case = Case::new(phase).byte(STATUS, remembered).input(frames);
            let after = case.open(CHARGE_PERMISSION).tick();
            assert_eq!(after.phase_and_reason(), (9, if withdraws { 23 } else { 14 }), "row {row}, phase {phase}");
            let enabled = counts.unwrap_or(remembered == ENABLED);
            assert_eq!(after.state[STATUS], u8::from(enabled));
            let (to, reason) = case.tick().phase_and_reason();
            assert_eq!(reason == 0, enabled, "row {row}, phase {phase}");
            assert!(enabled || (to, reason) == ordinary(phase, 23));
        }
    }
}

#[test]
fn questions_11_to_13_come_first() {
    let rows: [(u8, Change); 7] = [
        (11, |c| c.close(EMERGENCY_STOP)), (12, |c| c.open(PLUG)), (13, |c| c.close(GROUND_FAULT)),
        (11, |c| c.close(EMERGENCY_STOP).open(PLUG)), (11, |c| c.close(EMERGENCY_STOP | GROUND_FAULT)),
        (12, |c| c.open(PLUG).close(GROUND_FAULT)), (11, |c| c.close(EMERGENCY_STOP | GROUND_FAULT).open(PLUG)),
    ];
    for ((number, no), phase) in rows.into_iter().flat_map(|row| (1..=8).map(move |phase| (row, phase))) {
        for case in [opens(phase, WITHDRAWS), opens(phase, ENABLED), Case::new(phase).hears(WITHDRAWS)] {
            let expected = match phase {
                1 => (10, number),
                7 | 8 => (9, 26),
                _ => (9, number),
            };
            assert_eq!(no(case.byte(REASON, 26)).tick().phase_and_reason(), expected, "{number} in phase {phase}");
        }
    }
}

/// A no of each question after 14 in a tick that hears an H'102 with this status byte. Silence is then
/// 0, so that 19 gets a yes however long it was.
const BESIDE: &[(u8, fn(Case, u8) -> Case)] = &[
    (15, |c, status| c.missing(present::VOLTS).hears(status)), (15, |c, status| c.missing(present::AMPERES).hears(status)),
    (15, |c, status| c.volts(f32::NAN).hears(status)), (15, |c, status| c.amperes(-1.0).hears(status)),
    (16, |c, status| c.volts(400.25).hears(status)), (17, |c, status| c.amperes(127.75).hears(status)),
    (18, |c, status| c.open(CONNECTOR_LOCK).hears(status)),
    (20, |c, status| c.input(|i| i.status(TARGET, ASKED, 1 << 4, status))), (20, |c, status| c.hears(status | SYSTEM_FAULT)),
    (21, |c, status| c.input(|i| i.status(401, ASKED, 0, status))), (21, |c, status| c.input(|i| i.status(49, 0, 0, status))),
    (21, |c, status| c.number(MAXIMUM_VOLTAGE, 49).hears(status)),
    (22, |c, status| c.hears(status | NOT_IN_PARK)), (24, |c, status| c.hears(status | STOP_REQUEST)),
    (25, |c, status| c.hears(status | CONTACTOR_OPEN)), (26, |c, status| c.close(STOP_BUTTON).hears(status)),
    (27, |c, status| c.ohms(39_999.0).hears(status)), (28, |c, status| c.age(150).hears(status)),
    (29, |c, status| c.time(0, 0).hears(status)),
];

#[test]
fn the_questions_after_14_do_not_matter() {
    for ((number, beside), phase) in BESIDE.iter().flat_map(|row| (2..=6).map(move |phase| (row, phase))) {
        let with = |status| beside(Case::new(phase), status);
        let open = |status| with(status).open(CHARGE_PERMISSION).tick().phase_and_reason();
        assert_eq!((open(WITHDRAWS), open(ENABLED)), ((9, 23), (9, 14)), "{number} in phase {phase}");
        // With permission closed it is indeed a no, and an urgent one or one before 23 is the stop.
        let question = QUESTIONS.iter().find(|question| question.number == *number).unwrap();
        if (question.first..=question.last).contains(&phase) {
            let stop = if question.urgent { (9, *number) } else { ordinary(phase, *number) };
            assert_eq!(with(ENABLED).tick().phase_and_reason(), stop, "{number} in phase {phase}");
            let first = if *number < 23 { stop } else { ordinary(phase, 23) };
            assert_eq!(with(WITHDRAWS).tick().phase_and_reason(), first, "{number} in phase {phase}");
        }
    }
    for phase in 2..=6 {
        for silence in [0, 8, 9, 254, 255] {
            let case = Case::new(phase).byte(SILENCE, silence);
            let after = case.open(CHARGE_PERMISSION).hears(WITHDRAWS).tick();
            assert_eq!((after.phase_and_reason(), after.state[SILENCE]), ((9, 23), 0));
            assert_eq!(case.byte(STATUS, WITHDRAWS).open(CHARGE_PERMISSION).tick().phase_and_reason(), (9, 14));
        }
        // All at once.
        let all = BESIDE.iter().fold(Case::new(phase), |case, (_, beside)| beside(case, WITHDRAWS).input(|i| i.count(0)));
        let frame = |status: u8| [0, 0, 0, 0, 0x1F, status, 0, 0];
        let with = |status| all.open(CHARGE_PERMISSION).input(|i| i.frame(0x102, 8, frame(status))).tick().phase_and_reason();
        assert_eq!((with(0xFE), with(0xFF)), ((9, 23), (9, 14)));
    }
}

#[test]
fn an_urgent_stop_from_phase_6() {
    // 60 A flow. All bytes: command 0 at once, d1 and d2 off, lock and frames on, lock contact and "stop
    // control" the only flags, no remaining time, the rated amperes offered, no energy added.
    let before = Case::new(6).byte(COMMAND, 60).age(70).energy(77).byte(SILENCE, 3).amperes(60.0).allowance(30_000);
    let after = before.open(CHARGE_PERMISSION).hears(WITHDRAWS).tick();
    assert_eq!(after.output, [
        9, 23, 0, LOCK | FRAMES, 0, 0, 0, 0, 1, 0xF4, 0x01, 125, 0x90, 0x01, 0, 0, 2, 200, 0, 60, 0, 0b100100, 0, 0,
    ]);
    let state = before.byte(PHASE, 9).byte(REASON, 23).byte(COMMAND, 0).byte(STATUS, WITHDRAWS).byte(SILENCE, 0).age(0);
    assert_eq!(after.state, state.state);
    // There it stays, whatever the car says next.
    for status in [WITHDRAWS, ENABLED] {
        let next = Case { state: after.state, ..Case::new(9) }.hears(status).tick();
        assert_eq!((next.phase_and_reason(), next.command(), next.age()), ((9, 23), 0, 1));
    }
}

/// The same tick with enabled set stops with 14. No other byte may differ, but for the bit remembered.
#[test]
fn nothing_else_changes() {
    let mut next = generator();
    for _ in 0..20_000 {
        let phase = 2 + next() % 5;
        let mut case = Case::new(phase).allowance(u32::from_le_bytes([0; 4].map(|_| next())) >> 12);
        case.state[REQUEST..SEEN].fill_with(&mut next);
        case.state[MAXIMUM_VOLTAGE..SPARE].fill_with(&mut next);
        case.input.0[input_place::FRAMES..].fill_with(&mut next);
        case = case.volts(f32::from(next()) * 5.0).amperes(f32::from(next())).missing(next() & 1);
        case = case.byte(REASON, 11 + next() % 19).close(next() & (STOP_BUTTON | START_BUTTON)).open(next() & CONNECTOR_LOCK);
        // The frame stands somewhere among others.
        let (at, data) = (next() % 8, [(); 8].map(|_| next()));
        let with = |status: u8| {
            let mut case = case.open(CHARGE_PERMISSION).input(|i| i.count(at + 1));
            case.input.record(at.into(), CAR_STATUS, 8, data);
            case.input.0[input_place::FRAMES + 11 * usize::from(at) + 8] = data[5] & !ENABLED | status;
            // A neighbour that shares the allowance.
            let mut state = fresh(2, 500, 125)[..HEAD_BYTES].to_vec();
            state.extend([case.state, Case::new(6).state].concat());
            let outputs = done(&mut state, case.allowance, &[case.input, Case::new(6).input]);
            (state, outputs)
        };
        let ((mut state, mut outputs), (enabled_state, enabled_outputs)) = (with(WITHDRAWS), with(ENABLED));
        assert_eq!((&outputs[0][..3], &enabled_outputs[0][..3]), (&[9, 23, 0][..], &[9, 14, 0][..]));
        assert_eq!((state[HEAD_BYTES + REASON], state[HEAD_BYTES + STATUS]), (23, data[5] & !ENABLED));
        state[HEAD_BYTES + REASON] = 14;
        state[HEAD_BYTES + STATUS] |= ENABLED;
        outputs[0][output_place::REASON] = 14;
        assert_eq!((state, outputs), (enabled_state, enabled_outputs));
    }
}

#[test]
fn the_kind_is_that_of_the_question() {
    for (question, phase) in QUESTIONS.iter().flat_map(|question| (0..=10).map(move |phase| (question.number, phase))) {
        let withdrawn = if question == 14 && (2..=6).contains(&phase) { 23 } else { question };
        assert_eq!([false, true].map(|withdraws| reason_of_no(question, phase, withdraws)), [question, withdrawn]);
    }
    for (case, question, urgent, to) in [(opens(6, WITHDRAWS), 14, true, 9), (Case::new(6).hears(WITHDRAWS), 23, false, 7)] {
        let mut lead = Lead::read(&case.state, &RATING).unwrap();
        let decision = lead.advance(&Input::read(&case.input.0, &RATING).unwrap(), &RATING);
        assert_eq!(decision, Decision::Stopped { question, urgent, from: 6, to });
        assert_eq!((lead.phase, lead.reason), (to, 23));
    }
}

/// All that phases 0 to 5 wait for, without an H'102.
fn ready() -> LeadInput {
    LeadInput::new(CLOSED | START_BUTTON).reading(5.0, 0.0).ohms(1e6).maximum_voltage(400).charging_time(60, 0)
}

#[test]
fn sessions() {
    let (charging, lets_go) = (set(ready()), ready().open(CHARGE_PERMISSION));
    for (ticks, last, reason) in [
        // The wire and the frame in one tick, in each of phases 2 to 6: straight to 9.
        (2, &[(clear(lets_go), 9, 0)][..], 23), (3, &[(clear(lets_go), 9, 0)], 23),
        (4, &[(clear(lets_go), 9, 0)], 23), (5, &[(clear(lets_go), 9, 0)], 23),
        (6, &[(clear(lets_go), 9, 0)], 23), (30, &[(clear(lets_go), 9, 0)], 23),
        (30, &[(clear(set(lets_go)), 9, 0)], 23),
        // The wire alone, with a frame that doesn't withdraw or with one that comes a tick later.
        (30, &[(lets_go, 9, 0)], 14), (30, &[(set(lets_go), 9, 0)], 14),
        (30, &[(set(clear(lets_go)), 9, 0)], 14),
        (30, &[(lets_go.reading(200.0, 0.0), 9, 0), (clear(lets_go).reading(200.0, 0.0), 9, 0)], 14),
        // The frame first, the wire a tick later: a ramp, then an urgent stop in 7.
        (30, &[(clear(ready()), 7, 40), (clear(ready()), 7, 30), (clear(lets_go), 9, 0)], 23),
        (30, &[(charging.close(STOP_BUTTON), 7, 40), (clear(lets_go), 9, 0)], 26),
        // In 1 the car may do both and still charge later.
        (1, &[(clear(lets_go), 1, 0), (charging, 2, 0), (charging.open(PLUG), 9, 0)], 12),
        (1, &[(clear(lets_go), 1, 0), (charging, 2, 0), (clear(lets_go), 9, 0)], 23),
    ] {
        let mut state = fresh(1, 500, 125);
        // Twice, as the second start finds what the first session left.
        for _ in 0..2 {
            for tick in 1..=ticks {
                let command = if tick < 6 { 0 } else { (2 * (tick - 5)).min(ASKED) };
                assert_eq!(done(&mut state, AMPLE, &[charging])[0][..3], [tick.min(6), 0, command]);
            }
            for (input, phase, command) in last {
                let shown = if matches!(phase, 1 | 2) { 0 } else { reason };
                assert_eq!(done(&mut state, AMPLE, &[*input])[0][..3], [*phase, shown, *command]);
            }
            for (input, phase) in [(charging, 10), (charging.open(PLUG), 0)] {
                assert_eq!(done(&mut state, AMPLE, &[input])[0][..3], [phase, reason, 0]);
            }
        }
    }
}

#[test]
fn printed_by_the_bench() {
    let line = |input: LeadInput| format!("tick\t00000000{}\n", input.0.map(|byte| format!("{byte:02x}")).concat());
    let start = line(set(ready())).repeat(6);
    for (last, expected) in [
        (clear(ready().open(CHARGE_PERMISSION)), "0\t0917000C0000000001F4017D900100000205000000240000"),
        (set(ready().open(CHARGE_PERMISSION)), "0\t090E000C0000000001F4017D900100000205000000240000"),
        (clear(ready()), "0\t0717000F0000000001F4017D900100000205000000250000"),
    ] {
        let mut printed = Vec::new();
        run(format!("setup\t1\t500\t125\t00000000\t0\t0\n{start}{}", line(last)).as_bytes(), &mut printed).unwrap();
        assert_eq!(String::from_utf8(printed).unwrap().lines().last(), Some(expected));
    }
}

/// The request's sentence, over lists of ticks from a fresh post.
#[test]
fn every_list_of_ticks() {
    let mut next = generator();
    let mut state = fresh(3, 500, 125);
    let mut phases = [0; 3];
    // Stops by 23 as urgent, by 14, by 23 as ordinary.
    let mut seen = [0; 3];
    for _ in 0..30_000 {
        let (mut inputs, mut counts) = (Vec::new(), Vec::new());
        for _ in 0..3 {
            let trouble = match next() { 0 => EMERGENCY_STOP, 1 => GROUND_FAULT, 2..=3 => STOP_BUTTON, _ => 0 };
            let open = match next() { 0..=2 => PLUG, 3..=14 => CHARGE_PERMISSION, 15 => CONNECTOR_LOCK, _ => 0 };
            let mut input = ready().close(trouble).open(open);
            let mut counted = None;
            for _ in 0..next() % 4 {
                let enabled = next() > if open == CHARGE_PERMISSION { 128 } else { 4 };
                input = if enabled { set(input) } else { clear(input) };
                counted = Some(enabled);
            }
            inputs.push(input);
            // Of questions 11 to 14, 14 alone gets a no.
            counts.push((open == CHARGE_PERMISSION && matches!(trouble, 0 | STOP_BUTTON), counted));
        }
        let outputs = done(&mut state, 20_000, &inputs);
        for ((phase, output), (only_14, counted)) in phases.iter_mut().zip(&outputs).zip(counts) {
            let [to, reason, command, ..] = *output;
            if (2..=6).contains(phase) && only_14 {
                assert_eq!((to, reason, command), (9, if counted == Some(false) { 23 } else { 14 }, 0));
                seen[usize::from(reason == 14)] += 1;
            } else if (2..=6).contains(phase) && reason == 23 {
                assert_eq!((to, reason), ordinary(*phase, 23));
                seen[2] += 1;
            }
            *phase = to;
        }
    }
    assert!(seen.iter().all(|times| *times > 100), "{seen:?}");
}
