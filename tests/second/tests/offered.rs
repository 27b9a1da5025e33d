use super::*;
use crate::bench::run;
use crate::lead::{Input, Lead};

/// Phase, command and the amperes offered.
type Shown = (u8, u8, u8);

fn shown(output: &[u8; OUTPUT_BYTES]) -> Shown {
    (output[output_place::PHASE], output[output_place::COMMAND], output[OFFERED])
}

fn after(after: &After) -> Shown {
    shown(&after.output)
}

/// One tick of these leads in a post of 500 V and so many rated amperes.
fn post(rated: u32, leads: &[Case], allowance: u32) -> Vec<Shown> {
    let mut state = fresh(leads.len(), 500, rated)[..HEAD_BYTES].to_vec();
    leads.iter().for_each(|lead| state.extend(lead.state));
    let inputs: Vec<LeadInput> = leads.iter().map(|lead| lead.input).collect();
    done(&mut state, allowance, &inputs).iter().map(shown).collect()
}

/// A lead in phase 6 that wants so many amperes and has them already.
fn wanting(threshold: u16, amperes: u8) -> Case {
    let case = Case::new(6).number(THRESHOLD, threshold).voltages(threshold, 50);
    case.volts(40.0).amperes(0.0).byte(COMMAND, amperes).byte(REQUEST, amperes)
}

#[test]
fn the_smaller_of_rated_and_what_the_level_carries() {
    // A want of 22 A at 400 V, 8,800 watts. While it fits, the level is the allowance.
    check(after, &[
        // 125 A are 50,000 watts, 126 A 50,400: from there on the rated amperes are the smaller.
        (6, |c| c.allowance(AMPLE), (6, 22, 125)), (6, |c| c.allowance(50_401), (6, 22, 125)),
        (6, |c| c.allowance(50_400), (6, 22, 125)), (6, |c| c.allowance(50_399), (6, 22, 125)),
        (6, |c| c.allowance(50_000), (6, 22, 125)), (6, |c| c.allowance(49_999), (6, 22, 124)),
        // Rounded down: 124 A from 49,600 watts to 49,999.
        (6, |c| c.allowance(49_600), (6, 22, 124)), (6, |c| c.allowance(49_599), (6, 22, 123)),
        (6, |c| c.allowance(9_200), (6, 22, 23)), (6, |c| c.allowance(9_199), (6, 22, 22)),
        (6, |c| c.allowance(8_800), (6, 22, 22)),
        // The want no longer fits, and the command is the offer.
        (6, |c| c.allowance(8_799), (6, 21, 21)), (6, |c| c.allowance(400), (6, 1, 1)),
        (6, |c| c.allowance(399), (6, 0, 0)), (6, |c| c.allowance(1), (6, 0, 0)), (6, |c| c.allowance(0), (6, 0, 0)),
        // The kept threshold, not the maximum or target voltage nor the meter's: 37 A at 333 V are 12,321 watts.
        (6, |c| c.number(THRESHOLD, 333).voltages(400, 300).allowance(12_320), (6, 22, 36)),
        (6, |c| c.number(THRESHOLD, 333).voltages(400, 300).allowance(12_321), (6, 22, 37)),
        (6, |c| c.number(THRESHOLD, 333).voltages(400, 300).allowance(12_653), (6, 22, 37)),
        (6, |c| c.number(THRESHOLD, 333).voltages(400, 300).allowance(12_654), (6, 22, 38)),
    ]);
    // Both sides of every edge, at every threshold.
    for threshold in 50..=500 {
        let offered = |watts| {
            let after = wanting(threshold, 0).allowance(watts).tick();
            assert_eq!(after.phase_and_reason(), (6, 0));
            after.offered()
        };
        for amperes in [1, 2, 61, 62, 63, 124, 125] {
            let watts = u32::from(threshold) * u32::from(amperes);
            assert_eq!([watts - 1, watts, watts + 1].map(offered), [amperes - 1, amperes, amperes], "{threshold} V");
        }
        assert_eq!([126, 127, 300].map(|amperes| offered(u32::from(threshold) * amperes)), [125; 3]);
    }
}

#[test]
fn any_rated_amperes() {
    // At 50 V an ampere more or less is 50 watts.
    for rated in 1..=200 {
        let watts = 50 * rated;
        let after = |allowance| post(rated, &[wanting(50, 0)], allowance)[0];
        let rated = rated as u8;
        assert_eq!(after(watts - 1), (6, 0, rated - 1));
        // The quotient may be above a byte.
        for allowance in [watts, watts + 49, watts + 50, 50 * 255, 50 * 256, 50 * 257, AMPLE] {
            assert_eq!(after(allowance), (6, 0, rated));
        }
    }
}

#[test]
fn a_request_of_0_is_offered_as_much() {
    check(after, &[
        (6, |c| c.byte(REQUEST, 0).allowance(AMPLE), (6, 0, 125)),
        (6, |c| c.byte(REQUEST, 0).allowance(20_000), (6, 0, 50)),
        (6, |c| c.byte(REQUEST, 0).allowance(19_999), (6, 0, 49)), (6, |c| c.byte(REQUEST, 0).allowance(0), (6, 0, 0)),
    ]);
    // Beside a lead that can't have enough: both offer the 50 A of the level, 20,000.
    assert_eq!(post(125, &[wanting(400, 0), wanting(400, 125)], 20_000), [(6, 0, 50), (6, 50, 50)]);
}

#[test]
fn elsewhere_the_rated_amperes() {
    for allowance in [0, 1, 399, 400, 12_000, 49_999, 50_000, AMPLE] {
        for phase in [1, 2, 3, 4, 5, 7, 8, 9] {
            let after = Case::new(phase).allowance(allowance).tick();
            assert_eq!((after.phase_and_reason().0, after.offered()), (phase, 125));
        }
        // No frame is sent here, so there is no byte 3 either.
        for phase in [0, 10] {
            let after = Case::new(phase).allowance(allowance).tick();
            assert_eq!(after.output[output_place::H108..output_place::H109], [0; 8]);
        }
        // Without a threshold too, in a state handed in.
        for (phase, offered) in [(0, 0), (8, 125), (9, 125), (10, 0)] {
            let after = Case::new(phase).number(THRESHOLD, 0).allowance(allowance).tick();
            assert_eq!(shown(&after.output), (phase, 0, offered));
        }
    }
}

#[test]
fn the_phase_after_the_tick() {
    check(after, &[
        // 12,000 watts are 30 A at 400 V. The tick of the move to 6 offers them already.
        (5, |c| c.allowance(12_000), (5, 0, 125)), (5, |c| c.hears(ENABLED).allowance(12_000), (6, 2, 30)),
        (5, |c| c.hears(ENABLED).allowance(799), (6, 1, 1)), (5, |c| c.hears(ENABLED).allowance(0), (6, 0, 0)),
        (5, |c| c.hears(ENABLED), (6, 2, 125)), (6, |c| c.allowance(12_000), (6, 22, 30)),
        // That of a stop, ordinary or urgent, offers the rated amperes.
        (6, |c| c.close(STOP_BUTTON).allowance(12_000), (7, 10, 125)),
        (6, |c| c.close(STOP_BUTTON).allowance(0), (7, 0, 125)),
        (6, |c| c.open(CHARGE_PERMISSION).allowance(12_000), (9, 0, 125)), (6, |c| c.open(PLUG).allowance(0), (9, 0, 125)),
        (5, |c| c.close(STOP_BUTTON).allowance(0), (8, 0, 125)), (7, |c| c.open(PLUG).allowance(0), (9, 0, 125)),
        (7, |c| c.byte(COMMAND, 0).amperes(4.0).allowance(0), (8, 0, 125)),
        // All other moves.
        (0, |c| c.close(START_BUTTON).allowance(0), (1, 0, 125)),
        (1, |c| c.byte(SEEN, 7).byte(STATUS, ENABLED).voltages(410, 390).allowance(0), (2, 0, 125)),
        (2, |c| c.close(CONNECTOR_LOCK).allowance(0), (3, 0, 125)), (3, |c| c.ohms(1e6).allowance(0), (4, 0, 125)),
        (4, |c| c.volts(10.0).allowance(0), (5, 0, 125)), (8, |c| c.age(40).allowance(0), (9, 0, 125)),
        (1, |c| c.close(STOP_BUTTON), (10, 0, 0)), (9, |c| c.volts(10.0), (10, 0, 0)), (10, |c| c.open(PLUG), (0, 0, 0)),
    ]);
}

#[test]
fn phase_7_offers_the_rated_amperes_while_the_ramp_delivers_less() {
    check(after, &[
        (7, |c| c.byte(COMMAND, 125), (7, 115, 125)), (7, |c| c.byte(COMMAND, 11), (7, 1, 125)),
        (7, |c| c.byte(COMMAND, 10), (7, 0, 125)), (7, |c| c.byte(COMMAND, 0), (7, 0, 125)),
        // The allowance may cut the ramp: 8,000 watts are 20 A.
        (7, |c| c.byte(COMMAND, 125).allowance(8_000), (7, 20, 125)),
        (7, |c| c.byte(COMMAND, 125).allowance(0), (7, 0, 125)),
    ]);
    let mut state = fresh(1, 500, 125);
    state[HEAD_BYTES..].copy_from_slice(&wanting(400, 125).state);
    let stop = Case::new(6).input.close(STOP_BUTTON);
    for command in [115, 105, 95, 85, 75, 65, 55, 45, 35, 25, 15, 5, 0] {
        assert_eq!(shown(&done(&mut state, 46_000, &[stop])[0]), (7, command, 125));
    }
}

#[test]
fn the_posts_level_for_every_lead() {
    let (c, w) = (Case::new, wanting);
    for (rated, leads, allowance, expected) in [
        // Wants of 10,000 and 60,000 watts: the level is 40,000. Together the offers pass the allowance.
        (150, &[w(400, 25), w(400, 150)][..], 50_000, &[(6, 25, 100), (6, 100, 100)][..]),
        // Of 60,000 twice: the level is 25,000.
        (150, &[w(400, 150), w(400, 150)], 50_001, &[(6, 62, 62), (6, 62, 62)]),
        // Of 8,800 and 10,000: they fit, and the level is the allowance.
        (150, &[w(400, 22), w(400, 25)], 50_000, &[(6, 22, 125), (6, 25, 125)]),
        (150, &[w(400, 22), w(400, 25)], 18_800, &[(6, 22, 47), (6, 25, 47)]),
        // One watt less, and it is the 9,999 left to the second.
        (150, &[w(400, 22), w(400, 25)], 18_799, &[(6, 22, 24), (6, 24, 24)]),
        // 62 A and 125 A side by side: 25,000 watts at 400 V and at 200 V.
        (125, &[w(400, 125), w(200, 125)], 50_000, &[(6, 62, 62), (6, 125, 125)]),
        (125, &[w(400, 125), w(200, 125)], 49_999, &[(6, 62, 62), (6, 124, 124)]),
        (125, &[w(400, 125), w(200, 125)], 50_199, &[(6, 62, 62), (6, 125, 125)]),
        (125, &[w(400, 125), w(200, 125)], 50_200, &[(6, 63, 63), (6, 125, 125)]),
        (125, &[w(400, 125), w(200, 30)], 16_000, &[(6, 25, 25), (6, 30, 50)]),
        // Four thresholds: 31,250 watts to the last, and one watt less.
        (125, &[w(100, 125), w(200, 125), w(250, 125), w(500, 125)], 100_000,
            &[(6, 125, 125), (6, 125, 125), (6, 125, 125), (6, 62, 62)]),
        (125, &[w(100, 125), w(200, 125), w(250, 125), w(500, 125)], 99_999,
            &[(6, 125, 125), (6, 125, 125), (6, 124, 124), (6, 62, 62)]),
        // A lead in 7 has part in the level, 30,000 and 15,000, and offers the rated amperes.
        (125, &[c(7).byte(COMMAND, 60), w(400, 125)], 50_000, &[(7, 50, 125), (6, 75, 75)]),
        (125, &[c(7).byte(COMMAND, 60), w(400, 125)], 30_000, &[(7, 37, 125), (6, 37, 37)]),
        // Leads that want nothing leave the level to the others.
        (150, &[c(0), c(9), w(400, 150), c(10)], 60_000, &[(0, 0, 0), (9, 0, 150), (6, 150, 150), (10, 0, 0)]),
        (150, &[c(3), c(5), w(400, 150), c(8)], 59_999, &[(3, 0, 150), (5, 0, 150), (6, 149, 149), (8, 0, 150)]),
        // A stop or a start of the neighbour counts in this tick.
        (125, &[w(400, 125), w(400, 125).open(PLUG)], 40_000, &[(6, 100, 100), (9, 0, 125)]),
        (125, &[w(400, 125), c(5).hears(ENABLED)], 40_000, &[(6, 98, 98), (6, 2, 98)]),
        // Nothing to share.
        (125, &[w(400, 125), w(50, 0), c(7), c(1)], 0, &[(6, 0, 0), (6, 0, 0), (7, 0, 125), (1, 0, 125)]),
    ] {
        assert_eq!(post(rated, leads, allowance), expected, "{allowance} watts, {rated} A");
    }
}

/// The car on the next lead comes and goes: the offer falls when power gets short and rises again.
#[test]
fn falls_and_rises() {
    let mut state = fresh(2, 500, 125)[..HEAD_BYTES].to_vec();
    state.extend(wanting(400, 125).state);
    state.extend(Case::new(5).state);
    let asks = |request| LeadInput::new(CLOSED).reading(200.0, 10.0).status(TARGET, request, 0, ENABLED);
    let waiting = LeadInput::new(CLOSED).reading(200.0, 10.0).status(TARGET, 0, 0, ENABLED | CONTACTOR_OPEN);
    let rows = [
        (waiting, 50_000, [(6, 125, 125), (5, 0, 125)]),
        // The neighbour takes 2, 4 and 6 A, 400 watts each, and keeps 6.
        (asks(6), 50_000, [(6, 123, 123), (6, 2, 123)]), (asks(6), 50_000, [(6, 121, 121), (6, 4, 121)]),
        (asks(6), 50_000, [(6, 119, 119), (6, 6, 119)]), (asks(6), 50_000, [(6, 119, 119), (6, 6, 119)]),
        // The allowance of the very tick: down at once. Up, the ramp follows the offer.
        (asks(6), 10_000, [(6, 19, 19), (6, 6, 19)]), (asks(6), 3_999, [(6, 4, 4), (6, 4, 4)]),
        (asks(6), 0, [(6, 0, 0), (6, 0, 0)]), (asks(6), 50_000, [(6, 2, 125), (6, 2, 125)]),
        (asks(6), 4_000, [(6, 4, 10), (6, 4, 10)]), (asks(6), 4_800, [(6, 6, 12), (6, 6, 12)]),
        (asks(6), 4_800, [(6, 6, 6), (6, 6, 6)]), (asks(6), 12_000, [(6, 8, 30), (6, 6, 30)]),
        // The neighbour's car lets go.
        (asks(6).open(CHARGE_PERMISSION), 12_000, [(6, 10, 30), (9, 0, 125)]),
        (asks(6), 40_000, [(6, 12, 100), (9, 0, 125)]),
        (asks(6).reading(5.0, 0.0), 50_000, [(6, 14, 125), (10, 0, 0)]),
        (asks(6).open(PLUG), 7_999, [(6, 16, 19), (0, 0, 0)]),
        (asks(6).open(PLUG), 0, [(6, 0, 0), (0, 0, 0)]), (asks(6), AMPLE, [(6, 2, 125), (0, 0, 0)]),
    ];
    for (row, (neighbour, allowance, expected)) in rows.into_iter().enumerate() {
        let outputs = done(&mut state, allowance, &[asks(255), neighbour]);
        assert_eq!([shown(&outputs[0]), shown(&outputs[1])], expected, "row {row}");
    }
}

#[test]
fn nothing_else_depends_on_it_and_nothing_is_remembered() {
    // The want fits from 8,800 watts on.
    let least = Case::new(6).allowance(8_800).tick();
    for allowance in (8_800..60_000).step_by(77).chain([AMPLE]) {
        let mut more = Case::new(6).allowance(allowance).tick();
        assert_eq!((more.state, more.offered()), (least.state, (allowance / 400).min(125) as u8));
        more.output[OFFERED] = least.output[OFFERED];
        assert_eq!(more.output, least.output);
    }
    // All bytes of H'108, 30 A and the rated 125 A.
    let h108 = |case: Case| case.tick().output[output_place::H108..output_place::H109].to_vec();
    assert_eq!(h108(Case::new(6).allowance(12_000)), [1, 0xF4, 0x01, 30, 0x90, 0x01, 0, 0]);
    assert_eq!(h108(Case::new(7).allowance(12_000)), [1, 0xF4, 0x01, 125, 0x90, 0x01, 0, 0]);
}

#[test]
fn printed_by_the_bench() {
    // 12,000 watts; a whole start in six ticks, at 400 V.
    let input = LeadInput::new(CLOSED | START_BUTTON).reading(5.0, 0.0).ohms(40_000.0);
    let input = input.maximum_voltage(400).charging_time(60, 0).status(TARGET, 255, 0, ENABLED);
    let bytes = [&12_000u32.to_le_bytes()[..], &input.0[..]].concat();
    let line = format!("tick\t{}\n", bytes.iter().map(|byte| format!("{byte:02x}")).collect::<String>());
    let mut printed = Vec::new();
    run(format!("setup\t1\t500\t125\t00000000\t0\t0\n{}", line.repeat(6)).as_bytes(), &mut printed).unwrap();
    let printed = String::from_utf8(printed).unwrap();
    let last: Vec<&str> = printed.lines().skip(5).collect();
    assert_eq!(last, [
        "0\t0500000F0000000001F4017D900100000205000000243C00",
        "0\t0600020F0000000001F4011E900100000205000000053C00",
    ]);
}

#[test]
fn without_a_threshold() {
    // In 6 such a state is refused.
    let mut state = fresh(1, 500, 125);
    state[HEAD_BYTES..].copy_from_slice(&Case::new(6).number(THRESHOLD, 0).state);
    assert_eq!(tick(&mut state, &[0; input_bytes(1)], &mut [0; output_bytes(1)]), 6);
    // A lead put together past that check commands 0 and offers 0.
    for level in [0, 1, 12_000, AMPLE] {
        let mut lead = Lead { phase: 6, command: 20, ..Lead::FRESH };
        let mut output = [0xEE; OUTPUT_BYTES];
        lead.take(level, &RATING);
        lead.output(&Input::NOTHING, level, &RATING, &mut output);
        assert_eq!(shown(&output), (6, 0, 0));
    }
}

/// A lead before a tick, as far as its want goes; the request is the one after hearing.
#[derive(Clone, Copy, Default)]
struct Before {
    command: u8,
    request: u8,
}

/// How often it was seen.
#[derive(Debug, Default)]
struct Seen {
    in_6: u32,
    in_7: u32,
    wants_more: u32,
    below_rated: u32,
    above_command: u32,
}

/// "The largest whole number from 0 to the allowance at which the sum of the smaller of want and
/// level is at most the allowance", found by halving.
fn level(wants: &[u32], allowance: u32) -> u32 {
    let fits = |level: u64| wants.iter().map(|want| level.min(u64::from(*want))).sum::<u64>() <= allowance.into();
    let (mut fitting, mut above) = (0, u64::from(allowance) + 1);
    while above - fitting > 1 {
        let middle = (fitting + above) / 2;
        *(if fits(middle) { &mut fitting } else { &mut above }) = middle;
    }
    fitting as u32
}

/// Byte 3 of every lead by the request's sentence, then its two claims.
fn as_the_request_says(rated: u8, allowance: u32, before: &[Before], outputs: &[[u8; OUTPUT_BYTES]], seen: &mut Seen) {
    // Bytes 4 and 5 of the same frame.
    let threshold = |output: &[u8; OUTPUT_BYTES]| {
        u32::from(u16::from_le_bytes([output[OFFERED + 1], output[OFFERED + 2]]))
    };
    let wants: Vec<u8> = before.iter().zip(outputs).map(|(before, output)| match output[output_place::PHASE] {
        6 => before.request.min(rated).min(before.command + 2),
        7 => before.command.saturating_sub(10),
        _ => 0,
    }).collect();
    let watts: Vec<u32> = wants.iter().zip(outputs).map(|(want, output)| u32::from(*want) * threshold(output)).collect();
    let level = level(&watts, allowance);
    for (want, output) in wants.into_iter().zip(outputs) {
        let (phase, command, offered) = shown(output);
        let expected = match phase {
            0 | 10 => 0,
            6 => (level / threshold(output)).min(rated.into()) as u8,
            _ => rated,
        };
        assert_eq!(offered, expected, "phase {phase}, level {level}");
        // "No lead is ever commanded above its own byte 3; one in phase 6 that wants more amperes is
        // commanded exactly it."
        assert!(command <= offered);
        if phase == 6 {
            assert!(want <= offered || command == offered);
            seen.wants_more += u32::from(want > offered);
            seen.below_rated += u32::from(offered < rated);
            seen.above_command += u32::from(offered > command);
        }
        seen.in_6 += u32::from(phase == 6);
        seen.in_7 += u32::from(phase == 7 && command > 0);
    }
}

#[test]
fn every_list_of_ticks() {
    let mut next = generator();
    let mut seen = Seen::default();
    let (mut falls, mut rises) = (0, 0);
    for (leads, rated) in [(1, 125), (2, 200), (3, 16), (4, 125), (4, 60)] {
        let mut state = fresh(leads, 500, rated.into());
        let (mut before, mut earlier) = (vec![Before::default(); leads], vec![(0, 0, 0); leads]);
        let mut allowance = 0;
        for _ in 0..6_000 {
            let mut inputs = Vec::new();
            for before in &mut before {
                let input = LeadInput::new(CLOSED | START_BUTTON).reading(5.0, 0.0).ohms(1e6)
                    .maximum_voltage(50 + 2 * u16::from(next())).charging_time(60, 0);
                // Now and then the car is silent, and its last request stays.
                let input = if next() < 32 { input } else {
                    before.request = next() | next();
                    input.status(50, before.request, 0, ENABLED)
                };
                inputs.push(match next() {
                    0..=1 => input.open(PLUG),
                    2 => input.open(CHARGE_PERMISSION),
                    3..=6 => input.close(STOP_BUTTON),
                    _ => input,
                });
            }
            allowance = match next() {
                0 => 0,
                1..=4 => AMPLE,
                5..=24 => u32::from(next()) * 300,
                25..=29 => u32::from(next()) * 20,
                _ => allowance,
            };
            let outputs = done(&mut state, allowance, &inputs);
            assert_eq!(tick(&mut state, &[], &mut []), 7);
            as_the_request_says(rated, allowance, &before, &outputs, &mut seen);
            for ((before, earlier), output) in before.iter_mut().zip(&mut earlier).zip(&outputs) {
                let now = shown(output);
                falls += u32::from(earlier.0 == 6 && now.0 == 6 && now.2 < earlier.2);
                rises += u32::from(earlier.0 == 6 && now.0 == 6 && now.2 > earlier.2);
                before.command = now.1;
                *earlier = now;
            }
        }
    }
    let Seen { in_6, in_7, wants_more, below_rated, above_command } = seen;
    for times in [in_6, in_7, wants_more, below_rated, above_command, falls, rises] {
        assert!(times > 300, "{seen:?}, falls {falls}, rises {rises}");
    }
}

#[test]
fn every_good_state_handed_in() {
    let mut next = generator();
    let mut seen = Seen::default();
    for _ in 0..20_000 {
        let (rated, leads) = (1 + next() % 200, 1 + usize::from(next() % 4));
        let mut cases = Vec::new();
        for _ in 0..leads {
            let phase = [6, 6, 6, 7, 7, 5, next() % 11][usize::from(next() % 7)];
            let case = Case::new(phase).volts(5.0).byte(REQUEST, next());
            let threshold = 50 + (u16::from(next()) * 256 + u16::from(next())) % 451;
            let case = match phase {
                1 => case,
                0 | 8..=10 if next() < 128 => case.number(THRESHOLD, 0),
                _ => case.number(THRESHOLD, threshold).voltages(threshold, 50),
            };
            let case = if matches!(phase, 6 | 7) { case.byte(COMMAND, next() % (rated + 1)) } else { case };
            // The car of a lead in 5 closes its contactor or not.
            cases.push(if phase == 5 && next() < 128 { case.flip(STATUS, CONTACTOR_OPEN) } else { case });
        }
        let mut state = fresh(leads, 500, rated.into())[..HEAD_BYTES].to_vec();
        cases.iter().for_each(|case| state.extend(case.state));
        let before: Vec<Before> = cases.iter()
            .map(|case| Before { command: case.state[COMMAND], request: case.state[REQUEST] }).collect();
        let inputs: Vec<LeadInput> = cases.iter().map(|case| case.input).collect();
        let allowance = u32::from_le_bytes([0; 4].map(|_| next())) >> (12 + next() % 20);
        let outputs = done(&mut state, allowance, &inputs);
        as_the_request_says(rated, allowance, &before, &outputs, &mut seen);
    }
    let Seen { in_6, in_7, wants_more, below_rated, above_command } = seen;
    assert!([in_6, in_7, wants_more, below_rated, above_command].iter().all(|times| *times > 1_000), "{seen:?}");
}
