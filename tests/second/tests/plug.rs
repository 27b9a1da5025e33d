use super::{generator, Case, PLUG, START_BUTTON};
use crate::bench::run;
use crate::plug::*;

const FILL: u8 = 0xA5;

/// One value of each kind; the last is refused.
const LOWEST: u32 = 4_000;
const GAP: u32 = 5_000;
const MIDDLE: u32 = 6_000;
const TWELVE_VOLTS: u32 = 12_000;
const REFUSED: u32 = 20_001;

/// Values above 20,000. Cut to fewer bits, most of them would be accepted.
const NOT_ACCEPTED: [u32; 16] = [
    20_001, 20_002, 24_000, 32_767, 32_768, 36_768, 38_768, 65_535, 65_536, 69_536, 71_536, 1 << 31, (1 << 31) + 4_000,
    (1 << 31) + 6_000, u32::MAX - 1, u32::MAX,
];

/// A call on copies of these bytes: its answer, then state and plug as it leaves them.
fn call(state: &[u8], millivolts: u32, plug: &[u8]) -> (u32, Vec<u8>, Vec<u8>) {
    let (mut state, mut plug) = (state.to_vec(), plug.to_vec());
    let answer = plug_sense(&mut state, millivolts, &mut plug);
    (answer, state, plug)
}

/// A call that is done: the plug and the next state. The plug holds something already.
fn done(state: u8, millivolts: u32) -> (u8, u8) {
    let (answer, state, plug) = call(&[state], millivolts, &[FILL]);
    assert_eq!((answer, state.len(), plug.len()), (0, 1, 1));
    (plug[0], state[0])
}

/// The bit and the next bool by the rule, as bytes.
fn by_value(was_lowest: bool, millivolts: u32) -> (u8, u8) {
    let Sensed { closed, lowest } = sense(was_lowest, millivolts);
    (closed.into(), lowest.into())
}

/// The answers to a list from a fresh state: 1 for closed, 0 for open, or the refusal.
fn answers(values: &[u32]) -> Vec<u32> {
    let mut state = FRESH;
    let answer = |&millivolts: &u32| {
        let mut plug = [FILL];
        let refusal = plug_sense(&mut state, millivolts, &mut plug);
        if refusal == 0 { plug[0].into() } else { refusal }
    };
    values.iter().map(answer).collect()
}

#[test]
fn ranges_and_numbers() {
    assert_eq!([U1A_MIN, U1A_MAX, U1B_MIN, U1B_MAX, U1C_MIN, U1C_MAX], [11_200, 12_800, 5_200, 6_800, 3_200, 4_800]);
    assert_eq!([U1A, U1B, U1C], [11_200..=12_800, 5_200..=6_800, 3_200..=4_800]);
    assert_eq!(MOST_MILLIVOLTS, 20_000);
    assert_eq!((STATE_BYTES, FRESH, AFTER_LOWEST, PLUG_BYTES, OPEN, CLOSED), (1, [0], [1], 1, [0], [1]));
    assert_eq!([DONE, REFUSED_STATE, REFUSED_PLUG_LENGTH, REFUSED_MILLIVOLTS], [0, 6, 8, 31]);
    assert_eq!(PLUG_SENSE_REFUSALS, [31, 6, 8]);
}

// ---------------------------------------------------------------------------
// One value

/// The bit and the next bool, after a bool false and after a bool true.
type Answers = [(u8, u8); 2];

const IN_LOWEST: Answers = [(1, 1), (1, 1)];
const IN_MIDDLE: Answers = [(0, 0), (1, 0)];
const ELSEWHERE: Answers = [(0, 0), (0, 0)];

#[test]
fn every_edge_from_both_sides() {
    for (millivolts, expected) in [
        (0, ELSEWHERE), (1, ELSEWHERE), (255, ELSEWHERE), (256, ELSEWHERE), (1_600, ELSEWHERE),
        (3_198, ELSEWHERE), (3_199, ELSEWHERE), (3_200, IN_LOWEST), (3_201, IN_LOWEST), (4_000, IN_LOWEST),
        (4_799, IN_LOWEST), (4_800, IN_LOWEST), (4_801, ELSEWHERE), (4_802, ELSEWHERE), (5_000, ELSEWHERE),
        (5_198, ELSEWHERE), (5_199, ELSEWHERE), (5_200, IN_MIDDLE), (5_201, IN_MIDDLE), (6_000, IN_MIDDLE),
        (6_799, IN_MIDDLE), (6_800, IN_MIDDLE), (6_801, ELSEWHERE), (6_802, ELSEWHERE), (9_000, ELSEWHERE),
        (11_199, ELSEWHERE), (11_200, ELSEWHERE), (11_201, ELSEWHERE), (12_000, ELSEWHERE), (12_799, ELSEWHERE),
        (12_800, ELSEWHERE), (12_801, ELSEWHERE), (16_000, ELSEWHERE), (19_999, ELSEWHERE), (20_000, ELSEWHERE),
    ] {
        assert_eq!([false, true].map(|bool| by_value(bool, millivolts)), expected, "{millivolts}");
        assert_eq!([0, 1].map(|state| done(state, millivolts)), expected, "{millivolts}");
    }
}

/// "The lowest range is closed. The middle range is closed only in the tick just after the lowest. All
/// else is open."
#[test]
fn every_value_that_is_accepted() {
    let (mut in_lowest, mut in_middle) = (0, 0);
    for millivolts in 0..=20_000 {
        let expected = match millivolts {
            3_200..=4_800 => IN_LOWEST,
            5_200..=6_800 => IN_MIDDLE,
            _ => ELSEWHERE,
        };
        assert_eq!([false, true].map(|bool| by_value(bool, millivolts)), expected, "{millivolts}");
        assert_eq!([0, 1].map(|state| done(state, millivolts)), expected, "{millivolts}");
        in_lowest += u32::from(expected == IN_LOWEST);
        in_middle += u32::from(expected == IN_MIDDLE);
    }
    // Both ends of both ranges are counted.
    assert_eq!((in_lowest, in_middle), (1_601, 1_601));
}

/// The rule still says open for them. The entry leaves them out: neither bit nor bool comes of them.
#[test]
fn a_value_above_20_000() {
    for millivolts in NOT_ACCEPTED {
        assert_eq!([false, true].map(|bool| by_value(bool, millivolts)), ELSEWHERE, "{millivolts}");
        for state in [0, 1] {
            assert_eq!(call(&[state], millivolts, &[FILL]), (31, vec![state], vec![FILL]), "{millivolts}");
        }
    }
    assert_eq!([0, 1].map(|state| done(state, 20_000)), ELSEWHERE);
}

/// Whatever the plug held before, one of two bytes is written.
#[test]
fn the_plug_is_written_whole() {
    for before in 0..=255 {
        for (state, millivolts, plug, next) in [
            (0, LOWEST, 1, 1), (1, LOWEST, 1, 1), (0, MIDDLE, 0, 0), (1, MIDDLE, 1, 0), (0, GAP, 0, 0), (1, GAP, 0, 0),
            (0, TWELVE_VOLTS, 0, 0), (1, TWELVE_VOLTS, 0, 0),
        ] {
            assert_eq!(call(&[state], millivolts, &[before]), (0, vec![next], vec![plug]));
        }
    }
}

// ---------------------------------------------------------------------------
// Lists of values

#[test]
fn lists() {
    for (values, expected) in [
        (&[][..], &[][..]),
        // The bool is not the last bit given: a second middle value in a row is open, and so is a third.
        (&[LOWEST, MIDDLE, MIDDLE], &[1, 1, 0]), (&[LOWEST, MIDDLE, MIDDLE, MIDDLE], &[1, 1, 0, 0]),
        (&[LOWEST, LOWEST, MIDDLE, MIDDLE], &[1, 1, 1, 0]), (&[LOWEST, MIDDLE, LOWEST, MIDDLE], &[1, 1, 1, 1]),
        (&[LOWEST, MIDDLE, MIDDLE, LOWEST, MIDDLE], &[1, 1, 0, 1, 1]), (&[LOWEST, 5_200, 6_800], &[1, 1, 0]),
        (&[3_200, 6_800, 5_200], &[1, 1, 0]), (&[4_800, 5_200, 4_800, 6_800], &[1, 1, 1, 1]),
        // Refused values are left out, however many, and also before the first.
        (&[LOWEST, REFUSED, MIDDLE], &[1, 31, 1]), (&[LOWEST, REFUSED, REFUSED, MIDDLE, MIDDLE], &[1, 31, 31, 1, 0]),
        (&[LOWEST, u32::MAX, MIDDLE], &[1, 31, 1]), (&[LOWEST, 65_536 + GAP, MIDDLE], &[1, 31, 1]),
        (&[LOWEST, MIDDLE, REFUSED, MIDDLE], &[1, 1, 31, 0]), (&[REFUSED, MIDDLE], &[31, 0]),
        (&[REFUSED, LOWEST, MIDDLE], &[31, 1, 1]), (&[65_536 + LOWEST, MIDDLE], &[31, 0]),
        // Gaps and the 12 V range are open and clear the bool.
        (&[LOWEST, GAP, MIDDLE], &[1, 0, 0]), (&[LOWEST, 4_801, 5_200], &[1, 0, 0]), (&[LOWEST, 5_199, 5_200], &[1, 0, 0]),
        (&[LOWEST, 6_801, 6_800], &[1, 0, 0]), (&[LOWEST, 11_199, MIDDLE], &[1, 0, 0]), (&[LOWEST, 3_199, MIDDLE], &[1, 0, 0]),
        (&[LOWEST, 0, MIDDLE], &[1, 0, 0]), (&[LOWEST, 12_801, MIDDLE], &[1, 0, 0]),
        (&[LOWEST, TWELVE_VOLTS, MIDDLE], &[1, 0, 0]), (&[LOWEST, 11_200, MIDDLE], &[1, 0, 0]),
        (&[LOWEST, 12_800, MIDDLE], &[1, 0, 0]), (&[LOWEST, MIDDLE, TWELVE_VOLTS, MIDDLE], &[1, 1, 0, 0]),
        (&[LOWEST, GAP, LOWEST, MIDDLE], &[1, 0, 1, 1]), (&[LOWEST, GAP, REFUSED, MIDDLE], &[1, 0, 31, 0]),
        // 20,000 is accepted, so that it is no longer just after the lowest; 20,001 is not.
        (&[LOWEST, 20_000, MIDDLE], &[1, 0, 0]), (&[LOWEST, 20_001, MIDDLE], &[1, 31, 1]),
        // "False at first": the first value ever in the middle range is open, and makes none after it closed.
        (&[MIDDLE], &[0]), (&[MIDDLE, MIDDLE], &[0, 0]), (&[MIDDLE, LOWEST, MIDDLE], &[0, 1, 1]), (&[5_200], &[0]),
        (&[6_800], &[0]), (&[LOWEST], &[1]), (&[GAP, MIDDLE], &[0, 0]), (&[TWELVE_VOLTS, MIDDLE, LOWEST], &[0, 0, 1]),
    ] {
        assert_eq!(answers(values), expected, "{values:?}");
    }
}

/// The value of a call refused for its plug is left out too, whichever it is.
#[test]
fn a_value_refused_for_its_plug_is_left_out() {
    for millivolts in [LOWEST, GAP, MIDDLE, TWELVE_VOLTS, 0, 20_000, REFUSED] {
        for plug in [&[][..], &[FILL; 2], &[FILL; 3]] {
            for (first, bit, second) in [(LOWEST, 1, 1), (MIDDLE, 0, 0), (GAP, 0, 0)] {
                let (answer, state, written) = call(&FRESH, first, &[FILL]);
                assert_eq!((answer, &written[..]), (0, &[bit][..]));
                let refusal = if millivolts == REFUSED { 31 } else { 8 };
                assert_eq!(call(&state, millivolts, plug), (refusal, state.clone(), plug.to_vec()));
                assert_eq!(call(&state, MIDDLE, &[FILL]), (0, vec![0], vec![second]));
            }
        }
    }
}

/// The claim, said over the values alone: closed exactly when the value lies in the lowest range, or in
/// the middle one with the last accepted value before it in the lowest.
fn closed(before: &[u32], millivolts: u32) -> bool {
    let lowest = |millivolts: u32| (3_200..=4_800).contains(&millivolts);
    let middle = |millivolts: u32| (5_200..=6_800).contains(&millivolts);
    let accepted = before.iter().rfind(|&&millivolts| millivolts <= 20_000);
    lowest(millivolts) || middle(millivolts) && accepted.is_some_and(|&last| lowest(last))
}

/// "Over every list of values, refused ones left out, the bit is closed exactly when this rule says it is."
#[test]
fn all_lists_of_four() {
    const SOME: [u32; 16] = [
        0, 3_199, 3_200, 4_000, 4_800, 4_801, 5_199, 5_200, 6_000, 6_800, 6_801, 12_000, 20_000, 20_001, 69_536, u32::MAX,
    ];
    // Middle values that were closed, and of these the ones with a refused value just before them.
    let (mut after_lowest, mut past_refused) = (0, 0);
    for mix in 0..SOME.len().pow(4) {
        let values = [4_096, 256, 16, 1].map(|place| SOME[mix / place % SOME.len()]);
        let expected: Vec<u32> = values.iter().enumerate().map(|(at, &millivolts)| {
            if millivolts > 20_000 {
                return 31;
            }
            let closed = closed(&values[..at], millivolts);
            let after = closed && millivolts >= 5_200;
            after_lowest += u32::from(after);
            past_refused += u32::from(after && values[at - 1] > 20_000);
            closed.into()
        }).collect();
        assert_eq!(answers(&values), expected, "{values:?}");
    }
    // Of the 16 values three are lowest, three middle and three refused. A lowest and a middle one stand
    // side by side in 3 places, with one refused between them in 2, with two in 1.
    assert_eq!((after_lowest - past_refused, past_refused), (3 * 9 * 256, 2 * 27 * 16 + 81));
}

/// Also over long lists, with calls refused for their value or their plug anywhere in them.
#[test]
fn long_lists() {
    let mut next = generator();
    // Closed ones in the lowest range and in the middle one, and refused ones.
    let (mut in_lowest, mut in_middle, mut refused) = (0, 0, 0);
    for _ in 0..1_000 {
        let (mut state, mut accepted) = (FRESH, Vec::new());
        for _ in 0..next() {
            // More of the lowest and the middle range than of all else, and of the values near their ends.
            let some = u32::from(next());
            let millivolts = match next() % 16 {
                0..=3 => 3_150 + some * 7,
                4..=7 => 5_150 + some * 7,
                8 => 4_700 + some,
                9 => 5_100 + some,
                10 => 6_700 + some,
                11 => 11_200 + some * 6,
                12 | 13 => some * 78,
                _ => 20_001 + (some << (next() % 24)),
            };
            let mut plug = vec![FILL; if next() < 32 { usize::from(next()) * 2 } else { 1 }];
            let before = (state, plug.clone());
            let answer = plug_sense(&mut state, millivolts, &mut plug);
            let refusal = if millivolts > 20_000 { 31 } else if plug.len() != 1 { 8 } else { 0 };
            assert_eq!(answer, refusal, "{millivolts}");
            if answer > 0 {
                assert_eq!((state, plug), before);
                refused += 1;
                continue;
            }
            let closed = closed(&accepted, millivolts);
            assert_eq!(plug, [u8::from(closed)], "{millivolts} after {:?}", accepted.last());
            // The bool, from the list alone: the last accepted value lay in the lowest range.
            let lowest = (3_200..=4_800).contains(&millivolts);
            assert_eq!(state, [u8::from(lowest)]);
            in_lowest += u32::from(lowest);
            in_middle += u32::from(closed && !lowest);
            accepted.push(millivolts);
        }
    }
    assert!(in_lowest > 1_000 && in_middle > 1_000 && refused > 1_000, "{in_lowest} {in_middle} {refused}");
}

// ---------------------------------------------------------------------------
// Refusals

#[test]
fn each_refusal_alone_and_before_the_later_ones() {
    for (state, millivolts, plug, expected) in [
        (&[0][..], REFUSED, &[FILL][..], 31), (&[1], REFUSED, &[FILL], 31), (&[0], u32::MAX, &[FILL], 31),
        (&[2], REFUSED, &[FILL], 31), (&[], REFUSED, &[FILL], 31), (&[0, 0], REFUSED, &[FILL], 31),
        (&[1], REFUSED, &[], 31), (&[1], REFUSED, &[FILL; 2], 31), (&[255], REFUSED, &[], 31), (&[], u32::MAX, &[], 31),
        (&[2], LOWEST, &[FILL], 6), (&[255], LOWEST, &[FILL], 6), (&[], LOWEST, &[FILL], 6), (&[0, 0], LOWEST, &[FILL], 6),
        (&[1, 0], MIDDLE, &[FILL], 6), (&[2], GAP, &[], 6), (&[255], GAP, &[FILL; 2], 6), (&[], 20_000, &[], 6),
        (&[1, 1], 0, &[FILL; 2], 6), (&[0], LOWEST, &[], 8), (&[1], LOWEST, &[], 8), (&[0], LOWEST, &[FILL; 2], 8),
        (&[1], MIDDLE, &[FILL; 2], 8), (&[0], 20_000, &[], 8), (&[1], 0, &[FILL; 2], 8),
    ] {
        let unchanged = (expected, state.to_vec(), plug.to_vec());
        assert_eq!(call(state, millivolts, plug), unchanged, "{state:?}, {millivolts}, {plug:?}");
    }
}

/// All combinations of a value, a state and a plug. The questions are put here by their numbers, in the
/// order of asking.
#[test]
fn the_first_fitting_number_and_no_byte_changed() {
    let lengths = [0, 1, 2, 3, 8, 256, 256 + 1, 4_096 + 1];
    let mut states: Vec<Vec<u8>> = (0..=255).map(|byte| vec![byte]).collect();
    states.extend(lengths.iter().flat_map(|&length| [0, 1, 2, FILL, 255].map(|byte| vec![byte; length])));
    states.extend([vec![0, 1], vec![1, 0], vec![0, 255], vec![1, 2], vec![0, 0, 1]]);
    let plugs: Vec<Vec<u8>> = lengths.iter().flat_map(|&length| [0, 1, FILL].map(|byte| vec![byte; length])).collect();
    for millivolts in [0, 3_200, LOWEST, GAP, MIDDLE, TWELVE_VOLTS, 20_000].into_iter().chain(NOT_ACCEPTED) {
        for (state, plug) in states.iter().flat_map(|state| plugs.iter().map(move |plug| (state, plug))) {
            let fits = |refusal: &&u32| match **refusal {
                31 => millivolts > 20_000,
                6 => !matches!(state[..], [0] | [1]),
                _ => plug.len() != 1,
            };
            let expected = *[31, 6, 8].iter().find(fits).unwrap_or(&0);
            let (answer, state_after, plug_after) = call(state, millivolts, plug);
            assert_eq!(answer, expected, "{millivolts}, state of {}, plug of {}", state.len(), plug.len());
            if answer > 0 {
                assert!(state_after == *state && plug_after == *plug, "{answer}");
            } else {
                assert_eq!((plug_after[0], state_after[0]), by_value(state[0] == 1, millivolts));
            }
        }
    }
}

/// A byte other than 0 and 1 is no bool, whatever its lowest bit.
#[test]
fn only_two_bytes_are_a_state() {
    for byte in 0..=255 {
        for millivolts in [LOWEST, MIDDLE, GAP, TWELVE_VOLTS, 20_000] {
            let (answer, state, plug) = call(&[byte], millivolts, &[FILL]);
            if byte < 2 {
                assert_eq!(answer, 0);
            } else {
                assert_eq!((answer, state, plug), (6, vec![byte], vec![FILL]));
            }
        }
    }
}

// ---------------------------------------------------------------------------
// The host between plug and tick

/// The host puts the bit into bit 0 of the contacts, and the tick finds the plug closed or open there.
#[test]
fn the_bit_in_the_contacts_of_a_tick() {
    assert_eq!((CLOSED, OPEN), ([PLUG], [0]));
    let mut state = FRESH;
    for (millivolts, idle, charging) in [
        (MIDDLE, (0, 0), (9, 12)), (LOWEST, (1, 0), (6, 0)), (MIDDLE, (1, 0), (6, 0)), (MIDDLE, (0, 0), (9, 12)),
        (TWELVE_VOLTS, (0, 0), (9, 12)), (LOWEST, (1, 0), (6, 0)), (GAP, (0, 0), (9, 12)),
    ] {
        let mut plug = [FILL];
        assert_eq!(plug_sense(&mut state, millivolts, &mut plug), DONE);
        let shown = |case: Case| case.open(PLUG).close(plug[0]).tick().phase_and_reason();
        assert_eq!((shown(Case::new(0).only(START_BUTTON)), shown(Case::new(6))), (idle, charging));
    }
}

/// The bench program has no lines for it.
#[test]
fn the_bench_knows_nothing_of_it() {
    for line in ["plug", "plug\t4000", "sense\t4000", "sense\t0\t4000", "plug_sense\t00\t4000\t00", "plug-sense\t4000"] {
        let mut answer = Vec::new();
        run(format!("setup\t1\t500\t125\t00000000\t0\t0\n{line}\n").as_bytes(), &mut answer).unwrap();
        assert_eq!(answer, b"0\n?\n", "{line:?}");
    }
}
