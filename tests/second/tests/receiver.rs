use super::{generator, Case, ENABLED};
use crate::bench::run;
use crate::lead::input_place::FRAMES;
use crate::receiver::place::{ACKNOWLEDGE, FIRST_MAILBOX, MASK, OVERRUN, STATUS, TURN};
use crate::receiver::*;
use std::array::from_fn;
use std::collections::VecDeque;

type Frame = [u8; FRAME_BYTES];

const FILL: u8 = 0xA5;

/// Register numbers that are not there. Cut to 8 or 16 bits, half of them would be one that is.
const NOT_THERE: [u32; 16] = [
    92, 93, 127, 128, 255, 256, 257, 258, 259, 347, 65_535, 65_536, 65_538, 1 << 31, u32::MAX - 1, u32::MAX,
];

/// A receiver's bytes. Tests change one thing at a time.
#[derive(Clone, Copy, Debug, PartialEq, Eq)]
struct Chip([u8; STATE_BYTES]);

impl Chip {
    /// Power-up over other bytes.
    fn powered_up() -> Chip {
        let mut chip = Chip([0xEE; STATE_BYTES]);
        assert_eq!(power_up(&mut chip.0), DONE);
        chip
    }

    /// Bytes handed in, no two of them alike: a byte that moves or changes shows.
    fn handed_in() -> Chip { Chip(from_fn(|at| (at as u8).wrapping_mul(3) ^ 0x5A)) }

    fn byte(mut self, at: usize, value: u8) -> Chip { self.0[at] = value; self }
    fn holding(mut self, mailbox: usize, frame: Frame) -> Chip {
        self.0[4 + 11 * mailbox..][..11].copy_from_slice(&frame);
        self
    }

    /// The frame whose bytes a mailbox has, full or not, as the host reads it.
    fn mailbox(&self, mailbox: usize) -> Frame { from_fn(|at| self.read((4 + 11 * mailbox + at) as u32)) }

    // The calls, all of them done.

    fn read(&self, number: u32) -> u8 {
        let mut value = [FILL];
        assert_eq!(read(&self.0, number, &mut value), DONE);
        value[0]
    }

    fn write(mut self, number: usize, value: u8) -> Chip {
        assert_eq!(write(&mut self.0, number as u32, value), DONE);
        self
    }

    fn arrive(mut self, frame: Frame) -> Chip {
        assert_eq!(arrive(&mut self.0, &frame), DONE);
        self
    }

    /// The frame lent holds something already.
    fn drain(mut self) -> (Chip, Frame) {
        let mut frame = [FILL; FRAME_BYTES];
        assert_eq!(drain(&mut self.0, &mut frame), DONE);
        (self, frame)
    }

    fn line(&self) -> u8 {
        let mut up = [FILL];
        assert_eq!(line(&self.0, &mut up), DONE);
        up[0]
    }
}

/// Frames by number; no two bytes of the first 23 are alike.
fn frame(number: u8) -> Frame { from_fn(|at| number.wrapping_mul(11).wrapping_add(at as u8 + 1)) }

/// So many frames, from number 0, after power-up.
fn arrived(frames: u8) -> Chip { (0..frames).fold(Chip::powered_up(), |chip, number| chip.arrive(frame(number))) }

/// What the frame lent to a drain still holds if none is handed on.
const UNTOUCHED: Frame = [FILL; FRAME_BYTES];

#[test]
fn places_and_numbers() {
    assert_eq!([STATUS, OVERRUN, MASK, ACKNOWLEDGE, FIRST_MAILBOX, TURN], [0, 1, 2, 3, 4, 92]);
    assert_eq!([MAILBOXES, FRAME_BYTES, REGISTERS, STATE_BYTES, VALUE_BYTES, LINE_BYTES], [8, 11, 92, 93, 1, 1]);
    assert_eq!(LAST_REGISTER, 91);
    assert_eq!(from_fn(mailbox_place), [4, 15, 26, 37, 48, 59, 70, 81]);
    assert_eq!([DONE, REFUSED_RECEIVER_LENGTH, REFUSED_INPUT_LENGTH, REFUSED_OUTPUT_LENGTH, REFUSED_REGISTER], [0, 6, 7, 8, 30]);
}

// ---------------------------------------------------------------------------
// Power-up, reading

/// "At power-up every register is 0 and the first mailbox is next."
#[test]
fn at_power_up() {
    for mut before in [Chip([0xFF; STATE_BYTES]), Chip([0; STATE_BYTES]), Chip::handed_in(), arrived(9)] {
        assert_eq!(power_up(&mut before.0), DONE);
        assert_eq!(before.0, [0; STATE_BYTES]);
    }
    let chip = Chip::powered_up();
    (0..92).for_each(|number| assert_eq!(chip.read(number), 0));
    assert_eq!((chip.line(), chip.drain()), (0, (chip, UNTOUCHED)));
    assert_eq!(chip.arrive(frame(7)), chip.holding(0, frame(7)).byte(STATUS, 0x01).byte(TURN, 1));
}

/// Acknowledge reads 0 whatever its byte holds. All other registers read as their bytes.
#[test]
fn registers_read_as_their_bytes_but_for_acknowledge() {
    let chip = Chip::handed_in();
    for (number, byte) in (0..92).zip(chip.0) {
        assert_eq!(chip.read(number), if number == 3 { 0 } else { byte });
    }
    for byte in 0..=255 {
        assert_eq!(chip.byte(ACKNOWLEDGE, byte).read(3), 0);
        assert_eq!([0, 1, 2, 4, 47, 91].map(|at| chip.byte(at, byte).read(at as u32)), [byte; 6]);
        // The turn is no register: no number reads it.
        (0..92).for_each(|number| assert_eq!(chip.byte(TURN, byte).read(number), chip.read(number)));
    }
    // "Status (bit n for mailbox n, from 0)", and mailbox bytes where they belong.
    let chip = arrived(3);
    assert_eq!([0, 1, 2, 3].map(|number| chip.read(number)), [0x07, 0, 0, 0]);
    assert_eq!([4, 14, 15, 25, 26, 36, 37].map(|number| chip.read(number)), [1, 11, 12, 22, 23, 33, 0]);
    assert_eq!([0, 1, 2, 3].map(|mailbox| chip.mailbox(mailbox)), [frame(0), frame(1), frame(2), [0; FRAME_BYTES]]);
}

// ---------------------------------------------------------------------------
// Arriving

/// "An arriving frame fills the next mailbox."
#[test]
fn arrivals_fill_the_mailboxes_in_turn() {
    let mut expected = Chip::powered_up();
    for number in 0..8 {
        let mailbox = usize::from(number);
        expected = expected.holding(mailbox, frame(number)).byte(STATUS, 0xFF >> (7 - number)).byte(TURN, (number + 1) % 8);
        assert_eq!(arrived(number + 1), expected);
        // Nothing else changes, whatever the other bytes hold.
        let chip = Chip::handed_in().byte(STATUS, 0).byte(TURN, number);
        let filled = chip.holding(mailbox, frame(9)).byte(STATUS, 1 << number).byte(TURN, (number + 1) % 8);
        assert_eq!(chip.arrive(frame(9)), filled);
    }
}

/// "If that one is full, the frame is lost, overrun becomes 1 and the turn does not move."
/// Exactly 1, whatever it was.
#[test]
fn a_frame_is_lost_where_the_next_mailbox_is_full() {
    let full = arrived(8);
    assert_eq!(full.arrive(frame(8)), full.byte(OVERRUN, 1));
    assert_eq!(full.arrive(frame(8)).arrive(frame(9)), full.byte(OVERRUN, 1));
    for overrun in 0..=255 {
        assert_eq!(full.byte(OVERRUN, overrun).arrive(frame(8)), full.byte(OVERRUN, 1));
        let chip = Chip::handed_in().byte(STATUS, 0x10).byte(TURN, 4).byte(OVERRUN, overrun);
        assert_eq!(chip.arrive(frame(8)), chip.byte(OVERRUN, 1));
    }
}

/// Emptied mailboxes further on don't help.
#[test]
fn a_frame_is_lost_though_others_are_empty() {
    let full = arrived(8);
    // The turn's is mailbox 0. All others are emptied, and the frame is lost all the same.
    let chip = full.write(ACKNOWLEDGE, 0xFE);
    assert_eq!(chip.arrive(frame(8)), full.byte(STATUS, 0x01).byte(OVERRUN, 1));
    // Once it is emptied itself the next frame comes in there, and then the next after it.
    let chip = chip.write(ACKNOWLEDGE, 0x01).arrive(frame(9)).arrive(frame(10));
    assert_eq!(chip, full.holding(0, frame(9)).holding(1, frame(10)).byte(STATUS, 0x03).byte(TURN, 2));
    // Of eight held the oldest is drained: there is room for one, and then for none.
    let (drained, handed_on) = full.drain();
    assert_eq!(handed_on, frame(0));
    let again = drained.arrive(frame(8));
    assert_eq!(again, full.holding(0, frame(8)).byte(TURN, 1));
    assert_eq!(again.arrive(frame(9)), again.byte(OVERRUN, 1));
    // Seven held, the emptied one not the turn's.
    let chip = full.write(ACKNOWLEDGE, 0x08);
    assert_eq!(chip.arrive(frame(8)), chip.byte(OVERRUN, 1));
}

/// "A byte read modulo 8, below 8 once moved." With every turn and every status.
#[test]
fn any_turn_and_any_status() {
    for (turn, status) in (0..=255).flat_map(|turn| (0..=255).map(move |status| (turn, status))) {
        let chip = Chip::handed_in().byte(TURN, turn).byte(STATUS, status);
        // The turn's mailbox and those after it, from the lowest bit up.
        let from_turn: u8 = status.rotate_right(u32::from(turn % 8));
        let next = usize::from(turn % 8);
        let after = if from_turn & 1 == 1 {
            chip.byte(OVERRUN, 1)
        } else {
            chip.holding(next, frame(1)).byte(STATUS, status | 1 << next).byte(TURN, (turn % 8 + 1) % 8)
        };
        assert_eq!(chip.arrive(frame(1)), after, "turn {turn}, status {status}");
        // The first full one from the turn's upward. A drain leaves the turn as it is.
        let after = if status == 0 {
            (chip, UNTOUCHED)
        } else {
            let mailbox = (next + from_turn.trailing_zeros() as usize) % 8;
            (chip.byte(STATUS, status & !(1 << mailbox)), chip.mailbox(mailbox))
        };
        assert_eq!(chip.drain(), after, "turn {turn}, status {status}");
    }
    // Some of them in numbers. 13 is 5 and moves to 6, 255 is 7 and moves to 0, 8 is 0 and moves to 1.
    for (turn, mailbox, moved) in [(0, 0, 1), (6, 6, 7), (7, 7, 0), (8, 0, 1), (13, 5, 6), (248, 0, 1), (255, 7, 0)] {
        let chip = Chip::handed_in().byte(TURN, turn).byte(STATUS, 0);
        assert_eq!(chip.arrive(frame(1)), chip.holding(mailbox, frame(1)).byte(STATUS, 1 << mailbox).byte(TURN, moved));
        let full = chip.byte(STATUS, 1 << mailbox);
        assert_eq!(full.arrive(frame(1)), full.byte(OVERRUN, 1));
    }
}

/// The turn goes on from where it is; it doesn't fall back to the first mailbox.
#[test]
fn after_all_is_drained_the_turn_is_still_next() {
    for frames in 1..=8 {
        let drained = (0..frames).fold(arrived(frames), |chip, number| {
            let (chip, handed_on) = chip.drain();
            assert_eq!(handed_on, frame(number));
            chip
        });
        let turn = frames % 8;
        assert_eq!(drained, arrived(frames).byte(STATUS, 0));
        let next = drained.holding(turn.into(), frame(9)).byte(STATUS, 1 << turn).byte(TURN, (turn + 1) % 8);
        assert_eq!(drained.arrive(frame(9)), next);
        // An acknowledge of them all leaves it there too.
        assert_eq!(arrived(frames).write(ACKNOWLEDGE, 0xFF).arrive(frame(9)), next);
    }
}

/// Neither identifier nor length byte nor data.
#[test]
fn nothing_in_a_frame_is_judged() {
    let mut odd = vec![[0; FRAME_BYTES], [0xFF; FRAME_BYTES], [0x02, 0x01, 8, 0, 0, 0, 0, 0, 0, 0, 0]];
    odd.extend((0..FRAME_BYTES).flat_map(|at| (0..=255).map(move |byte| {
        let mut frame = [0; FRAME_BYTES];
        frame[at] = byte;
        frame
    })));
    for frame in odd {
        let chip = Chip::handed_in().byte(STATUS, 0).byte(TURN, 2);
        let arrived = chip.arrive(frame);
        assert_eq!(arrived, chip.holding(2, frame).byte(STATUS, 0x04).byte(TURN, 3));
        assert_eq!(arrived.drain(), (arrived.byte(STATUS, 0), frame));
        // A frame like one that is held is a frame of its own.
        let twice = arrived.arrive(frame);
        assert_eq!(twice, arrived.holding(3, frame).byte(STATUS, 0x0C).byte(TURN, 4));
    }
}

// ---------------------------------------------------------------------------
// Writing

/// "Writing a 1 bit to acknowledge empties that mailbox"; "an emptied mailbox keeps its bytes".
/// The byte of acknowledge itself never changes.
#[test]
fn acknowledging() {
    for (status, value) in (0..=255).flat_map(|status| (0..=255).map(move |value| (status, value))) {
        let chip = Chip::handed_in().byte(STATUS, status);
        assert_eq!(chip.write(ACKNOWLEDGE, value), chip.byte(STATUS, status & !value));
    }
    for byte in 0..=255 {
        let chip = Chip::handed_in().byte(STATUS, 0xFF).byte(ACKNOWLEDGE, byte);
        assert_eq!(chip.write(ACKNOWLEDGE, 0x0F), chip.byte(STATUS, 0xF0));
        // No other call changes it.
        assert_eq!(chip.drain().0.0[ACKNOWLEDGE], byte);
        assert_eq!([0x00, 0xFF].map(|status| chip.byte(STATUS, status).arrive(frame(1)).0[ACKNOWLEDGE]), [byte; 2]);
        (0..92).for_each(|number| assert_eq!(chip.write(number, !byte).0[ACKNOWLEDGE], byte));
    }
    // From power-up: it reads 0 afterwards, a bit of an empty mailbox does nothing, bytes stay.
    let chip = arrived(5).write(ACKNOWLEDGE, 0xEA);
    assert_eq!(chip, arrived(5).byte(STATUS, 0x15));
    assert_eq!((chip.read(3), chip.mailbox(1), chip.mailbox(3)), (0, frame(1), frame(3)));
}

/// "Writing the mask sets it", all of it.
#[test]
fn writing_the_mask() {
    for (mask, value) in (0..=255).flat_map(|mask| (0..=255).map(move |value| (mask, value))) {
        let chip = Chip::handed_in().byte(MASK, mask);
        assert_eq!(chip.write(MASK, value), chip.byte(MASK, value));
    }
}

/// "Any write to overrun makes it 0", a 1 too. Nothing else does.
#[test]
fn overrun_stays_until_it_is_written() {
    for (overrun, value) in (0..=255).flat_map(|overrun| (0..=255).map(move |value| (overrun, value))) {
        let chip = Chip::handed_in().byte(OVERRUN, overrun);
        assert_eq!(chip.write(OVERRUN, value), chip.byte(OVERRUN, 0));
    }
    let lost = arrived(9);
    assert_eq!(lost.read(1), 1);
    let (drained, _) = lost.drain();
    let emptied = drained.write(ACKNOWLEDGE, 0xFF);
    let again = emptied.arrive(frame(9)).write(MASK, 0xFF).write(STATUS, 0);
    assert_eq!([drained, emptied, again].map(|chip| chip.read(1)), [1; 3]);
    assert_eq!(again.write(OVERRUN, 1), again.byte(OVERRUN, 0));
    // The next lost frame sets it again.
    let full = arrived(8).write(OVERRUN, 0xFF);
    assert_eq!((full.read(1), full.arrive(frame(8)).read(1)), (0, 1));
}

/// "And other writes change nothing." They are done all the same.
#[test]
fn other_writes_change_nothing() {
    for chip in [Chip::powered_up(), Chip::handed_in(), arrived(5), arrived(9), Chip([0xFF; STATE_BYTES])] {
        for number in (0..1).chain(4..92) {
            (0..=255).for_each(|value| assert_eq!(chip.write(number, value), chip));
        }
        // No write changes the turn.
        let turns = |number| [0, 7, 8, 255].map(|turn| chip.byte(TURN, turn).write(number, 0xFF).0[TURN]);
        (0..92).for_each(|number| assert_eq!(turns(number), [0, 7, 8, 255]));
    }
}

// ---------------------------------------------------------------------------
// Draining

/// "A drain hands the tick the frame held longest and empties its mailbox."
#[test]
fn the_frame_held_longest() {
    // Eight round the ring: mailboxes 3 to 7, then 0 to 2.
    let mut chip = arrived(3).write(ACKNOWLEDGE, 0x07);
    for number in 3..11 {
        chip = chip.arrive(frame(number));
    }
    assert_eq!((chip.read(0), chip.0[TURN]), (0xFF, 3));
    // Acknowledged ones are left out, wherever they are; the mailboxes' bytes stay.
    let holes = chip.write(ACKNOWLEDGE, 0x29);
    let mut left = holes;
    for number in [4, 6, 7, 9, 10] {
        let (drained, handed_on) = left.drain();
        assert_eq!((drained.read(0), handed_on), (left.read(0) & !(1 << (number % 8)), frame(number)));
        left = drained;
    }
    assert_eq!((left, left.drain()), (chip.byte(STATUS, 0), (left, UNTOUCHED)));
    // The turn's own was emptied, so a frame comes in there. It is the newest, though the others
    // lie behind it.
    let (drained, handed_on) = holes.arrive(frame(11)).drain();
    assert_eq!(handed_on, frame(4));
    assert_eq!(drained, chip.holding(3, frame(11)).byte(STATUS, 0xCE).byte(TURN, 4));
}

/// "With none held it does nothing." The lent frame is left alone too.
#[test]
fn a_drain_with_none_held() {
    for turn in 0..=255 {
        for chip in [Chip::powered_up(), Chip::handed_in(), arrived(8), Chip([0xFF; STATE_BYTES])] {
            let chip = chip.byte(STATUS, 0).byte(TURN, turn);
            assert_eq!(chip.drain(), (chip, UNTOUCHED));
        }
    }
    // Whether one is held is what status tells; the frame handed on may well be all 0.
    let chip = Chip::powered_up().arrive([0; FRAME_BYTES]);
    assert_eq!((chip.read(0), chip.drain().1, chip.drain().0.read(0)), (0x01, [0; FRAME_BYTES], 0x00));
}

/// A drain doesn't ask for the mask, nor for overrun.
#[test]
fn a_drain_does_not_look_at_the_mask() {
    for byte in 0..=255 {
        let chip = arrived(5).byte(MASK, byte).byte(OVERRUN, !byte);
        assert_eq!(chip.drain(), (chip.byte(STATUS, 0x1E), frame(0)));
        let chip = Chip::handed_in().byte(MASK, byte).byte(STATUS, 0x40);
        assert_eq!(chip.drain(), (chip.byte(STATUS, 0), chip.mailbox(6)));
    }
}

// ---------------------------------------------------------------------------
// The line

/// "The line is up exactly when status and mask share a bit."
#[test]
fn the_line() {
    for (status, mask) in (0..=255u8).flat_map(|status| (0..=255u8).map(move |mask| (status, mask))) {
        let shared = (0..8).any(|bit| status >> bit & 1 == 1 && mask >> bit & 1 == 1);
        for chip in [Chip::handed_in(), Chip([0; STATE_BYTES]), Chip([0xFF; STATE_BYTES])] {
            assert_eq!(chip.byte(STATUS, status).byte(MASK, mask).line(), u8::from(shared));
        }
    }
    // It follows both, and remembers nothing.
    let chip = arrived(2);
    let lines = [0x00, 0x01, 0x02, 0x03, 0x04, 0xFC, 0xFF].map(|mask| chip.write(MASK, mask).line());
    assert_eq!(lines, [0, 1, 1, 1, 0, 0, 1]);
    let first = chip.write(MASK, 0x01);
    assert_eq!([first.drain().0, first.write(ACKNOWLEDGE, 0x02), first.write(ACKNOWLEDGE, 0x01)].map(|chip| chip.line()), [0, 1, 0]);
    let third = chip.write(MASK, 0x04);
    assert_eq!([third, third.arrive(frame(2))].map(|chip| chip.line()), [0, 1]);
    // A lost frame doesn't raise it, nor does overrun.
    let lost = arrived(8).write(ACKNOWLEDGE, 0xFE).write(MASK, 0xFE).arrive(frame(8));
    assert_eq!((lost.read(1), lost.line()), (1, 0));
}

// ---------------------------------------------------------------------------
// Refusals

/// A call with a register number and bytes of these lengths, all of which hold something already.
/// A refusal leaves them alone.
type Call = fn(u32, &mut [u8], &mut [u8]) -> u32;

fn call_of(call: Call, number: u32, receiver: usize, beside: usize) -> u32 {
    let mut bytes: Vec<u8> = (0..receiver).map(|at| (at as u8).wrapping_mul(3) ^ 0x5A).collect();
    let mut lent = vec![FILL; beside];
    let before = bytes.clone();
    let answer = call(number, &mut bytes, &mut lent);
    assert!(answer == DONE || bytes == before && lent == vec![FILL; beside]);
    answer
}

/// Each refusal alone and before each later one: all combinations of a number, a length of the
/// receiver and a length of what is lent beside it, which ought to be `right`. A call that lends
/// nothing beside it, or takes no number, has no such refusal in its list.
fn refuses<const N: usize>(call: Call, refusals: [u32; N], table: [u32; N], right: usize) {
    assert_eq!(refusals, table);
    for number in [0, 1, 2, 3, 4, 47, 90, 91].into_iter().chain(NOT_THERE) {
        for receiver in [93, 0, 1, 4, 11, 91, 92, 94, 186, 256 + 93, 65_536 + 93] {
            for beside in [0, 1, 2, 8, 10, 11, 12, 22, 93, 256 + 1, 256 + 11, 65_536 + 1, 65_536 + 11] {
                let fits = |refusal: &&u32| match **refusal {
                    30 => number > 91,
                    6 => receiver != 93,
                    _ => beside != right,
                };
                let expected = refusals.iter().find(fits).unwrap_or(&0);
                let answer = call_of(call, number, receiver, beside);
                assert_eq!(answer, *expected, "number {number}, lengths {receiver} and {beside}");
            }
        }
    }
}

#[test]
fn each_call_refuses_in_its_order() {
    refuses(|_, receiver, _| power_up(receiver), [6], POWER_UP_REFUSALS, 0);
    refuses(|number, receiver, value| read(receiver, number, value), [30, 6, 8], READ_REFUSALS, 1);
    refuses(|number, receiver, _| write(receiver, number, 0xFF), [30, 6], WRITE_REFUSALS, 0);
    refuses(|_, receiver, frame| arrive(receiver, frame), [6, 7], ARRIVE_REFUSALS, 11);
    refuses(|_, receiver, frame| drain(receiver, frame), [6, 8], DRAIN_REFUSALS, 11);
    refuses(|_, receiver, up| line(receiver, up), [6, 8], LINE_REFUSALS, 1);
}

/// 30 for reads and writes alike, before anything, whatever is written.
#[test]
fn a_register_number_above_91() {
    for number in NOT_THERE {
        for chip in [Chip::powered_up(), Chip::handed_in(), arrived(9)] {
            let mut value = [FILL];
            assert_eq!((read(&chip.0, number, &mut value), value), (30, [FILL]));
            for value in 0..=255 {
                let mut after = chip;
                assert_eq!((write(&mut after.0, number, value), after), (30, chip));
            }
        }
        // Nothing is lent at all.
        assert_eq!((read(&[], number, &mut []), write(&mut [], number, 0)), (30, 30));
    }
    assert_eq!((read(&[], 91, &mut []), write(&mut [], 91, 0)), (6, 6));
    assert_eq!((power_up(&mut []), arrive(&mut [], &[]), drain(&mut [], &mut []), line(&[], &mut [])), (6, 6, 6, 6));
    // The last register is there, the turn behind it has no number.
    let chip = Chip::handed_in();
    assert_eq!((chip.read(91), read(&chip.0, 92, &mut [FILL])), (chip.0[91], 30));
}

/// A frame that would be lost, or a drain that would hand on nothing, is refused like any other.
#[test]
fn lengths_are_asked_before_mailboxes() {
    for chip in [Chip::powered_up(), Chip::handed_in(), arrived(5), arrived(8), Chip([0xFF; STATE_BYTES])] {
        for length in (0..11).chain(12..300) {
            let (mut after, mut lent) = (chip, vec![FILL; length]);
            assert_eq!(arrive(&mut after.0, &lent), 7);
            assert_eq!(drain(&mut after.0, &mut lent), 8);
            assert_eq!((after, lent), (chip, vec![FILL; length]));
        }
        for length in (0..1).chain(2..300) {
            let mut lent = vec![FILL; length];
            // Acknowledge too, though it reads 0 whatever its byte.
            (0..92).for_each(|number| assert_eq!(read(&chip.0, number, &mut lent), 8));
            assert_eq!((line(&chip.0, &mut lent), lent), (8, vec![FILL; length]));
        }
    }
}

/// Any 93 bytes are a receiver, with any status, overrun, acknowledge and turn.
#[test]
fn a_call_without_a_refusal_is_done_whatever_the_bytes_hold() {
    let mut next = generator();
    for _ in 0..20_000 {
        let mut chip = Chip([0; STATE_BYTES]);
        chip.0.fill_with(&mut next);
        let frame = [(); FRAME_BYTES].map(|_| next());
        let status = chip.0[STATUS];
        let number = next() % 92;
        let shown = if number == 3 { 0 } else { chip.0[usize::from(number)] };
        assert_eq!(chip.read(number.into()), shown);
        assert_eq!(chip.line(), u8::from(status & chip.0[MASK] > 0));
        chip.write(number.into(), next());
        // One more is held or a frame is lost; one fewer is held or none was.
        let arrived = chip.arrive(frame);
        assert!(arrived.0[STATUS].count_ones() == status.count_ones() + 1 || arrived == chip.byte(OVERRUN, 1));
        let (drained, _) = chip.drain();
        assert!(drained.0[STATUS].count_ones() + 1 == status.count_ones() || status == 0 && drained == chip);
    }
}

// ---------------------------------------------------------------------------
// Lists of calls

/// Some frame. Now and then it is one of a few, so that equal ones come too.
fn some_frame(next: &mut impl FnMut() -> u8) -> Frame {
    if next() < 32 { frame(next() % 3) } else { [(); FRAME_BYTES].map(|_| next()) }
}

/// "For every list of arrivals and drains from power-up in which no frame is lost, the frames handed
/// on, followed by those still held, are the arrivals in their order."
#[test]
fn the_arrivals_in_their_order() {
    let mut next = generator();
    // Arrivals that filled the last mailbox, drains with none held, the longest list of arrivals.
    let (mut filled, mut none_held, mut longest) = (0, 0, 0);
    for _ in 0..4_000 {
        let mut chip = Chip::powered_up();
        let (mut arrivals, mut handed_on) = (Vec::new(), Vec::new());
        // The plain model: a queue of frames. No frame is lost as long as it is below eight.
        let mut held: VecDeque<Frame> = VecDeque::new();
        // Some lists have more arrivals, others more drains.
        let (calls, arrivals_of_256) = (next(), next());
        for _ in 0..calls {
            if next() < arrivals_of_256 {
                if held.len() == MAILBOXES {
                    continue;
                }
                let frame = some_frame(&mut next);
                chip = chip.arrive(frame);
                arrivals.push(frame);
                held.push_back(frame);
                filled += u32::from(held.len() == MAILBOXES);
            } else {
                let (drained, frame) = chip.drain();
                let oldest = held.pop_front();
                assert_eq!(frame, oldest.unwrap_or(UNTOUCHED));
                none_held += u32::from(oldest.is_none());
                handed_on.extend(oldest);
                chip = drained;
            }
            // All 93 bytes, from the list alone: arrival i went to mailbox i modulo 8, and those from
            // the first not handed on are held.
            let mut expected = [0; STATE_BYTES];
            for (number, frame) in arrivals.iter().enumerate() {
                let mailbox = number % 8;
                expected[4 + 11 * mailbox..][..11].copy_from_slice(frame);
                expected[0] |= u8::from(number >= handed_on.len()) << mailbox;
            }
            expected[92] = (arrivals.len() % 8) as u8;
            assert_eq!(chip.0, expected);
            assert_eq!(chip.0[STATUS].count_ones() as usize, held.len());
        }
        longest = longest.max(arrivals.len());
        // Those still held, from the oldest, as the host reads them and as drains hand them on.
        let oldest = handed_on.len();
        let read: Vec<Frame> = (oldest..arrivals.len()).map(|number| chip.mailbox(number % 8)).collect();
        assert_eq!([&handed_on[..], &read].concat(), arrivals);
        while chip.read(0) > 0 {
            let (drained, frame) = chip.drain();
            handed_on.push(frame);
            chip = drained;
        }
        assert_eq!(handed_on, arrivals);
    }
    assert!(filled > 1_000 && none_held > 1_000 && longest > 100, "{filled} {none_held} {longest}");
}

/// The chip by its sentences, with the number of each frame's arrival in place of any order of the
/// mailboxes: the least number among those held is the one held longest.
#[derive(Default)]
struct Model {
    bytes: [Frame; MAILBOXES],
    held: [Option<u32>; MAILBOXES],
    next: usize,
    arrivals: u32,
    overrun: u8,
    mask: u8,
}

impl Model {
    fn oldest(&self) -> Option<usize> {
        (0..MAILBOXES).filter(|&mailbox| self.held[mailbox].is_some()).min_by_key(|&mailbox| self.held[mailbox])
    }

    fn state(&self) -> Vec<u8> {
        let status = (0..MAILBOXES).map(|mailbox| u8::from(self.held[mailbox].is_some()) << mailbox).sum();
        [&[status, self.overrun, self.mask, 0], self.bytes.as_flattened(), &[self.next as u8]].concat()
    }
}

/// Also with acknowledges, lost frames and refused calls anywhere in the list.
#[test]
fn the_frame_held_longest_in_every_list() {
    let mut next = generator();
    // Frames lost with other mailboxes empty, drains of one behind an emptied mailbox.
    let (mut lost, mut past) = (0, 0);
    for _ in 0..1_000 {
        let (mut chip, mut model) = (Chip::powered_up(), Model::default());
        for _ in 0..next() {
            match next() % 16 {
                0..=6 => {
                    let frame = some_frame(&mut next);
                    chip = chip.arrive(frame);
                    if model.held[model.next].is_some() {
                        model.overrun = 1;
                        lost += u32::from(model.held.contains(&None));
                    } else {
                        model.bytes[model.next] = frame;
                        model.held[model.next] = Some(model.arrivals);
                        model.arrivals += 1;
                        model.next = (model.next + 1) % MAILBOXES;
                    }
                }
                7..=9 => {
                    let (drained, frame) = chip.drain();
                    chip = drained;
                    let Some(oldest) = model.oldest() else {
                        assert_eq!(frame, UNTOUCHED);
                        continue;
                    };
                    assert_eq!(frame, model.bytes[oldest]);
                    past += u32::from(model.held[(oldest + MAILBOXES - 1) % MAILBOXES].is_none());
                    model.held[oldest] = None;
                }
                10 | 11 => {
                    let bits = next() & next();
                    chip = chip.write(ACKNOWLEDGE, bits);
                    (0..MAILBOXES).filter(|mailbox| bits >> mailbox & 1 == 1).for_each(|mailbox| model.held[mailbox] = None);
                }
                12 => {
                    model.mask = next();
                    chip = chip.write(MASK, model.mask);
                }
                13 => {
                    chip = chip.write(OVERRUN, next());
                    model.overrun = 0;
                }
                14 => chip = chip.write(usize::from(4 + next() % 88), next()).write(STATUS, next()),
                _ => {
                    let surplus = 92 + u32::from(next());
                    assert_eq!((write(&mut chip.0, surplus, next()), read(&chip.0, surplus, &mut [0])), (30, 30));
                    assert_eq!((arrive(&mut chip.0, &[next(); 10]), drain(&mut chip.0, &mut [0; 12])), (7, 8));
                    assert_eq!((power_up(&mut chip.0[..92]), line(&chip.0, &mut [])), (6, 8));
                }
            }
            assert_eq!(chip.0[..], model.state());
            let shared = (0..8).any(|bit| model.held[bit].is_some() && model.mask >> bit & 1 == 1);
            assert_eq!(chip.line(), u8::from(shared));
        }
    }
    assert!(lost > 1_000 && past > 1_000, "{lost} {past}");
}

// ---------------------------------------------------------------------------
// The host between chip and tick

/// The host copies what a drain hands on into an input record, and the tick hears it there.
#[test]
fn a_drained_frame_in_the_input_of_a_tick() {
    let hears = Case::new(5).hears(ENABLED);
    let direct = hears.tick();
    assert_eq!(direct.phase_and_reason(), (6, 0));
    let sent: Frame = hears.input.0[FRAMES..][..FRAME_BYTES].try_into().unwrap();
    let (_, handed_on) = Chip::powered_up().arrive(sent).drain();
    let mut copied = hears;
    copied.input.0[FRAMES..][..FRAME_BYTES].copy_from_slice(&handed_on);
    let copied = copied.tick();
    assert_eq!((copied.state, copied.output), (direct.state, direct.output));
}

/// The bench program has no lines for the chip.
#[test]
fn the_bench_knows_nothing_of_it() {
    for line in ["power_up", "power-up", "read\t0", "write\t2\t255", "arrive\t0201080000000000000000", "drain", "line"] {
        let mut answer = Vec::new();
        run(format!("setup\t1\t500\t125\t00000000\t0\t0\n{line}\n").as_bytes(), &mut answer).unwrap();
        assert_eq!(answer, b"0\n?\n", "{line:?}");
    }
}
