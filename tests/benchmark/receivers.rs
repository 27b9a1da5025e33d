//! The receive chip's arrivals and drains, both sides behind the same calls, each with a receiver
//! that is brought to where it is measured. Both sides get the same frames.

use std::hint::black_box;
use std::time::Duration;

use second::receiver::{self, place, DONE, FRAME_BYTES, MAILBOXES, OVERRUN_SET, STATE_BYTES};
use shared::{hex, library};

use crate::{timed, ROUNDS, ROUNDS_IN_A_PASS};

type Call = fn(&mut [u8], &mut [u8]) -> u32;
type Frame = [u8; FRAME_BYTES];

/// A name, power-up, arrive and drain. Both sides are called through pointers, so that neither is
/// built into the loop that times it.
type Side = (&'static str, fn(&mut [u8]) -> u32, Call, Call);

const SIDES: [Side; 2] = [
    (
        "library",
        library::receiver::power_up,
        library::receiver::arrive,
        library::receiver::drain,
    ),
    (
        "second",
        receiver::power_up,
        |receiver, frame| receiver::arrive(receiver, frame),
        receiver::drain,
    ),
];

/// A frame arrives and one is drained, the same or, where others were held, the one held longest.
const PAIR: &str = "pair";
/// A frame arrives where all mailboxes are full.
const LOSS: &str = "loss";

/// With how many frames held before.
const KINDS: [(&str, usize); 3] = [(PAIR, 0), (PAIR, MAILBOXES - 1), (LOSS, MAILBOXES)];

/// The frames of a list: more than the ticks of one, as a pair takes far less time than a tick.
const LIST: usize = 1_024;

fn list() -> Vec<Frame> {
    let frame = |number: usize| std::array::from_fn(|at| (number * 31 + at * 7) as u8);
    (0..LIST).map(frame).collect()
}

struct Chip {
    arrive: Call,
    drain: Option<Call>,
    receiver: [u8; STATE_BYTES],
    room: Frame,
}

impl Chip {
    /// From power-up on, with so many frames held. The turn has gone half round before.
    fn holding((name, power_up, arrive, drain): Side, kind: &str, held: usize) -> Chip {
        let mut receiver = [0xEE; STATE_BYTES];
        let mut room = [0xEE; FRAME_BYTES];
        assert_eq!(power_up(&mut receiver), DONE, "power-up of {name}");
        for number in 0..MAILBOXES / 2 + held {
            let mut frame = [number as u8; FRAME_BYTES];
            assert_eq!(arrive(&mut receiver, &mut frame), DONE, "arrival, {name}");
            if number < MAILBOXES / 2 {
                assert_eq!(drain(&mut receiver, &mut room), DONE, "drain, {name}");
            }
        }
        Chip {
            arrive,
            drain: (kind == PAIR).then_some(drain),
            receiver,
            room,
        }
    }

    /// The part that is timed and counted. Nothing is cleared: the receiver goes on from call to
    /// call, the room is overwritten. It stays by itself, so that what is around it makes no
    /// difference to the loops.
    #[inline(never)]
    fn run(&mut self, frames: &mut [Frame]) {
        let Some(drain) = self.drain else {
            for frame in frames {
                black_box((self.arrive)(&mut self.receiver, black_box(frame)));
            }
            return;
        };
        for frame in frames {
            black_box((self.arrive)(&mut self.receiver, black_box(frame)));
            black_box(drain(&mut self.receiver, &mut self.room));
        }
    }
}

/// A row of the table, both sides.
pub struct Row {
    kind: &'static str,
    held: usize,
    frames: Vec<Frame>,
    /// Where each round begins.
    receiver: [u8; STATE_BYTES],
    chips: [Chip; 2],
    least: [Duration; 2],
}

pub fn rows() -> Result<Vec<Row>, String> {
    KINDS
        .iter()
        .map(|&(kind, held)| Row::new(kind, held))
        .collect()
}

impl Row {
    fn new(kind: &'static str, held: usize) -> Result<Row, String> {
        compare(kind, held)?;
        let chips = SIDES.map(|side| Chip::holding(side, kind, held));
        Ok(Row {
            kind,
            held,
            frames: list(),
            receiver: chips[0].receiver,
            chips,
            least: [Duration::MAX; 2],
        })
    }

    pub fn time(&mut self) -> Result<(), String> {
        for _ in 0..ROUNDS_IN_A_PASS {
            for (chip, least) in self.chips.iter_mut().zip(&mut self.least) {
                chip.receiver = self.receiver;
                timed(least, || chip.run(&mut self.frames));
            }
            same_bytes(&self.chips)?;
        }
        Ok(())
    }

    fn text(&self) -> String {
        let nanoseconds = self.least.map(|least| least.as_nanos() as f64);
        let [library, second] = nanoseconds.map(|all| all / LIST as f64);
        let (held, kind, ratio) = (self.held, self.kind, library / second);
        format!("{held:5}  {kind:12}  {library:10.1}  {second:9.1}  {ratio:14.2}\n")
    }
}

/// After each frame every byte of both sides; and it has to be what its kind says.
fn compare(kind: &str, held: usize) -> Result<(), String> {
    let mut chips = SIDES.map(|side| Chip::holding(side, kind, held));
    for frame in &mut list() {
        same_bytes(&chips)?;
        for chip in &mut chips {
            chip.run(std::slice::from_mut(frame));
            let now_held = chip.receiver[place::STATUS].count_ones() as usize;
            let lost = chip.receiver[place::OVERRUN] == OVERRUN_SET;
            if now_held != held || lost != (kind == LOSS) {
                return Err(format!("{kind}, {held} held: {}\n", hex(&chip.receiver)));
            }
        }
    }
    same_bytes(&chips)
}

fn same_bytes(chips: &[Chip; 2]) -> Result<(), String> {
    let bytes = |chip: &Chip| [&chip.receiver[..], &chip.room].concat();
    match chips.each_ref().map(bytes) {
        [library, second] if library == second => Ok(()),
        [library, second] => Err(format!(
            "library {}\nsecond  {}\n",
            hex(&library),
            hex(&second)
        )),
    }
}

pub fn text(rows: &[Row]) -> String {
    let rounds = 2 * rows.len() * ROUNDS;
    let rows: String = rows.iter().map(Row::text).collect();
    format!(
        "\nThe receive chip, {rounds} rounds of {LIST} timed in the same way: a pair is an arrival \
         and a drain, a loss\nan arrival alone. The receiver goes on from call to call.\n\n \
         held  kind          library ns  second ns  library/second\n{rows}"
    )
}

/// `None` if there is no such side or kind.
pub fn count(side: &str, kind: &str, held: usize, rounds: usize) -> Option<usize> {
    let side = SIDES.into_iter().find(|known| known.0 == side)?;
    let (kind, held) = KINDS.into_iter().find(|known| *known == (kind, held))?;
    let (mut chip, mut frames) = (Chip::holding(side, kind, held), list());
    let receiver = chip.receiver;
    for _ in 0..rounds {
        chip.receiver = receiver;
        chip.run(&mut frames);
    }
    Some(rounds * LIST)
}
