//! One call of the six, made of both, the second implementation and the library.

use second::receiver::*;
use shared::compare::junk;
use shared::dice::Dice;
use shared::library;

use crate::coverage::Coverage;

pub type Run<'a> = shared::compare::Run<'a, Coverage>;

#[derive(Clone, Copy, PartialEq, Eq)]
pub enum Entry {
    PowerUp,
    Read,
    Write,
    Arrive,
    Drain,
    Line,
}

use Entry::*;

pub const ENTRIES: [Entry; 6] = [PowerUp, Read, Write, Arrive, Drain, Line];

impl Entry {
    pub fn name(self) -> &'static str {
        match self {
            PowerUp => "power-up",
            Read => "read",
            Write => "write",
            Arrive => "arrival",
            Drain => "drain",
            Line => "line",
        }
    }

    /// In the order of asking.
    pub fn refusals(self) -> &'static [u32] {
        match self {
            PowerUp => &POWER_UP_REFUSALS,
            Read => &READ_REFUSALS,
            Write => &WRITE_REFUSALS,
            Arrive => &ARRIVE_REFUSALS,
            Drain => &DRAIN_REFUSALS,
            Line => &LINE_REFUSALS,
        }
    }

    /// How long the three slices have to be, 0 where the entry doesn't get one.
    pub fn lengths(self) -> [usize; 3] {
        let [frame, room] = match self {
            PowerUp | Write => [0, 0],
            Read => [0, VALUE_BYTES],
            Arrive => [FRAME_BYTES, 0],
            Drain => [0, FRAME_BYTES],
            Line => [0, LINE_BYTES],
        };
        [STATE_BYTES, frame, room]
    }
}

/// The slice, of the three, whose length a refusal is about.
pub fn slice_of(refusal: u32) -> Option<usize> {
    match refusal {
        REFUSED_RECEIVER_LENGTH => Some(0),
        REFUSED_INPUT_LENGTH => Some(1),
        REFUSED_OUTPUT_LENGTH => Some(2),
        _ => None,
    }
}

/// What a call gets. Only reads and writes get the number, only writes the value.
pub struct Call {
    pub entry: Entry,
    pub number: u32,
    pub value: u8,
    /// The receiver, the frame that arrives, and the room for what is handed on, read or said.
    pub slices: [Vec<u8>; 3],
}

impl Call {
    /// One that is carried out if the receiver is whole: any register, value and frame. The room
    /// holds junk before the call.
    pub fn of(entry: Entry, receiver: Vec<u8>, dice: &mut Dice) -> Call {
        let [_, frame, room] = entry.lengths().map(|length| junk(length, dice));
        Call {
            entry,
            number: dice.below(REGISTERS as u32),
            value: dice.byte(),
            slices: [receiver, frame, room],
        }
    }
}

impl shared::compare::Call for Call {
    const NAMES: [&'static str; 3] = ["receiver", "frame", "room"];

    fn slices(&self) -> [&[u8]; 3] {
        self.slices.each_ref().map(Vec::as_slice)
    }

    fn title(&self) -> String {
        let (name, number, value) = (self.entry.name(), self.number, self.value);
        match self.entry {
            Read => format!("{name} of register {number}"),
            Write => format!("{name} of {value} to register {number}"),
            _ => name.to_string(),
        }
    }

    fn second(&self, [receiver, frame, room]: [&mut [u8]; 3]) -> u32 {
        match self.entry {
            PowerUp => power_up(receiver),
            Read => read(receiver, self.number, room),
            Write => write(receiver, self.number, self.value),
            Arrive => arrive(receiver, frame),
            Drain => drain(receiver, room),
            Line => line(receiver, room),
        }
    }

    fn library(&self, [receiver, frame, room]: [&mut [u8]; 3]) -> u32 {
        match self.entry {
            PowerUp => library::receiver::power_up(receiver),
            Read => library::receiver::read(receiver, self.number, room),
            Write => library::receiver::write(receiver, self.number, self.value),
            Arrive => library::receiver::arrive(receiver, frame),
            Drain => library::receiver::drain(receiver, room),
            Line => library::receiver::line(receiver, room),
        }
    }

    fn take(&mut self, left: [&[u8]; 3]) {
        for (own, left) in self.slices.iter_mut().zip(left) {
            own.copy_from_slice(left);
        }
    }
}
