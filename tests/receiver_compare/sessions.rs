//! Receivers from power-up on, each with a host of some mood. Refused calls come in between.
//!
//! Beside the comparison the plain claim of the request is held: of arrivals and drains from
//! power-up on, the frames handed on, followed by those held, are the arrivals in their order; one
//! that was lost is none of them. What a call came to is the same on both sides by then, so that
//! the claim is held of both at once. It says nothing after a write to acknowledge.

use std::collections::VecDeque;

use second::receiver::place::{ACKNOWLEDGE, FIRST_MAILBOX, MASK, OVERRUN, STATUS};
use second::receiver::{DONE, MAILBOXES, REGISTERS};
use shared::dice::Dice;

use crate::call::{Call, Entry, Run, ENTRIES};
use crate::garbled;
use crate::moods::{Action, MOODS};
use crate::steps::{held, turn, Receiver, ALL};

pub fn run(run: &mut Run) -> Result<(), String> {
    let mood = &MOODS[run.number as usize % MOODS.len()];
    let actions = 20 + run.dice.pick(&[0, 40, 40, 40, 160]);
    let mut session = Session {
        // Power-up finds whatever lay there.
        receiver: run.dice.bytes(),
        run,
        queue: None,
        past: Past::new(mood.name),
    };
    session.begin()?;
    for _ in 0..actions {
        let action = mood.draw(&mut session.run.dice);
        session.act(action)?;
    }
    session.end()
}

/// What came to pass from the last power-up to the end of a session, or to the next power-up.
pub struct Past {
    pub mood: &'static str,
    pub fills: u64,
    pub losses: u64,
    pub handed_on: u64,
    /// The most at once, and at the end.
    pub most_held: usize,
    pub held: usize,
    /// Without a write to acknowledge, so that the claim was held to the end.
    pub claimed: bool,
}

impl Past {
    fn new(mood: &'static str) -> Past {
        Past {
            mood,
            fills: 0,
            losses: 0,
            handed_on: 0,
            most_held: 0,
            held: 0,
            claimed: false,
        }
    }
}

struct Session<'r, 'a> {
    receiver: Receiver,
    run: &'r mut Run<'a>,
    /// The frames that arrived and were neither lost nor handed on, until a write to acknowledge.
    queue: Option<VecDeque<Vec<u8>>>,
    past: Past,
}

impl Session<'_, '_> {
    fn act(&mut self, action: Action) -> Result<(), String> {
        match action {
            Action::Arrivals(most) => self.arrivals(most),
            Action::FittingArrivals(most) => {
                let room = MAILBOXES - self.held();
                self.arrivals(most.min(room as u32))
            }
            Action::Drains(most) => {
                let count = 1 + self.dice().below(most);
                (0..count).try_for_each(|_| self.drain())
            }
            Action::DrainAll => self.drain_all(),
            Action::Look => self.look(),
            Action::Line => self.make(Entry::Line, |_, _| {}),
            Action::Acknowledge => self.acknowledge(),
            Action::Mask => self.write(MASK, draw_mask),
            Action::ClearOverrun => self.write(OVERRUN, |dice| dice.pick(&[0, 1, 1, 2, 255])),
            Action::IdleWrite => {
                let mailboxes = (REGISTERS - FIRST_MAILBOX) as u32;
                let mailbox = FIRST_MAILBOX + self.dice().below(mailboxes) as usize;
                let register = self.dice().pick(&[STATUS, mailbox]);
                self.write(register, Dice::byte)
            }
            Action::PowerUp => {
                self.count();
                self.begin()
            }
            Action::Mistake => self.mistake(),
        }
    }

    fn dice(&mut self) -> &mut Dice {
        &mut self.run.dice
    }

    fn held(&self) -> usize {
        self.receiver[STATUS].count_ones() as usize
    }

    /// A call that is carried out, with what the change makes of it. It is given back as after it.
    fn call(
        &mut self,
        entry: Entry,
        change: impl FnOnce(&mut Call, &mut Dice),
    ) -> Result<Call, String> {
        let mut call = Call::of(entry, self.receiver.to_vec(), &mut self.run.dice);
        change(&mut call, &mut self.run.dice);
        let number = self.run.make(&mut call)?;
        assert_eq!(number, DONE, "a call of a whole receiver");
        self.receiver.copy_from_slice(&call.slices[0]);
        Ok(call)
    }

    fn make(
        &mut self,
        entry: Entry,
        change: impl FnOnce(&mut Call, &mut Dice),
    ) -> Result<(), String> {
        self.call(entry, change)?;
        self.claim()
    }

    /// The frames held are those that wait, in their order.
    fn claim(&mut self) -> Result<(), String> {
        self.past.most_held = self.past.most_held.max(self.held());
        match &self.queue {
            Some(queue) if !held(&self.receiver).into_iter().eq(queue) => Err(self.broken("held")),
            _ => Ok(()),
        }
    }

    fn broken(&self, what: &str) -> String {
        let place = self.run.place();
        format!("after {place}: the frames {what} are not the arrivals in their order\n")
    }

    fn begin(&mut self) -> Result<(), String> {
        self.queue = Some(VecDeque::new());
        self.past = Past::new(self.past.mood);
        self.make(Entry::PowerUp, |_, _| {})
    }

    /// The list is over.
    fn count(&mut self) {
        self.past.held = self.held();
        self.past.claimed = self.queue.is_some();
        self.run.tables.count_past(&self.past);
    }

    fn arrivals(&mut self, most: u32) -> Result<(), String> {
        if most == 0 {
            return Ok(());
        }
        let count = 1 + self.dice().below(most);
        (0..count).try_for_each(|_| self.arrive())
    }

    /// As long as none was acknowledged, a frame is lost exactly when eight wait.
    fn arrive(&mut self) -> Result<(), String> {
        let held = self.held();
        let call = self.call(Entry::Arrive, draw_frame)?;
        let lost = self.held() == held;
        self.past.fills += u64::from(!lost);
        self.past.losses += u64::from(lost);
        if let Some(queue) = &mut self.queue {
            if queue.len() < MAILBOXES {
                queue.push_back(call.slices[1].clone());
            }
        }
        self.claim()
    }

    fn drain(&mut self) -> Result<(), String> {
        let mut lent = Vec::new();
        let call = self.call(Entry::Drain, |call, _| lent.clone_from(&call.slices[2]))?;
        if let Some(queue) = &mut self.queue {
            let next = queue.pop_front();
            self.past.handed_on += u64::from(next.is_some());
            // With none held the lent frame keeps its bytes.
            if call.slices[2] != next.unwrap_or(lent) {
                return Err(self.broken("handed on"));
            }
        }
        self.claim()
    }

    fn drain_all(&mut self) -> Result<(), String> {
        while self.held() > 0 {
            self.drain()?;
        }
        self.drain()
    }

    fn look(&mut self) -> Result<(), String> {
        for _ in 0..1 + self.dice().below(6) {
            self.make(Entry::Read, |call, dice| {
                let low = dice.below(FIRST_MAILBOX as u32);
                call.number = dice.pick(&[low, call.number]);
            })?;
        }
        Ok(())
    }

    fn write(&mut self, register: usize, value: impl Fn(&mut Dice) -> u8) -> Result<(), String> {
        self.make(Entry::Write, |call, dice| {
            (call.number, call.value) = (register as u32, value(dice));
        })
    }

    fn acknowledge(&mut self) -> Result<(), String> {
        self.make(Entry::Read, |call, _| call.number = STATUS as u32)?;
        self.queue = None;
        let (full, next) = (self.receiver[STATUS], 1 << turn(&self.receiver));
        self.write(ACKNOWLEDGE, |dice| {
            let (one, any) = (1 << dice.below(MAILBOXES as u32), dice.byte());
            let lowest = full & full.wrapping_neg();
            dice.pick(&[0, one, any, lowest, full, full & any, !full, !next, ALL])
        })
    }

    /// Refused calls leave the receiver to go on with.
    fn mistake(&mut self) -> Result<(), String> {
        for _ in 0..1 + self.dice().below(3) {
            let entry = self.dice().pick(&ENTRIES);
            let mut call = Call::of(entry, self.receiver.to_vec(), self.dice());
            garbled::spoil(&mut call, self.dice());
            self.run.make_refused(&mut call)?;
            if let Ok(receiver) = call.slices[0].as_slice().try_into() {
                self.receiver = receiver;
            }
        }
        Ok(())
    }

    /// All that is held is handed on, so that the claim is held of it too.
    fn end(mut self) -> Result<(), String> {
        self.count();
        self.drain_all()
    }
}

/// Nothing in a frame is judged. Two that are the same come now and then.
fn draw_frame(call: &mut Call, dice: &mut Dice) {
    let frame = &mut call.slices[1];
    match dice.below(12) {
        0 => frame.fill(0),
        1 => frame.fill(0xFF),
        2 => frame.fill(dice.byte()),
        _ => {}
    }
}

fn draw_mask(dice: &mut Dice) -> u8 {
    let one = 1 << dice.below(MAILBOXES as u32);
    let any = dice.byte();
    dice.pick(&[0, one, one, !one, any, ALL])
}
