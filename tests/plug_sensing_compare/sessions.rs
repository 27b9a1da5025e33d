//! Lists of values from a fresh state on. Refused calls come in between; one that is refused for
//! its state was lent another one.
//!
//! Beside the comparison the plain claim of the request is held of each list at its end: the bit is
//! closed exactly where the value lies in the lowest range, or in the middle one with the value
//! before it in the lowest. What a call came to is the same on both sides by then, so that the
//! claim is held of both at once.

use second::plug::{CLOSED, DONE, FRESH, U1B, U1C};

use crate::call::{Call, Run};
use crate::garbled;
use crate::kinds::{draw, kind_of, KINDS, LOWEST, MIDDLE};

/// A value of a list, and what came before it.
pub struct Heard {
    /// Of the value, of the one before it, and of the one before that.
    pub kind: usize,
    pub before: Option<usize>,
    pub before_that: Option<usize>,
    /// The refusals since the value before.
    pub refused: Vec<u32>,
    pub closed: bool,
}

pub fn run(run: &mut Run) -> Result<(), String> {
    let mut list = List {
        state: FRESH.to_vec(),
        run,
        accepted: Vec::new(),
        refused: Vec::new(),
    };
    let calls = list.run.dice.pick(&[1, 2, 8, 40, 40]);
    for _ in 0..calls {
        list.call()?;
    }
    list.claim()
}

struct List<'r, 'a> {
    state: Vec<u8>,
    run: &'r mut Run<'a>,
    /// Each accepted value, with its bit.
    accepted: Vec<(u32, bool)>,
    /// Since the last one.
    refused: Vec<u32>,
}

impl List<'_, '_> {
    fn call(&mut self) -> Result<(), String> {
        let any = self.run.dice.below(KINDS.len() as u32) as usize;
        let kind = self.run.dice.pick(&[LOWEST, LOWEST, MIDDLE, MIDDLE, any]);
        let millivolts = draw(kind, &mut self.run.dice);
        let mut call = Call::of(&self.state, millivolts, &mut self.run.dice);
        if self.run.dice.one_in(3) {
            return self.mistake(call);
        }
        let number = self.run.make(&mut call)?;
        assert_eq!(number, DONE, "a value that is taken");
        self.state = call.state;
        self.accept(millivolts, call.plug == CLOSED);
        Ok(())
    }

    /// The list goes on with its own state, which the call has left as it was.
    fn mistake(&mut self, mut call: Call) -> Result<(), String> {
        garbled::spoil(&mut call, &mut self.run.dice);
        let number = self.run.make_refused(&mut call)?;
        self.refused.push(number);
        Ok(())
    }

    fn accept(&mut self, millivolts: u32, closed: bool) {
        let kind_before = |back: usize| {
            let at = self.accepted.len().checked_sub(back)?;
            Some(kind_of(self.accepted[at].0))
        };
        let heard = Heard {
            kind: kind_of(millivolts),
            before: kind_before(1),
            before_that: kind_before(2),
            refused: std::mem::take(&mut self.refused),
            closed,
        };
        self.run.tables.count_heard(&heard);
        self.accepted.push((millivolts, closed));
    }

    fn claim(&self) -> Result<(), String> {
        let value = |at: usize| self.accepted[at].0;
        for (at, &(millivolts, closed)) in self.accepted.iter().enumerate() {
            let just_after = at > 0 && U1C.contains(&value(at - 1));
            let rule = U1C.contains(&millivolts) || U1B.contains(&millivolts) && just_after;
            if closed != rule {
                let place = self.run.place();
                return Err(format!(
                    "in the list up to {place}: value {at}, {millivolts}, is not what the rule says\n"
                ));
            }
        }
        Ok(())
    }
}
