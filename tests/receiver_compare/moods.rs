//! What hosts do with a receiver, and how often.

use shared::dice::Dice;

/// What a host does next, or what happens to it.
#[derive(Clone, Copy, PartialEq, Eq)]
pub enum Action {
    /// Frames arrive, up to so many one after the other.
    Arrivals(u32),
    /// As many as there is room for, up to so many.
    FittingArrivals(u32),
    Drains(u32),
    /// Until none is held, and once more.
    DrainAll,
    /// Reads registers, the first ones more often.
    Look,
    Line,
    /// Reads status and acknowledges some or all of what it says, or something else.
    Acknowledge,
    Mask,
    ClearOverrun,
    /// Writes to status or to a mailbox.
    IdleWrite,
    PowerUp,
    /// A call that is refused, or several.
    Mistake,
}

use Action::*;

/// How often each of its actions comes, in shares.
pub struct Mood {
    pub name: &'static str,
    actions: &'static [(u32, Action)],
}

impl Mood {
    pub fn draw(&self, dice: &mut Dice) -> Action {
        let shares = self.actions.iter().map(|action| action.0).sum();
        let mut share = dice.below(shares);
        for &(own, action) in self.actions {
            if share < own {
                return action;
            }
            share -= own;
        }
        Look
    }
}

#[rustfmt::skip]
pub const MOODS: [Mood; 7] = [
    Mood { name: "in step", actions: &[(6, FittingArrivals(2)), (6, Drains(2)), (1, Look), (1, Line), (1, Mistake)] },
    Mood { name: "nearly full", actions: &[(6, FittingArrivals(8)), (6, Drains(3)), (1, IdleWrite), (1, Mask), (1, Line), (1, Mistake)] },
    Mood { name: "bursts", actions: &[(4, Arrivals(12)), (4, Drains(5)), (1, ClearOverrun), (1, Look), (1, Mistake)] },
    Mood { name: "drains all", actions: &[(4, Arrivals(7)), (4, DrainAll), (1, ClearOverrun), (1, Line), (1, Mistake)] },
    Mood { name: "acknowledges", actions: &[
        (6, Arrivals(4)), (1, Arrivals(12)), (5, Acknowledge), (1, Drains(2)), (1, ClearOverrun), (1, Look), (1, Line), (1, Mistake),
    ] },
    Mood { name: "masks", actions: &[(2, Mask), (6, Line), (4, Arrivals(3)), (3, Drains(3)), (1, Acknowledge), (1, Mistake)] },
    Mood { name: "anything", actions: &[
        (4, Arrivals(3)), (1, Arrivals(10)), (4, Drains(3)), (1, DrainAll), (2, Look), (2, Line), (2, Acknowledge), (1, Mask),
        (1, ClearOverrun), (1, IdleWrite), (1, PowerUp), (1, Mistake),
    ] },
];
