//! Posts set up and ticked, each lead steered through its phases to a stop and round again. Refused
//! calls and other setups come in between.

use second::post;
use second::sharing::MOST_LEADS;
use shared::compare::junk;
use shared::dice::Dice;
use shared::lead_input::build;
use shared::plan::Plan;
use shared::post::Post;

use crate::compare::{Call, Run};
use crate::numbers;
use crate::turns::{edge, Turn};

pub fn run(run: &mut Run) -> Result<(), String> {
    let mut session = Session::begin(run)?;
    let longest = run.dice.pick(&[300, 300, 300, 300, 300, 300, 900]);
    for _ in 0..40 + run.dice.below(longest) {
        if run.dice.one_in(12) {
            // One thing wrong, or two. A bad state is a copy: the post's own is never written by
            // others.
            let mut call = session.tick(&mut run.dice);
            for _ in 0..1 + run.dice.below(2) {
                call.spoil(&mut run.dice);
            }
            run.make(&mut call)?;
        }
        if run.dice.one_in(60) {
            let mut call = session.refused_setup(&mut run.dice);
            assert_ne!(run.make(&mut call)?, post::DONE, "{:?}", call.numbers);
        }
        if run.dice.one_in(400) {
            session = Session::begin(run)?;
        }
        let mut call = session.tick(&mut run.dice);
        assert_eq!(run.make(&mut call)?, post::DONE, "a steered tick");
        session.post.state = call.state;
    }
    Ok(())
}

struct Session {
    post: Post,
    plans: Vec<Plan>,
    supply: Supply,
}

impl Session {
    /// Sets a post up, over whatever lay there. Now and then all leads are eager, to share.
    fn begin(run: &mut Run) -> Result<Session, String> {
        let count = 1 + run.dice.below(MOST_LEADS as u32);
        let numbers = numbers::good(count, &mut run.dice);
        let state = junk(post::state_bytes(count as usize), &mut run.dice);
        let mut call = Call::setup(numbers, state);
        assert_eq!(run.make(&mut call)?, post::DONE, "{numbers:?}");
        let post = Post::of(call.state);
        let dice = &mut run.dice;
        let eager = dice.one_in(3);
        let plans = (0..count).map(|_| Plan::draw(post.rating, eager, dice));
        Ok(Session {
            plans: plans.collect(),
            supply: draw_supply(&post, dice),
            post,
        })
    }

    fn tick(&mut self, dice: &mut Dice) -> Call {
        if dice.one_in(25) {
            self.supply = draw_supply(&self.post, dice);
        }
        let mut inputs = Vec::new();
        for (lead, plan) in self.post.leads().iter().zip(&mut self.plans) {
            inputs.push(build(plan.scene(lead, dice), lead.phase, dice));
        }
        let allowance = |turns: &[Turn], dice: &mut Dice| allowance(self.supply, turns, dice);
        Call::tick(self.post.state.clone(), inputs, allowance, dice)
    }

    /// Of the post's own state.
    fn refused_setup(&self, dice: &mut Dice) -> Call {
        let count = self.plans.len() as u32;
        let mut numbers = numbers::good(count, dice);
        if dice.one_in(3) {
            numbers.leads = 1 + count % MOST_LEADS as u32;
        } else {
            numbers::spoil(&mut numbers, dice);
        }
        Call::setup(numbers, self.post.state.clone())
    }
}

/// What a post is fed with for a while: these watts, or without them so many that they are near a
/// number at which a command changes.
type Supply = Option<u32>;

/// Ample, in one bit or in all, is what the whole post may ask for and more.
fn draw_supply(post: &Post, dice: &mut Dice) -> Supply {
    let [volts, amperes] = [post.rating.volts, post.rating.amperes.into()].map(u32::from);
    let watts = volts * amperes * post.leads().len() as u32;
    match dice.below(6) {
        0 => Some(dice.pick(&[watts, watts + 1, 1 << 19, 1 << 24, 1 << 31, u32::MAX])),
        1 => Some(dice.below(4)),
        2 => None,
        _ => Some(dice.below(watts + 1) / (1 + dice.below(4))),
    }
}

fn allowance(supply: Supply, turns: &[Turn], dice: &mut Dice) -> u32 {
    // A lead that ramps down seldom meets a tight supply by itself.
    let ramping = |turn: &Turn| turn.after.phase == 7 && turn.want > 0;
    match supply {
        Some(watts) if !(turns.iter().any(ramping) && dice.one_in(3)) => watts,
        _ => edge(turns, dice),
    }
}
