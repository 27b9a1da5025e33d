//! One call made of both, the second implementation and the library.

use second::inputs::LeadInput;
use second::post;
use shared::compare::junk;
use shared::dice::Dice;
use shared::library;
use shared::numbers::Numbers;

use crate::coverage::Coverage;
use crate::turns::{turns, Turn};

pub type Run<'a> = shared::compare::Run<'a, Coverage>;

/// What a call gets: setup its numbers and a state, tick the three slices.
pub struct Call {
    pub numbers: Option<Numbers>,
    pub state: Vec<u8>,
    pub input: Vec<u8>,
    pub output: Vec<u8>,
}

impl shared::compare::Call for Call {
    const NAMES: [&'static str; 3] = ["state", "input", "output"];

    fn slices(&self) -> [&[u8]; 3] {
        [&self.state, &self.input, &self.output]
    }

    fn title(&self) -> String {
        match &self.numbers {
            Some(numbers) => format!("setup of {numbers:?}"),
            None => "tick".to_string(),
        }
    }

    fn second(&self, [state, input, output]: [&mut [u8]; 3]) -> u32 {
        match &self.numbers {
            Some(numbers) => numbers.set_up(state),
            None => post::tick(state, input, output),
        }
    }

    fn library(&self, [state, input, output]: [&mut [u8]; 3]) -> u32 {
        match &self.numbers {
            Some(numbers) => library::setup(numbers, state),
            None => library::tick(state, input, output),
        }
    }

    fn take(&mut self, [state, ..]: [&[u8]; 3]) {
        self.state.copy_from_slice(state);
    }
}

impl Call {
    pub fn setup(numbers: Numbers, state: Vec<u8>) -> Call {
        let mut call = Call::of([state, Vec::new(), Vec::new()]);
        call.numbers = Some(numbers);
        call
    }

    /// A tick.
    pub fn of([state, input, output]: [Vec<u8>; 3]) -> Call {
        Call {
            numbers: None,
            state,
            input,
            output,
        }
    }

    /// The allowance is drawn when the wants are known; there are no turns if the state is refused.
    /// The output holds junk before the call.
    pub fn tick<A>(state: Vec<u8>, inputs: Vec<LeadInput>, allowance: A, dice: &mut Dice) -> Call
    where
        A: FnOnce(&[Turn], &mut Dice) -> u32,
    {
        let output = junk(post::output_bytes(inputs.len()), dice);
        let mut input = shared::post::input(0, inputs);
        let turns = turns(&state, &input).unwrap_or_default();
        let allowance = allowance(&turns, dice).to_le_bytes();
        input[..allowance.len()].copy_from_slice(&allowance);
        Call::of([state, input, output])
    }
}
