//! The call, made of both, the second implementation and the library.

use second::plug::{plug_sense, PLUG_BYTES};
use shared::compare::junk;
use shared::dice::Dice;
use shared::library;

use crate::coverage::Coverage;

pub type Run<'a> = shared::compare::Run<'a, Coverage>;

#[derive(Clone)]
pub struct Call {
    pub state: Vec<u8>,
    pub millivolts: u32,
    pub plug: Vec<u8>,
}

impl Call {
    /// One that is carried out if state and value are good. The plug mostly holds what no call
    /// writes.
    pub fn of(state: &[u8], millivolts: u32, dice: &mut Dice) -> Call {
        let mut plug = junk(PLUG_BYTES, dice);
        plug[0] = dice.pick(&[0, 1, plug[0], plug[0]]);
        Call {
            state: state.to_vec(),
            millivolts,
            plug,
        }
    }
}

impl shared::compare::Call for Call {
    const NAMES: [&'static str; 3] = ["state", "plug", "none"];

    fn slices(&self) -> [&[u8]; 3] {
        [&self.state, &self.plug, &[]]
    }

    fn title(&self) -> String {
        format!("plug_sense of {} millivolts", self.millivolts)
    }

    fn second(&self, [state, plug, _]: [&mut [u8]; 3]) -> u32 {
        plug_sense(state, self.millivolts, plug)
    }

    fn library(&self, [state, plug, _]: [&mut [u8]; 3]) -> u32 {
        library::plug_sense(state, self.millivolts, plug)
    }

    fn take(&mut self, [state, plug, _]: [&[u8]; 3]) {
        self.state.copy_from_slice(state);
        self.plug.copy_from_slice(plug);
    }
}
