//! A post of the second implementation, followed so that the next inputs can go on from where its
//! leads stand.

use second::inputs::LeadInput;
use second::lead::{Lead, Rating, STATE_BYTES};
use second::post::{self, Head, HEAD_BYTES};

use crate::numbers::Numbers;

pub struct Post {
    pub state: Vec<u8>,
    pub rating: Rating,
}

impl Post {
    pub fn set_up(numbers: &Numbers) -> Post {
        let mut state = vec![0; post::state_bytes(numbers.leads as usize)];
        assert_eq!(numbers.set_up(&mut state), post::DONE, "{numbers:?}");
        Post::of(state)
    }

    /// Of a state as setup leaves it.
    pub fn of(state: Vec<u8>) -> Post {
        let head = state.first_chunk().and_then(Head::read);
        let rating = head.expect("a head as setup takes it").rating;
        Post { state, rating }
    }

    pub fn leads(&self) -> Vec<Lead> {
        let (records, _) = self.state[HEAD_BYTES..].as_chunks::<STATE_BYTES>();
        let lead = |record| Lead::read(record, &self.rating).expect("a good state");
        records.iter().map(lead).collect()
    }

    pub fn tick(&mut self, input: &[u8]) -> Vec<u8> {
        let mut output = vec![0; post::output_bytes(self.leads().len())];
        let number = post::tick(&mut self.state, input, &mut output);
        assert_eq!(number, post::DONE, "an input that is carried out");
        output
    }
}

/// The number of two bytes that begins in this place.
pub fn number(bytes: &[u8], at: usize) -> u16 {
    u16::from_le_bytes([bytes[at], bytes[at + 1]])
}

pub fn input(allowance: u32, leads: impl IntoIterator<Item = LeadInput>) -> Vec<u8> {
    let mut input = allowance.to_le_bytes().to_vec();
    input.extend(leads.into_iter().flat_map(|lead| lead.0));
    input
}
