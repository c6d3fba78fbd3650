//! Which states of a model last: those from which an endless run leaves.
//!
//! An endless run has more places than the model has states, so it meets some state twice. A state therefore
//! lasts exactly if a way leads from it to a state from which a way leads back to it.

use crate::model::{read_model, Model};
use crate::refusal::Refusal;
use crate::set::{has, members, only};

/// What is said of a model's states.
#[derive(Debug, Clone, Copy, PartialEq, Eq)]
pub struct Lasting {
    /// How many there are.
    pub states: u64,
    /// The set of those from which an endless run leaves.
    pub set: u64,
}

/// The states from which an endless run leaves, or the refusal of the model.
pub fn lasting(model: &[u8]) -> Result<Lasting, Refusal> {
    let model = read_model(model)?;
    Ok(Lasting {
        states: model.size() as u64,
        set: model.lasting(),
    })
}

impl Model {
    /// The set of the states from which an endless run leaves.
    fn lasting(&self) -> u64 {
        let after: Vec<u64> = (0..self.size()).map(|state| self.after(state)).collect();
        let comes_back = |state| has(after[state], state);
        (0..self.size())
            .filter(|&state| members(after[state]).any(comes_back))
            .map(only)
            .sum()
    }

    /// The states that a way of one step or more leads to.
    fn after(&self, state: usize) -> u64 {
        let mut met = self.successors[state];
        loop {
            let more = members(met).fold(met, |met, next| met | self.successors[next]);
            if more == met {
                return met;
            }
            met = more;
        }
    }

    /// The model without the states from which no endless run leaves, numbers kept: nothing begins in such a
    /// state, enters it or leaves it.
    pub(crate) fn without_dead_ends(&self) -> Model {
        let lasting = self.lasting();
        let left = |state: usize| match has(lasting, state) {
            true => self.successors[state] & lasting,
            false => 0,
        };
        Model {
            letters: self.letters.clone(),
            initial: self.initial & lasting,
            successors: (0..self.size()).map(left).collect(),
        }
    }
}
