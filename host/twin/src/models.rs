//! Reads a model, and takes out the states from which no endless run leaves.

use crate::refusal::{
    Refusal, CUT_SHORT, LETTER_TOO_LARGE, NO_SUCH_STATE, TOO_MANY_STATES, WRONG_FLAG, WRONG_KIND,
};
use crate::sets::{below, members};
use crate::STATES;

const KIND: u8 = 0x20;
const RECORD: usize = 11;
const LETTER: usize = 1;
const FLAG: usize = 2;
const SUCCESSORS: usize = 3;
const LAST_LETTER: u8 = 63;
const INITIAL: u8 = 1;

/// A model in memory. Of state k the letter and the set of successors stand at k; the entries past the states are 0.
#[derive(Debug, Clone)]
pub(crate) struct Model {
    pub states: usize,
    pub letters: [u8; STATES],
    pub initial: u64,
    pub successors: [u64; STATES],
}

/// Reads a whole model.
pub(crate) fn read(bytes: &[u8]) -> Result<Model, Refusal> {
    let mut model = Model {
        states: 0,
        letters: [0; STATES],
        initial: 0,
        successors: [0; STATES],
    };
    for record in bytes.chunks(RECORD) {
        let at = RECORD * model.states;
        if model.states == STATES {
            return Err(Refusal::at(TOO_MANY_STATES, at));
        }
        let whole = whole_record(record, at)?;
        model.letters[model.states] = whole[LETTER];
        model.initial |= u64::from(whole[FLAG]) << model.states;
        model.successors[model.states] = successors(whole);
        model.states += 1;
    }
    let all = below(model.states);
    match model.successors.iter().position(|&next| next & !all != 0) {
        Some(state) => Err(Refusal::at(NO_SUCH_STATE, RECORD * state + SUCCESSORS)),
        None => Ok(model),
    }
}

/// The record that begins at `at`, if it is good.
fn whole_record(record: &[u8], at: usize) -> Result<&[u8; RECORD], Refusal> {
    if record[0] != KIND {
        return Err(Refusal::at(WRONG_KIND, at));
    }
    let cut_short = Refusal::at(CUT_SHORT, at + record.len());
    if *record.get(LETTER).ok_or(cut_short)? > LAST_LETTER {
        return Err(Refusal::at(LETTER_TOO_LARGE, at + LETTER));
    }
    if *record.get(FLAG).ok_or(cut_short)? > INITIAL {
        return Err(Refusal::at(WRONG_FLAG, at + FLAG));
    }
    record.try_into().map_err(|_| cut_short)
}

/// The set of successors, lowest byte first.
fn successors(record: &[u8; RECORD]) -> u64 {
    let [_, _, _, successors @ ..] = *record;
    u64::from_le_bytes(successors)
}

impl Model {
    /// The model without the states from which no endless run leaves, numbers kept.
    pub(crate) fn without_dead_ends(mut self) -> Model {
        let set = self.lasting();
        self.initial &= set;
        for next in &mut self.successors[..self.states] {
            *next &= set;
        }
        self
    }

    /// All states, less those without a successor in what is left, until nothing changes.
    fn lasting(&self) -> u64 {
        let mut set = below(self.states);
        loop {
            let kept = members(set)
                .filter(|&state| self.successors[state] & set != 0)
                .fold(0, |kept, state| kept | 1 << state);
            if kept == set {
                return set;
            }
            set = kept;
        }
    }

    /// The letters that the states have.
    pub(crate) fn used_letters(&self) -> u64 {
        let letters = &self.letters[..self.states];
        letters.iter().fold(0, |set, &letter| set | 1 << letter)
    }

    /// The letter of a state.
    #[inline]
    pub(crate) fn letter(&self, state: usize) -> usize {
        usize::from(self.letters[state])
    }
}
