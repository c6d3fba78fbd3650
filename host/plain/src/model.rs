//! From bytes in the house form to a model, a row of state records, and back.

use crate::bytes::Bytes;
use crate::formula::LAST_LETTER;
use crate::refusal::{
    Refusal, NOT_A_STATE, NO_SUCH_SUCCESSOR, STATE_CUT_SHORT, STATE_FLAG, STATE_LETTER,
    TOO_MANY_STATES,
};
use crate::set::{has, members, only, WORD};

/// The kind of a state record.
const STATE: u8 = 0x20;

/// The length of a state record: kind, letter, flag, successors.
const RECORD: usize = 3 + SUCCESSOR_BYTES;

/// How many bytes of successors a record has.
const SUCCESSOR_BYTES: usize = 8;

/// Where in a record its successors begin.
const SUCCESSORS_AT: usize = 3;

/// The most states of a model.
const MOST_STATES: usize = WORD;

/// A model of jobs. Its states are numbered from 0.
#[derive(Debug, Clone, PartialEq, Eq)]
pub struct Model {
    /// The letter of each state; as many as there are states.
    pub letters: Vec<u8>,
    /// The set of initial states.
    pub initial: u64,
    /// The set of successors of each state.
    pub successors: Vec<u64>,
}

/// Reads a model, or refuses it with 11 to 16.
pub fn read_model(model: &[u8]) -> Result<Model, Refusal> {
    let mut bytes = Bytes::new(model);
    let mut read = Model {
        letters: vec![],
        initial: 0,
        successors: vec![],
    };
    while !bytes.ended() {
        if read.letters.len() == MOST_STATES {
            return Err(Refusal::at(TOO_MANY_STATES, bytes.place()));
        }
        next_state(&mut bytes, &mut read)?;
    }
    match read.state_with_missing_successor() {
        Some(state) => Err(Refusal::at(
            NO_SUCH_SUCCESSOR,
            RECORD * state + SUCCESSORS_AT,
        )),
        None => Ok(read),
    }
}

/// Reads one record into the model, byte by byte.
fn next_state(bytes: &mut Bytes, model: &mut Model) -> Result<(), Refusal> {
    let state = model.letters.len();
    checked(bytes, NOT_A_STATE, |kind| kind == STATE)?;
    let letter = checked(bytes, STATE_LETTER, |letter| letter <= LAST_LETTER)?;
    let flag = checked(bytes, STATE_FLAG, |flag| flag <= 1)?;
    let successors = next_successors(bytes)?;
    model.letters.push(letter);
    if flag == 1 {
        model.initial |= only(state);
    }
    model.successors.push(successors);
    Ok(())
}

/// The next byte if it is as it should be, or the refusal of this number at that byte.
fn checked(bytes: &mut Bytes, number: u64, good: fn(u8) -> bool) -> Result<u8, Refusal> {
    let place = bytes.place();
    let byte = bytes.next(STATE_CUT_SHORT)?;
    if good(byte) {
        Ok(byte)
    } else {
        Err(Refusal::at(number, place))
    }
}

/// The next eight bytes as a word, the lowest first.
fn next_successors(bytes: &mut Bytes) -> Result<u64, Refusal> {
    let mut successors = [0; SUCCESSOR_BYTES];
    for byte in &mut successors {
        *byte = bytes.next(STATE_CUT_SHORT)?;
    }
    Ok(u64::from_le_bytes(successors))
}

impl Model {
    /// The number of states.
    pub(crate) fn size(&self) -> usize {
        self.letters.len()
    }

    /// The records of the states.
    pub fn bytes(&self) -> Vec<u8> {
        (0..self.size())
            .flat_map(|state| self.record(state))
            .collect()
    }

    fn record(&self, state: usize) -> [u8; RECORD] {
        let mut record = [0; RECORD];
        record[..SUCCESSORS_AT].copy_from_slice(&[
            STATE,
            self.letters[state],
            has(self.initial, state).into(),
        ]);
        record[SUCCESSORS_AT..].copy_from_slice(&self.successors[state].to_le_bytes());
        record
    }

    /// The lowest state that names a successor which does not exist.
    fn state_with_missing_successor(&self) -> Option<usize> {
        self.successors
            .iter()
            .position(|&successors| members(successors).any(|state| state >= self.size()))
    }
}
