//! Models: from files to the bytes that the proved calls read, with the names that people use.

mod decoder;
mod evaluator;
mod formulas;
mod lines;
mod reader;
mod second;
mod writer;

pub use decoder::{decode, State};
pub use writer::{hex_line, hexadecimal, text};

use crate::names::Names;
use crate::trouble::Trouble;
use gongcollar::{Refusal, STATES};

/// The bytes of a state.
pub const RECORD: usize = 11;
/// Where in a state's bytes its successors begin.
pub const SUCCESSORS_AT: usize = 3;
/// The kind of a state.
pub const STATE_KIND: u8 = 0x20;

/// A model that the proved reader accepts, and the names that go with it.
#[derive(Debug, Clone, PartialEq, Eq)]
pub struct Model {
    bytes: Vec<u8>,
    names: Names,
    states: usize,
    lasting: u64,
    named: Option<u64>,
}

impl Model {
    /// The model of a text. What was made of it is read again by a second way, and compared.
    pub fn from_text(source: &str, text: &str) -> Result<Model, Trouble> {
        let text = text.strip_prefix('\u{FEFF}').unwrap_or(text);
        let read = reader::read(source, text)?;
        if let Err(difference) = second::agrees(text, &read) {
            return Err(Trouble::slip(format!(
                "{source}: what was made of the text is not what it says: {difference}"
            )));
        }
        let model = Model::of(read.bytes, read.names).map_err(|refusal| {
            Trouble::slip(format!("{source}: the model made of the text is {refusal}"))
        })?;
        Ok(Model {
            named: read.named,
            ..model
        })
    }

    /// The model of these bytes, with no names.
    pub fn from_bytes(source: &str, bytes: &[u8]) -> Result<Model, Trouble> {
        Model::of(bytes.to_vec(), Names::default()).map_err(|refusal| refused(source, &refusal))
    }

    /// Asks the proved calls.
    fn of(bytes: Vec<u8>, names: Names) -> Result<Model, Refusal> {
        let lasting = gongcollar::lasting(&bytes)?;
        Ok(Model {
            bytes,
            names,
            // At most 64.
            states: lasting.states as usize,
            lasting: lasting.set,
            named: None,
        })
    }

    /// The bytes in the house form.
    pub fn bytes(&self) -> &[u8] {
        &self.bytes
    }

    /// What propositions and states are called.
    pub fn names(&self) -> &Names {
        &self.names
    }

    /// The set of the propositions that its formulas name, if formulas say it. The others are free.
    pub fn named(&self) -> Option<u64> {
        self.named
    }

    /// The states in which nothing holds but these propositions and those that its formulas name: they stand for all,
    /// since what goes for one goes for it with the others on. All states, if the model was drawn.
    pub fn standing_for_all(&self, propositions: u64) -> u64 {
        let Some(named) = self.named else {
            return self.all();
        };
        let within = |&state: &usize| state as u64 & !(named | propositions) == 0;
        (0..self.len())
            .filter(within)
            .fold(0, |set, state| set | 1 << state)
    }

    /// The number of states.
    pub fn len(&self) -> usize {
        self.states
    }

    /// Whether there is no state.
    pub fn is_empty(&self) -> bool {
        self.states == 0
    }

    /// The states as they stand in the bytes.
    pub fn states(&self) -> Vec<State> {
        decode(&self.bytes)
    }

    /// The set of all states.
    pub fn all(&self) -> u64 {
        match self.states {
            0 => 0,
            states => u64::MAX >> (STATES - states.min(STATES)),
        }
    }

    /// The set of the states from which an endless run leaves, as the proved call says.
    pub fn lasting(&self) -> u64 {
        self.lasting
    }

    /// The set of the initial states.
    pub fn initial(&self) -> u64 {
        let states = self.states();
        let initial = states.iter().enumerate().filter(|(_, state)| state.initial);
        initial.fold(0, |set, (at, _)| set | 1 << at)
    }
}

/// A refusal of bytes that were given as bytes.
fn refused(source: &str, refusal: &Refusal) -> Trouble {
    // A place is an offset in the model's bytes.
    let place = refusal.place() as usize;
    Trouble::new(format!(
        "{source}: refused {} at byte {place}: {}",
        refusal.number(),
        refusal.says()
    ))
    .hint(format!(
        "that is byte {} of state {}",
        place % RECORD,
        place / RECORD
    ))
    .hint("a state has 11 bytes: 20, its letter, 01 if it is initial or 00, and 8 of successors")
}
