//! Models: what is known of one, which of its states last, and the search for a run that matches a rule.

pub use crate::raw::Lent;

use crate::raw;
use crate::{Propositions, Refusal, ENTRIES, STATES};

/// The bytes of a state's record: its kind, its letter, its flag, and its successors, the lowest byte first.
const RECORD_BYTES: usize = 11;
const LETTER_AT: usize = 1;
const FLAG_AT: usize = 2;
const SUCCESSORS_AT: usize = 3;

/// What is known of an accepted model.
#[derive(Debug, Clone, Copy, PartialEq, Eq)]
#[non_exhaustive]
pub struct ModelInfo {
    /// The number of states, 0 to 64.
    pub states: u64,
}

/// Reads a model.
///
/// ```
/// let one = [0x20, 0x01, 0x01, 0x01, 0, 0, 0, 0, 0, 0, 0];
/// assert_eq!(gongcollar::read_model(&one)?.states, 1);
/// assert_eq!(gongcollar::read_model(&one[..10]).unwrap_err().number(), 13);
/// # Ok::<(), gongcollar::Refusal>(())
/// ```
pub fn read_model(model: &[u8]) -> Result<ModelInfo, Refusal> {
    let answer = raw::read_model(model);
    let info = ModelInfo {
        states: answer.states,
    };
    Refusal::unless(answer.refused, answer.place, info)
}

/// An accepted model: its bytes in the house form, and what is known of it.
///
/// ```
/// use gongcollar::Model;
///
/// let model = Model::from_bytes(&[
///     0x20, 0x01, 0x01, 0x02, 0, 0, 0, 0, 0, 0, 0, // p0, initial, goes to state 1
///     0x20, 0x02, 0x00, 0x03, 0, 0, 0, 0, 0, 0, 0, // p1, goes to states 0 and 1
/// ])?;
/// assert_eq!((model.states(), model.initial()), (2, 0b01));
/// assert_eq!((model.letter(1), model.successors(1)), (Some(2), 0b11));
/// # Ok::<(), gongcollar::Refusal>(())
/// ```
#[derive(Debug, Clone, PartialEq, Eq)]
pub struct Model {
    bytes: Vec<u8>,
    info: ModelInfo,
}

impl Model {
    /// The model of these bytes.
    pub fn from_bytes(bytes: &[u8]) -> Result<Model, Refusal> {
        let info = read_model(bytes)?;
        let bytes = bytes.to_vec();
        Ok(Model { bytes, info })
    }

    /// The bytes in the house form, as every call of this crate takes them.
    pub fn bytes(&self) -> &[u8] {
        &self.bytes
    }

    /// The number of states, 0 to 64.
    pub fn states(&self) -> u64 {
        self.info.states
    }

    /// What is known of the model.
    pub fn info(&self) -> ModelInfo {
        self.info
    }

    /// The letter of a state, if there is such a state.
    pub fn letter(&self, state: usize) -> Option<u8> {
        Some(self.record(state)?[LETTER_AT])
    }

    /// The set of the initial states, bit s for state s.
    pub fn initial(&self) -> u64 {
        let flags = self.bytes.chunks_exact(RECORD_BYTES).take(STATES);
        let initial = flags.enumerate().filter(|(_, record)| record[FLAG_AT] == 1);
        initial.fold(0, |set, (state, _)| set | 1 << state)
    }

    /// The set of the states that may follow a state, bit t for state t; 0 where there is no such state.
    pub fn successors(&self, state: usize) -> u64 {
        let bytes = self.record(state).map(|record| &record[SUCCESSORS_AT..]);
        bytes.map_or(0, |bytes| {
            let above = |word: u64, &byte: &u8| word << u8::BITS | u64::from(byte);
            bytes.iter().rev().fold(0, above)
        })
    }

    fn record(&self, state: usize) -> Option<&[u8]> {
        self.bytes.chunks_exact(RECORD_BYTES).nth(state)
    }
}

impl TryFrom<&[u8]> for Model {
    type Error = Refusal;

    fn try_from(bytes: &[u8]) -> Result<Model, Refusal> {
        Model::from_bytes(bytes)
    }
}

impl AsRef<[u8]> for Model {
    fn as_ref(&self) -> &[u8] {
        self.bytes()
    }
}

/// Which states of a model last: those from which an endless run leaves. No run that counts enters another.
#[derive(Debug, Clone, Copy, PartialEq, Eq)]
#[non_exhaustive]
pub struct Lasting {
    /// The number of states, 0 to 64.
    pub states: u64,
    /// The set of those that last, bit s for state s.
    pub set: u64,
}

impl Lasting {
    /// The states that do not last, in rising order: dead ends, and what leads to dead ends alone.
    pub fn dead_ends(self) -> impl Iterator<Item = u64> {
        (0..self.states.min(STATES as u64)).filter(move |state| self.set >> state & 1 == 0)
    }
}

/// Tells which states of a model last.
///
/// ```
/// let model = [
///     0x20, 0x01, 0x01, 0x03, 0, 0, 0, 0, 0, 0, 0, // goes to itself and to state 1
///     0x20, 0x02, 0x00, 0x04, 0, 0, 0, 0, 0, 0, 0, // goes to state 2
///     0x20, 0x04, 0x00, 0x00, 0, 0, 0, 0, 0, 0, 0, // goes nowhere
/// ];
/// let lasting = gongcollar::lasting(&model)?;
/// assert_eq!((lasting.states, lasting.set), (3, 0b001));
/// assert!(lasting.dead_ends().eq([1, 2]));
/// # Ok::<(), gongcollar::Refusal>(())
/// ```
pub fn lasting(model: &[u8]) -> Result<Lasting, Refusal> {
    let answer = raw::lasting(model);
    let lasting = Lasting {
        states: answer.states,
        set: answer.lasting,
    };
    Refusal::unless(answer.refused, answer.place, lasting)
}

/// What a search says.
#[derive(Debug, Clone, Copy, PartialEq, Eq)]
#[non_exhaustive]
pub struct Searched<'a> {
    /// The first shortest run that matches, by the numbers of its states; or that no run of any length does. Only runs
    /// that can be continued for ever count.
    pub run: Option<&'a [u8]>,
    /// The number of pairs of a model state and a table state that were reached.
    pub pairs: u64,
    /// The propositions that the rule names.
    pub uses: Propositions,
}

/// Searches the model for a run that matches the rule, over lent slices of [`ENTRIES`] entries or more each. Only runs
/// that can be continued for ever count: see [`lasting`].
///
/// After an answer the table slice begins with the rule's table, the first 4,096 entries of the working slices are 0,
/// and the output begins with the run; all other entries are as they were. A refusal changes nothing.
///
/// ```
/// use gongcollar::{search_into, Lent, ENTRIES};
///
/// let (mut table, mut work1, mut work2) = ([0; ENTRIES], [0; ENTRIES], [0; ENTRIES]);
/// let mut run = [0; ENTRIES];
/// let one = [0x20, 0x01, 0x01, 0x01, 0, 0, 0, 0, 0, 0, 0];
/// let searched = search_into(&[0x10, 0x01, 0x00], &one, Lent {
///     table: &mut table,
///     work1: &mut work1,
///     work2: &mut work2,
///     run: &mut run,
/// })?;
/// assert_eq!(searched.run, Some(&[0][..]));
/// # Ok::<(), gongcollar::Refusal>(())
/// ```
pub fn search_into<'a>(
    rule: &[u8],
    model: &[u8],
    mut lent: Lent<'a>,
) -> Result<Searched<'a>, Refusal> {
    let answer = raw::search(rule, model, &mut lent);
    told(answer, lent)
}

/// The same over the rule's table as it is trimmed: the run and the refusals are those of [`search_into`], the pairs and
/// the table that is left are the trimmed one's.
pub fn search_trimmed_into<'a>(
    rule: &[u8],
    model: &[u8],
    mut lent: Lent<'a>,
) -> Result<Searched<'a>, Refusal> {
    let answer = raw::search_trimmed(rule, model, &mut lent);
    told(answer, lent)
}

/// What a search says, with the run that stands in the output.
fn told(answer: raw::Searched, lent: Lent<'_>) -> Result<Searched<'_>, Refusal> {
    let output: &[u8] = lent.run;
    let run = (answer.found != 0).then(|| front(output, answer.length));
    let searched = Searched {
        run,
        pairs: answer.pairs,
        uses: Propositions::from_bits(answer.uses),
    };
    Refusal::unless(answer.refused, answer.place, searched)
}

/// The first entries of a slice. A length that is given back always fits, so that the other case cannot arise.
pub(crate) fn front(slice: &[u8], length: u64) -> &[u8] {
    let end = usize::try_from(length).unwrap_or(usize::MAX);
    slice.get(..end).unwrap_or(slice)
}

/// The four slices that a search needs, to be used for one search after another.
///
/// ```
/// use gongcollar::Workspace;
///
/// // p0;{p1[*];p2}
/// let rule = [0x12, 0x10, 0x01, 0x00, 0x12, 0x17, 0x10, 0x01, 0x01, 0x10, 0x01, 0x02];
/// let model = [
///     0x20, 0x01, 0x01, 0x02, 0, 0, 0, 0, 0, 0, 0, // p0, initial, goes to state 1
///     0x20, 0x02, 0x00, 0x06, 0, 0, 0, 0, 0, 0, 0, // p1, goes to states 1 and 2
///     0x20, 0x04, 0x00, 0x01, 0, 0, 0, 0, 0, 0, 0, // p2, goes to state 0
/// ];
/// let mut workspace = Workspace::new();
/// let searched = workspace.search(&rule, &model)?;
/// assert_eq!(searched.run, Some(&[0, 1, 2][..]));
/// assert_eq!(searched.pairs, 3);
/// assert_eq!(searched.uses.to_string(), "p0 p1 p2");
/// # Ok::<(), gongcollar::Refusal>(())
/// ```
#[derive(Debug, Clone)]
pub struct Workspace {
    table: Vec<u64>,
    work1: Vec<u16>,
    work2: Vec<u16>,
    run: Vec<u8>,
}

impl Workspace {
    /// Slices of as many entries as a search asks for.
    pub fn new() -> Workspace {
        Workspace {
            table: vec![0; ENTRIES],
            work1: vec![0; ENTRIES],
            work2: vec![0; ENTRIES],
            run: vec![0; ENTRIES],
        }
    }

    /// Searches the model for a run that matches the rule and can be continued for ever.
    pub fn search(&mut self, rule: &[u8], model: &[u8]) -> Result<Searched<'_>, Refusal> {
        search_into(rule, model, self.lent())
    }

    /// The same over the rule's table as it is trimmed: the run is the same, and no more pairs are reached.
    ///
    /// ```
    /// use gongcollar::Workspace;
    ///
    /// // {p0|{p0;false}}: the second part leads nowhere.
    /// let rule = [0x14, 0x10, 0x01, 0x00, 0x12, 0x10, 0x01, 0x00, 0x10, 0x03];
    /// let one = [0x20, 0x01, 0x01, 0x01, 0, 0, 0, 0, 0, 0, 0];
    /// let mut workspace = Workspace::new();
    /// assert_eq!(workspace.search(&rule, &one)?.pairs, 2);
    /// let searched = workspace.search_trimmed(&rule, &one)?;
    /// assert_eq!((searched.run, searched.pairs), (Some(&[0][..]), 1));
    /// # Ok::<(), gongcollar::Refusal>(())
    /// ```
    pub fn search_trimmed(&mut self, rule: &[u8], model: &[u8]) -> Result<Searched<'_>, Refusal> {
        search_trimmed_into(rule, model, self.lent())
    }

    fn lent(&mut self) -> Lent<'_> {
        Lent {
            table: &mut self.table,
            work1: &mut self.work1,
            work2: &mut self.work2,
            run: &mut self.run,
        }
    }

    /// The labels of the table that was searched last; all 0 before the first search.
    pub fn table(&self) -> &[u64] {
        &self.table
    }
}

impl Default for Workspace {
    fn default() -> Workspace {
        Workspace::new()
    }
}

#[cfg(test)]
mod tests {
    use super::*;

    #[test]
    fn front_never_goes_past_the_slice() {
        assert_eq!(front(&[1, 2, 3], 2), [1, 2]);
        assert_eq!(front(&[1, 2, 3], u64::MAX), [1, 2, 3]);
        assert_eq!(front(&[], 1), []);
    }
}
