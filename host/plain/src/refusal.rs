//! The numbers of the refusals.

/// Why an input is not answered: the scope document's number, and where the fault stands.
#[derive(Debug, Clone, Copy, PartialEq, Eq)]
pub struct Refusal {
    /// The number in the scope document's table of refusals.
    pub number: u64,
    /// A byte offset in the rule, the model or the two formulas, an index in the letters, or 0.
    pub place: u64,
}

impl Refusal {
    /// The refusal of this number at an offset or index.
    pub(crate) fn at(number: u64, place: usize) -> Refusal {
        Refusal {
            number,
            place: place as u64,
        }
    }
}

pub(crate) const RULE_TOO_LONG: u64 = 1;
pub(crate) const RULE_ENDED: u64 = 2;
pub(crate) const UNKNOWN_KIND: u64 = 3;
pub(crate) const KIND_OUT_OF_PLACE: u64 = 4;
pub(crate) const NO_SUCH_PROPOSITION: u64 = 5;
pub(crate) const BYTES_AFTER_RULE: u64 = 6;
pub(crate) const TOO_HEAVY: u64 = 7;
pub(crate) const NO_COUNTS: u64 = 8;
pub(crate) const FORMULAS_TOO_LONG: u64 = 9;
pub(crate) const TOO_MANY_STATES: u64 = 11;
pub(crate) const NOT_A_STATE: u64 = 12;
pub(crate) const STATE_CUT_SHORT: u64 = 13;
pub(crate) const STATE_LETTER: u64 = 14;
pub(crate) const STATE_FLAG: u64 = 15;
pub(crate) const NO_SUCH_SUCCESSOR: u64 = 16;
pub(crate) const SLICE_TOO_SHORT: u64 = 21;
pub(crate) const EVENT_LETTER: u64 = 22;
pub(crate) const TOO_MANY_LETTERS: u64 = 23;
pub(crate) const NO_TABLE: u64 = 24;
pub(crate) const COUNT_FULL: u64 = 25;
pub(crate) const TEXT_TOO_LONG: u64 = 30;
pub(crate) const NO_TEXT: u64 = 31;
pub(crate) const OUTPUT_TOO_SHORT: u64 = 32;
