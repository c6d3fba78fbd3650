//! The numbers of the refusals.

/// Why an input is not answered.
#[derive(Debug, Clone, Copy, PartialEq, Eq)]
pub struct Refusal {
    /// The number in the scope document's table of refusals.
    pub number: u64,
    /// A byte offset in the rule or the model, or 0.
    pub place: usize,
}

impl Refusal {
    pub(crate) fn at(number: u64, place: usize) -> Refusal {
        Refusal { number, place }
    }
}

pub(crate) const RULE_TOO_LONG: u64 = 1;
pub(crate) const RULE_ENDED: u64 = 2;
pub(crate) const UNKNOWN_KIND: u64 = 3;
pub(crate) const WRONG_SORT: u64 = 4;
pub(crate) const NO_PROPOSITION: u64 = 5;
pub(crate) const LEFTOVER: u64 = 6;
pub(crate) const TOO_HEAVY: u64 = 7;
pub(crate) const BAD_COUNTS: u64 = 8;
pub(crate) const TOO_MANY_STATES: u64 = 11;
pub(crate) const WRONG_KIND: u64 = 12;
pub(crate) const CUT_SHORT: u64 = 13;
pub(crate) const LETTER_TOO_LARGE: u64 = 14;
pub(crate) const WRONG_FLAG: u64 = 15;
pub(crate) const NO_SUCH_STATE: u64 = 16;
pub(crate) const SHORT_SLICE: u64 = 21;
