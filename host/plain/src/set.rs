//! A 64-bit word as a set of the numbers 0 to 63: of letters, of table states or of model states.

/// How many numbers a word can hold: the letters, the table states, the model states.
pub(crate) const WORD: usize = 64;

/// Whether the number is in the set.
pub(crate) fn has(set: u64, number: usize) -> bool {
    set >> number & 1 == 1
}

/// The set that holds this number alone.
pub(crate) fn only(number: usize) -> u64 {
    1 << number
}

/// The members in rising order.
pub(crate) fn members(set: u64) -> impl Iterator<Item = usize> {
    (0..WORD).filter(move |&number| has(set, number))
}
