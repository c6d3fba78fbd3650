//! Words as sets of the numbers 0 to 63.

use std::num::NonZeroU64;

/// The members of a set, in rising order.
#[derive(Debug, Clone)]
pub(crate) struct Members(u64);

/// The members of the set, in rising order.
#[inline]
pub(crate) fn members(set: u64) -> Members {
    Members(set)
}

impl Iterator for Members {
    type Item = usize;

    #[inline]
    fn next(&mut self) -> Option<usize> {
        let lowest = NonZeroU64::new(self.0)?.trailing_zeros();
        self.0 &= self.0 - 1;
        Some(lowest as usize)
    }
}

/// Whether the number is in the set.
#[inline]
pub(crate) fn has(set: u64, number: usize) -> bool {
    set >> number & 1 == 1
}

/// The numbers below one, which is 64 at most.
#[inline]
pub(crate) fn below(number: usize) -> u64 {
    match number {
        0 => 0,
        _ => u64::MAX >> (64 - number),
    }
}

/// The union of the words at the members of a set.
#[inline]
pub(crate) fn union(words: &[u64; 64], set: u64) -> u64 {
    members(set).fold(0, |union, member| union | words[member])
}
