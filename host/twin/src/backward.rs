//! The backward pass: of the listed pairs, from the last to the first, which lie on a shortest match.

use crate::models::Model;
use crate::rows::Rows;
use crate::sets::{has, members};
use crate::{Pairs, STATES};

/// The useful table states of each model state, by the parity of the level: what a pair leads to is on the level after
/// its own at most, and what is settled is on its own level at least.
pub(crate) type Useful = [[u64; STATES]; 2];

/// The parity of a level.
#[inline]
pub(crate) fn parity(level: u16) -> usize {
    usize::from(level % 2)
}

/// The pass over the listed pairs, where finals are on the last level.
pub(crate) fn backward(
    model: &Model,
    rows: &Rows,
    finals: u64,
    marks: &Pairs,
    listed: &[u16],
    last: u16,
) -> Useful {
    let mut useful = [[0; STATES]; 2];
    for &at in listed.iter().rev() {
        let (state, q) = (usize::from(at) / STATES, usize::from(at) % STATES);
        let level = marks[state][q];
        let yes = if level == last {
            has(finals, q)
        } else {
            let next = &useful[parity(level + 1)];
            members(model.successors[state]).any(|t| rows[model.letter(t)][q] & next[t] != 0)
        };
        useful[parity(level)][state] |= u64::from(yes) << q;
    }
    useful
}
