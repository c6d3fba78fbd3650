//! The pick: writes the first shortest match, state by state. The table states of the whole beginning are kept, so that
//! the lowest state that can go on to a match is taken each time.

use crate::backward::{parity, Useful};
use crate::models::Model;
use crate::rows::Rows;
use crate::sets::{members, union};
use crate::{Pairs, FIRST};

/// Fills the run.
pub(crate) fn pick(model: &Model, rows: &Rows, marks: &Pairs, useful: &Useful, run: &mut [u8]) {
    let (mut held, mut next) = (FIRST, model.initial);
    for (level, place) in (1..).zip(run) {
        let useful = &useful[parity(level)];
        // The table states that are held after state t: those on a shortest match.
        let onward = |t: usize| {
            let reached = union(&rows[model.letter(t)], held) & useful[t];
            members(reached)
                .filter(|&q| marks[t][q] == level)
                .fold(0, |set, q| set | 1 << q)
        };
        let chosen = members(next).map(|t| (t, onward(t)));
        let Some((state, set)) = chosen.into_iter().find(|&(_, set)| set != 0) else {
            return;
        };
        *place = state as u8;
        held = set;
        next = model.successors[state];
    }
}
