//! The forward pass, level by level: a pair's mark is its level.

use crate::models::Model;
use crate::rows::Rows;
use crate::sets::{has, members, union};
use crate::{Pairs, ENTRIES, FIRST, STATES};

/// How the pass ends: whether a final was met, at which level, and how many pairs are marked.
pub(crate) struct End {
    pub found: bool,
    pub level: u16,
    pub count: usize,
}

/// A set of table states for each model state.
type Sets = [u64; STATES];

/// A level: its number, how many pairs are listed with it, and the states with pairs on it.
struct Level {
    number: u16,
    count: usize,
    fresh: u64,
}

/// What a sweep marks and lists.
struct Sweep<'a> {
    model: &'a Model,
    rows: &'a Rows,
    marks: &'a mut Pairs,
    queue: &'a mut [u16; ENTRIES],
}

/// The pass, on marks that are all 0: to the first level that holds a final pair, or to the first that adds nothing.
pub(crate) fn forward(
    model: &Model,
    rows: &Rows,
    finals: u64,
    marks: &mut Pairs,
    queue: &mut [u16; ENTRIES],
) -> End {
    let mut sweep = Sweep {
        model,
        rows,
        marks,
        queue,
    };
    let (mut one, mut other) = ([0; STATES], [0; STATES]);
    let (mut front, mut after) = (&mut one, &mut other);
    let mut level = Level {
        number: 1,
        count: 0,
        fresh: 0,
    };
    sweep.enter(&mut level, model.initial, front, |_| FIRST);
    while level.fresh != 0 {
        if members(level.fresh).any(|state| front[state] & finals != 0) {
            return level.end(true);
        }
        let fresh = std::mem::take(&mut level.fresh);
        let live = union(&model.successors, fresh);
        level.number += 1;
        sweep.enter(&mut level, live, after, |t| {
            gather(&model.successors, front, fresh, t)
        });
        std::mem::swap(&mut front, &mut after);
    }
    level.end(false)
}

impl Level {
    fn end(&self, found: bool) -> End {
        End {
            found,
            level: self.number,
            count: self.count,
        }
    }
}

impl Sweep<'_> {
    /// A level over the states in `live`, each of which is entered from a set of table states: what is new there is kept,
    /// marked and listed.
    #[inline]
    fn enter(
        &mut self,
        level: &mut Level,
        live: u64,
        after: &mut Sets,
        from: impl Fn(usize) -> u64,
    ) {
        for t in members(live) {
            let reached = union(&self.rows[self.model.letter(t)], from(t));
            let marks = &mut self.marks[t];
            let new = members(reached)
                .filter(|&q| marks[q] == 0)
                .fold(0, |new, q| new | 1 << q);
            after[t] = new;
            for q in members(new) {
                marks[q] = level.number;
                self.queue[level.count] = (STATES * t + q) as u16;
                level.count += 1;
            }
            level.fresh |= u64::from(new != 0) << t;
        }
    }
}

/// What the states in `fresh` hand to t.
#[inline]
fn gather(successors: &Sets, front: &Sets, fresh: u64, t: usize) -> u64 {
    members(fresh)
        .filter(|&s| has(successors[s], t))
        .fold(0, |set, s| set | front[s])
}
