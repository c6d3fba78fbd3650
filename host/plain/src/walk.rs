//! The walker: the set of states that a table may be in, moved by one letter at a time, and what it remembers.

use crate::formula::LAST_LETTER;
use crate::refusal::{Refusal, COUNT_FULL, EVENT_LETTER, SLICE_TOO_SHORT};
use crate::rows::row_entry;
use crate::set::{has, members, only, WORD};
use crate::table::{entry, TABLE_ENTRIES};

/// Where a walk begins: in state 0 alone.
pub(crate) const START: u64 = 1;

/// A walker over some table.
#[derive(Debug, Clone, Copy, PartialEq, Eq)]
pub struct Walker {
    /// The states that it may be in.
    pub set: u64,
    /// The final states.
    pub finals: u64,
    /// How many letters it has taken.
    pub taken: u32,
    /// How many it had taken at its first match; 0 if there is none yet.
    pub first: u32,
    /// Whether there was a match.
    pub matched: bool,
}

/// A fresh walker: over a rule that accepts the empty sequence it has matched at 0.
pub fn start(finals: u64) -> Walker {
    Walker {
        set: START,
        finals,
        taken: 0,
        first: 0,
        matched: START & finals != 0,
    }
}

/// One step over whatever table is lent: the walker after it, and whether a final is in its set.
/// Refuses 21, then 22, then 25.
pub fn step(walker: Walker, table: &[u64], letter: u8) -> Result<(Walker, bool), Refusal> {
    step_by(reached, walker, table, letter)
}

/// The same over whatever rows by letter are lent (2026-09).
pub fn step_rows(walker: Walker, rows: &[u64], letter: u8) -> Result<(Walker, bool), Refusal> {
    step_by(reached_by_rows, walker, rows, letter)
}

/// Steps from the start through all letters: whether a final is in the last set.
/// Refuses 21, then 22 at the first letter that is none.
pub fn follow(table: &[u64], finals: u64, letters: &[u8]) -> Result<bool, Refusal> {
    follow_by(reached, table, finals, letters)
}

/// The same over whatever rows by letter are lent (2026-09).
pub fn follow_rows(rows: &[u64], finals: u64, letters: &[u8]) -> Result<bool, Refusal> {
    follow_by(reached_by_rows, rows, finals, letters)
}

/// What a set leads to under a letter, over entries of one layout.
type Reached = fn(u64, &[u64], u8) -> u64;

fn step_by(
    reached: Reached,
    walker: Walker,
    entries: &[u64],
    letter: u8,
) -> Result<(Walker, bool), Refusal> {
    if entries.len() < TABLE_ENTRIES {
        return Err(Refusal::at(SLICE_TOO_SHORT, 0));
    }
    if letter > LAST_LETTER {
        return Err(Refusal::at(EVENT_LETTER, 0));
    }
    let Some(taken) = walker.taken.checked_add(1) else {
        return Err(Refusal::at(COUNT_FULL, 0));
    };
    let set = reached(walker.set, entries, letter);
    let matches = set & walker.finals != 0;
    let mut next = Walker {
        set,
        taken,
        ..walker
    };
    if matches && !walker.matched {
        next.matched = true;
        next.first = taken;
    }
    Ok((next, matches))
}

fn follow_by(
    reached: Reached,
    entries: &[u64],
    finals: u64,
    letters: &[u8],
) -> Result<bool, Refusal> {
    if entries.len() < TABLE_ENTRIES {
        return Err(Refusal::at(SLICE_TOO_SHORT, 0));
    }
    let mut set = START;
    for (index, &letter) in letters.iter().enumerate() {
        if letter > LAST_LETTER {
            return Err(Refusal::at(EVENT_LETTER, index));
        }
        set = reached(set, entries, letter);
    }
    Ok(set & finals != 0)
}

/// The states that some member of the set goes to under the letter.
pub(crate) fn reached(set: u64, table: &[u64], letter: u8) -> u64 {
    united(members(set).map(|p| row(table, p, letter)))
}

/// The same where the rows are there to be read: one for each member.
fn reached_by_rows(set: u64, rows: &[u64], letter: u8) -> u64 {
    united(members(set).map(|p| rows[row_entry(letter.into(), p)]))
}

fn united(rows: impl Iterator<Item = u64>) -> u64 {
    rows.fold(0, |next, row| next | row)
}

/// The states that p goes to under the letter.
fn row(table: &[u64], p: usize, letter: u8) -> u64 {
    (0..WORD)
        .filter(|&q| has(table[entry(p, q)], letter as usize))
        .map(only)
        .sum()
}
