//! Rows by letter (2026-09): a table stored the other way.

use crate::refusal::{Refusal, SLICE_TOO_SHORT};
use crate::set::{has, only, WORD};
use crate::table::{entry, TABLE_ENTRIES};

/// Where the row for a letter and a state stands.
pub(crate) fn row_entry(letter: usize, state: usize) -> usize {
    WORD * letter + state
}

/// The rows of whatever labels are lent: the one for letter x and state p has bit q exactly if the label from p to q has
/// bit x. The length is that of the lent output. Refuses 21.
pub fn rows_of(table: &[u64], rows_len: usize) -> Result<Vec<u64>, Refusal> {
    long_enough(table.len(), rows_len)?;
    let mut rows = vec![0; TABLE_ENTRIES];
    for (letter, p, q) in triples() {
        if has(table[entry(p, q)], letter) {
            rows[row_entry(letter, p)] |= only(q);
        }
    }
    Ok(rows)
}

/// The labels that have these rows. The length is that of the lent output. Refuses 21.
pub fn labels_of(rows: &[u64], table_len: usize) -> Result<Vec<u64>, Refusal> {
    long_enough(rows.len(), table_len)?;
    let mut labels = vec![0; TABLE_ENTRIES];
    for (letter, p, q) in triples() {
        if has(rows[row_entry(letter, p)], q) {
            labels[entry(p, q)] |= only(letter);
        }
    }
    Ok(labels)
}

fn long_enough(one: usize, other: usize) -> Result<(), Refusal> {
    match one.min(other) < TABLE_ENTRIES {
        true => Err(Refusal::at(SLICE_TOO_SHORT, 0)),
        false => Ok(()),
    }
}

/// Every letter with every two states.
fn triples() -> impl Iterator<Item = (usize, usize, usize)> {
    let pairs = |letter| (0..WORD * WORD).map(move |at| (letter, at / WORD, at % WORD));
    (0..WORD).flat_map(pairs)
}
