//! A table's rows by letter: the sets of states that a letter leads to.

use crate::sets::members;
use crate::tables::Table;
use crate::STATES;

/// For each letter and state the set of states that the letter leads to.
pub(crate) type Rows = [[u64; STATES]; STATES];

/// Fills the rows, all 0, of a table of so many states, for the letters that are used. Columns with the same label are
/// kept together, so that its letters are gone over once for all of them.
pub(crate) fn fill(rows: &mut Rows, table: &Table, weight: usize, used: u64) {
    for (p, labels) in table[..weight].iter().enumerate() {
        let (mut bundled, mut to) = (0, 0);
        for (q, label) in labels[..weight].iter().enumerate() {
            let label = label & used;
            if label == 0 {
                continue;
            }
            if label != bundled {
                scatter(rows, p, to, bundled);
                (bundled, to) = (label, 0);
            }
            to |= 1 << q;
        }
        scatter(rows, p, to, bundled);
    }
}

/// Adds the states to the rows of p for the letters of the label.
#[inline]
fn scatter(rows: &mut Rows, p: usize, to: u64, label: u64) {
    for letter in members(label) {
        rows[letter][p] |= to;
    }
}
