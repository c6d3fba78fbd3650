//! Rows by letter: a table stored the other way, for walkers.

use crate::tables::{Built, Table};
use crate::{raw, Propositions, Refusal, Walker, ENTRIES, STATES};

/// A rule's table as rows by letter, in memory of its own: for each letter and state the set of the states that the
/// letter leads to.
///
/// A walker steps over it as over the table, with the same answers and refusals, and reads one row for each state that
/// it may be in, where it would read 64 labels.
///
/// ```
/// use gongcollar::Table;
///
/// // p0;{p1[*];p2}
/// let table = Table::build(&[
///     0x12, 0x10, 0x01, 0x00, 0x12, 0x17, 0x10, 0x01, 0x01, 0x10, 0x01, 0x02,
/// ])?;
/// let rows = table.rows();
/// assert_eq!(rows.row(6, 1), 1 << 3 | 1 << 5);
///
/// let mut walker = rows.walker();
/// assert!(!walker.step(&rows, 1)?);
/// assert!(walker.step(&rows, 4)?);
/// assert!(rows.follow(&[1, 2, 2, 4])?);
///
/// // Nothing is lost: the table is had again.
/// assert_eq!(rows.table(), table);
/// # Ok::<(), gongcollar::Refusal>(())
/// ```
#[derive(Debug, Clone, PartialEq, Eq)]
pub struct Rows {
    entries: Vec<u64>,
    built: Built,
}

impl Rows {
    /// The rows of a table.
    pub fn of(table: &Table) -> Rows {
        let mut entries = vec![0; ENTRIES];
        // Both have as many entries as are asked for, so that nothing is refused.
        raw::rows_of(&table.entries, &mut entries);
        Rows {
            entries,
            built: table.built,
        }
    }

    /// The table that has these rows.
    pub fn table(&self) -> Table {
        let mut entries = vec![0; ENTRIES];
        // As above.
        raw::table_of(&self.entries, &mut entries);
        Table {
            entries,
            built: self.built,
        }
    }

    /// The set of the states that the letter leads to from the state, bit q for state q. 0 where there is no such letter
    /// or state.
    pub fn row(&self, letter: u8, state: usize) -> u64 {
        let letter = usize::from(letter);
        if letter < STATES && state < STATES {
            self.entries[STATES * letter + state]
        } else {
            0
        }
    }

    /// All rows, that for letter x and state p at 64x+p.
    pub fn entries(&self) -> &[u64] {
        &self.entries
    }

    /// The number of states, 1 to 64. State 0 is the initial one.
    pub fn weight(&self) -> u64 {
        self.built.weight
    }

    /// The set of final states, bit q for state q.
    pub fn finals(&self) -> u64 {
        self.built.finals
    }

    /// The propositions that the rule names.
    pub fn uses(&self) -> Propositions {
        self.built.uses
    }

    /// A walker at the initial state.
    pub fn walker(&self) -> Walker {
        Walker::start(self.finals())
    }

    /// Whether the table's rule accepts the letters, of which there may be any number.
    pub fn follow(&self, letters: &[u8]) -> Result<bool, Refusal> {
        crate::follow(self, self.finals(), letters)
    }
}

impl From<&Table> for Rows {
    fn from(table: &Table) -> Rows {
        Rows::of(table)
    }
}

impl From<&Rows> for Table {
    fn from(rows: &Rows) -> Table {
        rows.table()
    }
}

/// Rows by letter in a slice, whatever words they are: for those who keep them elsewhere. Words that are lent without
/// this name are taken for the labels of a table.
///
/// ```
/// use gongcollar::{follow, rows_into, LentRows, Table, ENTRIES};
///
/// // p0
/// let table = Table::build(&[0x10, 0x01, 0x00])?;
/// let mut rows = [0; ENTRIES];
/// rows_into(table.entries(), &mut rows)?;
/// assert!(follow(LentRows(&rows), table.finals(), &[1])?);
/// # Ok::<(), gongcollar::Refusal>(())
/// ```
#[derive(Debug, Clone, Copy, PartialEq, Eq)]
pub struct LentRows<'a>(pub &'a [u64]);

/// The rows of a table into a lent slice, each of [`ENTRIES`] entries or more, whatever labels are there; the entries
/// past the first 4,096 stay. The row for letter x and state p, at 64x+p, has bit q exactly if the label from p to q, at
/// 64p+q, has bit x.
///
/// ```
/// let mut table = [0; gongcollar::ENTRIES];
/// table[64 * 2 + 3] = 1 << 9;
/// let mut rows = [7; gongcollar::ENTRIES];
/// gongcollar::rows_into(&table, &mut rows)?;
/// assert_eq!((rows[64 * 9 + 2], rows[0]), (1 << 3, 0));
///
/// let mut back = [7; gongcollar::ENTRIES];
/// gongcollar::table_into(&rows, &mut back)?;
/// assert_eq!(back, table);
/// # Ok::<(), gongcollar::Refusal>(())
/// ```
pub fn rows_into(table: &[u64], rows: &mut [u64]) -> Result<(), Refusal> {
    let answer = raw::rows_of(table, rows);
    Refusal::unless(answer.refused, answer.place, ())
}

/// The table that has these rows, in the same way: what [`rows_into`] does is undone.
pub fn table_into(rows: &[u64], table: &mut [u64]) -> Result<(), Refusal> {
    let answer = raw::table_of(rows, table);
    Refusal::unless(answer.refused, answer.place, ())
}

/// What a walker can step over: the labels of a table, or rows by letter, in this crate's types or in a slice.
///
/// The types tell the two layouts apart, so that rows are not taken for labels.
pub trait Layout: sealed::Steps {}

impl<T: sealed::Steps> Layout for T {}

/// The steps over each layout.
mod sealed {
    use super::{raw, LentRows, Rows};

    pub trait Steps {
        fn step(&self, walker: raw::Walker, letter: u8) -> raw::Stepped;
        fn step_lent(&self, walker: &mut raw::Walker, letter: u8) -> raw::Moved;
        fn follow(&self, finals: u64, letters: &[u8]) -> raw::Moved;
    }

    impl<T: AsRef<[u64]>> Steps for T {
        fn step(&self, walker: raw::Walker, letter: u8) -> raw::Stepped {
            raw::step(walker, self.as_ref(), letter)
        }

        fn step_lent(&self, walker: &mut raw::Walker, letter: u8) -> raw::Moved {
            raw::step_lent(walker, self.as_ref(), letter)
        }

        fn follow(&self, finals: u64, letters: &[u8]) -> raw::Moved {
            raw::follow(self.as_ref(), finals, letters)
        }
    }

    impl Steps for LentRows<'_> {
        fn step(&self, walker: raw::Walker, letter: u8) -> raw::Stepped {
            raw::step_rows(walker, self.0, letter)
        }

        // After a refusal the walker is given back as it came.
        fn step_lent(&self, walker: &mut raw::Walker, letter: u8) -> raw::Moved {
            let stepped = self.step(*walker, letter);
            *walker = stepped.walker;
            raw::Moved {
                refused: stepped.refused,
                place: stepped.place,
                matches: stepped.matches,
            }
        }

        fn follow(&self, finals: u64, letters: &[u8]) -> raw::Moved {
            raw::follow_rows(self.0, finals, letters)
        }
    }

    impl Steps for &Rows {
        fn step(&self, walker: raw::Walker, letter: u8) -> raw::Stepped {
            LentRows(self.entries()).step(walker, letter)
        }

        fn step_lent(&self, walker: &mut raw::Walker, letter: u8) -> raw::Moved {
            LentRows(self.entries()).step_lent(walker, letter)
        }

        fn follow(&self, finals: u64, letters: &[u8]) -> raw::Moved {
            LentRows(self.entries()).follow(finals, letters)
        }
    }
}
