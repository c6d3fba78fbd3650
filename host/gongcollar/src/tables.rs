//! Tables: a rule's automaton, over which events are followed.

use crate::raw;
use crate::rows::{Layout, Rows};
use crate::{Propositions, Refusal, Walker, ENTRIES, STATES};

/// What is known of a built table beside its labels.
#[derive(Debug, Clone, Copy, PartialEq, Eq)]
#[non_exhaustive]
pub struct Built {
    /// The number of states, 1 to 64.
    pub weight: u64,
    /// The set of final states, bit q for state q.
    pub finals: u64,
    /// The propositions that the rule names.
    pub uses: Propositions,
}

/// Builds the rule's table into a lent slice of [`ENTRIES`] entries or more; those past the first 4,096 stay.
///
/// ```
/// let mut lent = vec![7; 5000];
/// let built = gongcollar::build_into(&[0x10, 0x01, 0x00], &mut lent)?;
/// assert_eq!((built.weight, built.finals), (2, 0b10));
/// assert_eq!(lent[1], 0xAAAA_AAAA_AAAA_AAAA);
/// assert_eq!(lent[4096], 7);
/// # Ok::<(), gongcollar::Refusal>(())
/// ```
pub fn build_into(rule: &[u8], table: &mut [u64]) -> Result<Built, Refusal> {
    let answer = raw::build(rule, table);
    let built = Built {
        weight: answer.weight,
        finals: answer.finals,
        uses: Propositions::from_bits(answer.uses),
    };
    Refusal::unless(answer.refused, answer.place, built)
}

/// What is known of a trimmed table beside its labels.
#[derive(Debug, Clone, Copy, PartialEq, Eq)]
#[non_exhaustive]
pub struct Trimmed {
    /// The number of states that are left, 1 to 64.
    pub weight: u64,
    /// The set of final states at their new numbers, bit q for state q.
    pub finals: u64,
}

/// Takes the states that do no work out of a lent table of that weight and those finals, built or not. State 0 stays, and
/// each state on a path from 0 to a final by labels that are not 0; they are numbered anew in rising order.
///
/// Of the first 4,096 entries those outside the new weight are 0; later ones stay.
///
/// ```
/// // A table of three states: 0 goes to 2, which is final, and nothing enters 1.
/// let mut lent = vec![0; gongcollar::ENTRIES];
/// lent[2] = 1;
/// lent[64 + 2] = 1;
/// let trimmed = gongcollar::trim_into(&mut lent, 3, 0b100)?;
/// assert_eq!((trimmed.weight, trimmed.finals), (2, 0b10));
/// assert_eq!((lent[1], lent[2], lent[64 + 2]), (1, 0, 0));
///
/// assert_eq!(gongcollar::trim_into(&mut lent, 1, 0).unwrap_err().number(), 24);
/// # Ok::<(), gongcollar::Refusal>(())
/// ```
pub fn trim_into(table: &mut [u64], weight: u64, finals: u64) -> Result<Trimmed, Refusal> {
    let answer = raw::trim(table, weight, finals);
    let trimmed = Trimmed {
        weight: answer.weight,
        finals: answer.finals,
    };
    Refusal::unless(answer.refused, answer.place, trimmed)
}

/// A rule's table in memory of its own.
///
/// ```
/// use gongcollar::Table;
///
/// // p0;{p1[*];p2}
/// let table = Table::build(&[
///     0x12, 0x10, 0x01, 0x00, 0x12, 0x17, 0x10, 0x01, 0x01, 0x10, 0x01, 0x02,
/// ])?;
/// assert_eq!(table.weight(), 6);
/// assert_eq!(table.finals(), 1 << 5);
/// assert_eq!(table.label(0, 1), 0xAAAA_AAAA_AAAA_AAAA);
/// assert_eq!(table.label(1, 0), 0);
/// # Ok::<(), gongcollar::Refusal>(())
/// ```
#[derive(Debug, Clone, PartialEq, Eq)]
pub struct Table {
    pub(crate) entries: Vec<u64>,
    pub(crate) built: Built,
}

impl Table {
    /// Builds the rule's table.
    pub fn build(rule: &[u8]) -> Result<Table, Refusal> {
        let mut entries = vec![0; ENTRIES];
        let built = build_into(rule, &mut entries)?;
        Ok(Table { entries, built })
    }

    /// Takes the states that do no work out. The table accepts what it accepted, and trimming it again changes nothing.
    ///
    /// ```
    /// // p0;{p1[*];p2}
    /// let mut table = gongcollar::Table::build(&[
    ///     0x12, 0x10, 0x01, 0x00, 0x12, 0x17, 0x10, 0x01, 0x01, 0x10, 0x01, 0x02,
    /// ])?;
    /// table.trim();
    /// assert_eq!((table.weight(), table.finals()), (4, 1 << 3));
    /// assert!(table.follow(&[1, 2, 4])?);
    /// # Ok::<(), gongcollar::Refusal>(())
    /// ```
    pub fn trim(&mut self) {
        // The table of a rule is never refused.
        if let Ok(trimmed) = trim_into(&mut self.entries, self.built.weight, self.built.finals) {
            self.built.weight = trimmed.weight;
            self.built.finals = trimmed.finals;
        }
    }

    /// The number of states, 1 to 64. State 0 is the initial one.
    pub fn weight(&self) -> u64 {
        self.built.weight
    }

    /// The set of final states, bit q for state q.
    pub fn finals(&self) -> u64 {
        self.built.finals
    }

    /// The propositions that the rule names.
    pub fn uses(&self) -> Propositions {
        self.built.uses
    }

    /// The label from one state to another: bit x is set if letter x leads there. 0 where there is no such state.
    pub fn label(&self, from: usize, to: usize) -> u64 {
        if from < STATES && to < STATES {
            self.entries[STATES * from + to]
        } else {
            0
        }
    }

    /// All labels, that from p to q at 64p+q.
    pub fn entries(&self) -> &[u64] {
        &self.entries
    }

    /// The same table as rows by letter, over which walkers step in less time.
    pub fn rows(&self) -> Rows {
        Rows::of(self)
    }

    /// A walker at the table's initial state.
    pub fn walker(&self) -> Walker {
        Walker::start(self.finals())
    }

    /// Whether the table's rule accepts the letters, of which there may be any number.
    pub fn follow(&self, letters: &[u8]) -> Result<bool, Refusal> {
        follow(self, self.finals(), letters)
    }
}

impl AsRef<[u64]> for Table {
    fn as_ref(&self) -> &[u64] {
        &self.entries
    }
}

/// Whether a fresh walker matches after all the letters, over whatever labels, or rows by letter, are lent.
///
/// ```
/// use gongcollar::{follow, Table};
///
/// // p0;p1
/// let table = Table::build(&[0x12, 0x10, 0x01, 0x00, 0x10, 0x01, 0x01])?;
/// assert!(table.follow(&[1, 2])?);
/// assert!(!table.follow(&[1])?);
///
/// let refusal = follow(&table, table.finals(), &[1, 64]).unwrap_err();
/// assert_eq!((refusal.number(), refusal.place()), (22, 1));
/// # Ok::<(), gongcollar::Refusal>(())
/// ```
pub fn follow(table: impl Layout, finals: u64, letters: &[u8]) -> Result<bool, Refusal> {
    let answer = table.follow(finals, letters);
    Refusal::unless(answer.refused, answer.place, answer.matches != 0)
}
