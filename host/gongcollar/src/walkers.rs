//! Walkers: events followed one at a time.

use crate::rows::Layout;
use crate::{raw, Refusal};
use std::borrow::Borrow;

/// Where a table may be after some events, and what there was on the way.
///
/// A walker is a few numbers, so that a host keeps one in each of its records and steps it there. It does not hold its
/// table: each step is lent one, and steps over whatever labels are there. It is lent the table itself or its
/// [`Rows`](crate::Rows), which say the same and take less time.
///
/// It counts the letters that it takes, and knows at how many it first matched. Over a table that was built, that is
/// the length of the shortest beginning of those letters that the rule accepts.
///
/// ```
/// use gongcollar::{Rule, Table, Walker};
///
/// struct Clinic {
///     name: &'static str,
///     walker: Walker,
/// }
///
/// // An event with p0, then any number with p1, then one with p2.
/// let rule: Rule = "{p0;{{p1}[*];p2}}".parse()?;
/// let table = Table::build(rule.bytes())?;
/// let mut clinics = ["north", "south"].map(|name| Clinic {
///     name,
///     walker: table.walker(),
/// });
///
/// // What came in, in the order in which it came.
/// for (clinic, letter) in [(0, 1), (1, 4), (0, 2), (1, 1), (0, 4), (0, 4)] {
///     let clinic = &mut clinics[clinic];
///     if clinic.walker.step(&table, letter)? {
///         println!("{} matches after {} events", clinic.name, clinic.walker.taken());
///     }
/// }
/// assert_eq!(clinics[0].walker.first_match(), Some(3));
/// assert_eq!(clinics[0].walker.taken(), 4);
/// assert_eq!(clinics[1].walker.first_match(), None);
/// # Ok::<(), gongcollar::Refusal>(())
/// ```
#[derive(Debug, Clone, Copy, PartialEq, Eq, Hash)]
pub struct Walker {
    numbers: raw::Walker,
}

/// A walker after a step, and whether it matches now.
#[derive(Debug, Clone, Copy, PartialEq, Eq)]
#[non_exhaustive]
pub struct Stepped {
    /// The walker, moved by one event.
    pub walker: Walker,
    /// Whether a final state is in its set.
    pub matches: bool,
}

impl Walker {
    /// A fresh walker: it is in state 0, has taken no letter, and has matched, at 0, if state 0 is final.
    pub fn start(finals: u64) -> Walker {
        raw::start(finals).into()
    }

    /// The states that it may be in, bit q for state q.
    pub const fn set(&self) -> u64 {
        self.numbers.set
    }

    /// The final states, bit q for state q.
    pub const fn finals(&self) -> u64 {
        self.numbers.finals
    }

    /// How many letters it has taken.
    pub const fn taken(&self) -> u32 {
        self.numbers.taken
    }

    /// How many it had taken when it first matched: 0 if the rule accepts no letters at all.
    pub const fn first_match(&self) -> Option<u32> {
        match self.numbers.matched {
            0 => None,
            _ => Some(self.numbers.first),
        }
    }

    /// Whether it matches now, after the letters that it has taken.
    pub const fn matches(&self) -> bool {
        self.set() & self.finals() != 0
    }

    /// Moves the walker by one event where it stands, and says whether it matches now. A refusal leaves it as it was.
    pub fn step(&mut self, table: impl Layout, letter: u8) -> Result<bool, Refusal> {
        self.step_over(&table, letter)
    }

    fn step_over(&mut self, table: &impl Layout, letter: u8) -> Result<bool, Refusal> {
        let answer = table.step_lent(&mut self.numbers, letter);
        Refusal::unless(answer.refused, answer.place, answer.matches != 0)
    }

    /// The walker after one more event.
    pub fn stepped(self, table: impl Layout, letter: u8) -> Result<Stepped, Refusal> {
        let answer = table.step(self.numbers, letter);
        let stepped = Stepped {
            walker: answer.walker.into(),
            matches: answer.matches != 0,
        };
        Refusal::unless(answer.refused, answer.place, stepped)
    }

    /// Steps over events as they are asked for: one answer for each event, whether the walker matches then. An event
    /// that is refused is not taken, and the next is stepped over as if it had not been there.
    ///
    /// ```
    /// use gongcollar::{Refusal, Table};
    ///
    /// // p0;p1
    /// let table = Table::build(&[0x12, 0x10, 0x01, 0x00, 0x10, 0x01, 0x01])?;
    /// let mut walker = table.walker();
    /// let matches: Result<Vec<bool>, Refusal> = walker.steps(&table, [1, 2, 2]).collect();
    /// assert_eq!(matches?, [false, true, false]);
    ///
    /// // Up to the first match, of events that may never end.
    /// let mut walker = table.walker();
    /// let mut events = [1, 64, 2].into_iter().cycle();
    /// assert!(walker.steps(&table, &mut events).any(|step| step == Ok(true)));
    /// assert_eq!((walker.taken(), walker.first_match()), (2, Some(2)));
    /// # Ok::<(), Refusal>(())
    /// ```
    pub fn steps<T, I>(&mut self, table: T, events: I) -> Steps<'_, T, I::IntoIter>
    where
        T: Layout,
        I: IntoIterator,
        I::Item: Borrow<u8>,
    {
        Steps {
            walker: self,
            table,
            events: events.into_iter(),
        }
    }
}

/// A walker that has been stepped before: for those who keep its numbers elsewhere.
impl From<raw::Walker> for Walker {
    fn from(numbers: raw::Walker) -> Walker {
        Walker { numbers }
    }
}

impl From<Walker> for raw::Walker {
    fn from(walker: Walker) -> raw::Walker {
        walker.numbers
    }
}

/// What [`Walker::steps`] goes over.
#[derive(Debug)]
pub struct Steps<'a, T, I> {
    walker: &'a mut Walker,
    table: T,
    events: I,
}

impl<T, I> Iterator for Steps<'_, T, I>
where
    T: Layout,
    I: Iterator,
    I::Item: Borrow<u8>,
{
    type Item = Result<bool, Refusal>;

    fn next(&mut self) -> Option<Result<bool, Refusal>> {
        let letter = self.events.next()?;
        Some(self.walker.step_over(&self.table, *letter.borrow()))
    }

    fn size_hint(&self) -> (usize, Option<usize>) {
        self.events.size_hint()
    }
}
