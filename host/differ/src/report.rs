//! What came out of the trials.

use std::collections::{BTreeMap, BTreeSet};
use std::fmt::Write;

/// How many mismatches are told in full.
const TOLD: usize = 5;
/// How many bytes of an input are told.
const TOLD_BYTES: usize = 1500;

/// What an answer was, for counting.
#[derive(Debug, Clone, Copy, PartialEq, Eq, PartialOrd, Ord)]
pub enum Outcome {
    /// An answer, with a word for it.
    Answer(&'static str),
    /// A refusal's number.
    Refused(u64),
}

impl Outcome {
    /// The refusal, or the answer.
    pub fn of(refused: u64, answer: &'static str) -> Outcome {
        match refused {
            0 => Outcome::Answer(answer),
            number => Outcome::Refused(number),
        }
    }
}

/// The counts of one call on one sort of input.
#[derive(Debug, Default)]
struct Tally {
    outcomes: BTreeMap<Outcome, usize>,
    mismatches: usize,
}

/// The counts of all calls on all sorts of input, and the first mismatches.
#[derive(Debug, Default)]
pub struct Report {
    tallies: BTreeMap<(&'static str, &'static str), Tally>,
    told: Vec<String>,
}

impl Report {
    /// Counts a case: the call, the sort of its input, what should come out, and what was wrong if anything.
    pub fn note(
        &mut self,
        call: &'static str,
        sort: &'static str,
        outcome: Outcome,
        mismatch: Option<String>,
    ) {
        let tally = self.tallies.entry((call, sort)).or_default();
        *tally.outcomes.entry(outcome).or_default() += 1;
        if let Some(text) = mismatch {
            tally.mismatches += 1;
            if self.told.len() < TOLD {
                self.told.push(format!("{call}, {sort}: {text}"));
            }
        }
    }

    /// How many cases there were.
    pub fn cases(&self) -> usize {
        let count = |tally: &Tally| tally.outcomes.values().sum::<usize>();
        self.tallies.values().map(count).sum()
    }

    /// How many of them came out wrong.
    pub fn mismatches(&self) -> usize {
        self.tallies.values().map(|tally| tally.mismatches).sum()
    }

    /// The refusals that were expected at least once.
    pub fn refusals(&self) -> BTreeSet<u64> {
        let outcomes = self
            .tallies
            .values()
            .flat_map(|tally| tally.outcomes.keys());
        outcomes
            .filter_map(|outcome| match outcome {
                Outcome::Refused(number) => Some(*number),
                Outcome::Answer(_) => None,
            })
            .collect()
    }

    /// A line for each call and sort of input.
    pub fn lines(&self) -> String {
        let mut text = String::new();
        for ((call, sort), tally) in &self.tallies {
            let cases: usize = tally.outcomes.values().sum();
            let _ = write!(text, "{call}, {sort}: {cases} cases:");
            for (outcome, count) in &tally.outcomes {
                let _ = match outcome {
                    Outcome::Answer(word) => write!(text, " {word} {count},"),
                    Outcome::Refused(number) => write!(text, " refused {number}: {count},"),
                };
            }
            let _ = writeln!(text, " mismatches {}", tally.mismatches);
        }
        text
    }

    /// The first mismatches.
    pub fn told(&self) -> &[String] {
        &self.told
    }
}

/// Bytes in hexadecimal.
pub fn hex(bytes: &[u8]) -> String {
    let shown = &bytes[..bytes.len().min(TOLD_BYTES)];
    let digits: String = shown.iter().map(|byte| format!("{byte:02X}")).collect();
    match bytes.len() - shown.len() {
        0 => format!("[{digits}]"),
        more => format!("[{digits} and {more} bytes more]"),
    }
}

#[cfg(test)]
mod tests {
    use super::*;

    #[test]
    fn cases_and_mismatches_are_counted() {
        let mut report = Report::default();
        report.note("judge", "valid", Outcome::of(0, "yes"), None);
        report.note("judge", "valid", Outcome::of(7, "yes"), Some("x".into()));
        assert_eq!((report.cases(), report.mismatches()), (2, 1));
        assert_eq!(report.told(), ["judge, valid: x"]);
        assert!(report.refusals().contains(&7));
        let line = "judge, valid: 2 cases: yes 1, refused 7: 1, mismatches 1\n";
        assert_eq!(report.lines(), line);
    }

    #[test]
    fn long_inputs_are_cut() {
        assert_eq!(hex(&[0x0C, 0xFF]), "[0CFF]");
        assert!(hex(&[0; 2000]).ends_with("and 500 bytes more]"));
    }
}
