//! Slices to lend, filled with junk.

use cases::Draws;
use gongcollar::{Lent, ENTRIES, LINE_BYTES, STATES};

/// The four slices of a search.
#[derive(Debug, Clone, PartialEq, Eq)]
pub struct Slices {
    /// For the rule's table.
    pub table: Vec<u64>,
    /// Working space.
    pub work1: Vec<u16>,
    /// Working space.
    pub work2: Vec<u16>,
    /// For the run.
    pub run: Vec<u8>,
}

impl Slices {
    /// Junk of drawn lengths, now and then too short.
    pub fn drawn(draws: &mut Draws) -> Slices {
        let mut lengths = [0; 4].map(|_| long(draws));
        if draws.once_in(8) {
            lengths[draws.below(4)] = short(draws);
        }
        Slices {
            table: words(draws, lengths[0]),
            work1: halves(draws, lengths[1]),
            work2: halves(draws, lengths[2]),
            run: draws.bytes(lengths[3]),
        }
    }

    /// The numbers of entries.
    pub fn lengths(&self) -> [usize; 4] {
        [
            self.table.len(),
            self.work1.len(),
            self.work2.len(),
            self.run.len(),
        ]
    }

    /// The slices, lent.
    pub fn lent(&mut self) -> Lent<'_> {
        Lent {
            table: &mut self.table,
            work1: &mut self.work1,
            work2: &mut self.work2,
            run: &mut self.run,
        }
    }

    /// Where these differ from what they should be.
    pub fn difference(&self, expected: &Slices) -> Option<String> {
        difference("table", &self.table, &expected.table)
            .or_else(|| difference("work1", &self.work1, &expected.work1))
            .or_else(|| difference("work2", &self.work2, &expected.work2))
            .or_else(|| difference("run", &self.run, &expected.run))
    }
}

/// The first entry that is not as it should be.
pub fn difference<T: PartialEq + std::fmt::LowerHex>(
    name: &str,
    slice: &[T],
    expected: &[T],
) -> Option<String> {
    let at = slice.iter().zip(expected).position(|(a, b)| a != b)?;
    Some(format!(
        "{name}[{at}] is {:x}, expected {:x}",
        slice[at], expected[at]
    ))
}

/// Junk for a table, now and then too short.
pub fn table(draws: &mut Draws) -> Vec<u64> {
    let length = perhaps_short(draws);
    words(draws, length)
}

/// Any labels for a walker: few, many, or none; now and then too short.
pub fn labels(draws: &mut Draws) -> Vec<u64> {
    let length = perhaps_short(draws);
    let once_in = draws.one_of(&[1, 4, 64]);
    let label = |_| match draws.once_in(once_in) {
        true => draws.set(),
        false => 0,
    };
    (0..length).map(label).collect()
}

/// Labels inside a weight, of which few or many are not 0, and finals inside it; nothing keeps them from entering state 0.
/// Entries past a table are junk.
pub fn states(draws: &mut Draws) -> (Vec<u64>, u64, u64) {
    let bound = draws.one_of(&[4, 12, STATES]);
    let weight = draws.between(1, bound);
    let once_in = draws.one_of(&[1, 3, weight, 2 * weight]);
    let length = long(draws);
    let mut labels = words(draws, length);
    labels[..ENTRIES].fill(0);
    for p in 0..weight {
        for q in 0..weight {
            if draws.once_in(once_in) {
                labels[STATES * p + q] = draws.set();
            }
        }
    }
    let few = draws.once_in(2);
    let finals = if few {
        1 << draws.below(STATES)
    } else {
        draws.set()
    };
    let inside = u64::MAX >> (STATES - weight);
    (labels, weight as u64, finals & inside)
}

/// Junk for a line, now and then too short.
pub fn line(draws: &mut Draws) -> Vec<u8> {
    let length = match draws.once_in(8) {
        true => draws.one_of(&[0, 1, LINE_BYTES - 1]),
        false => draws.one_of(&[LINE_BYTES, LINE_BYTES + 100]),
    };
    draws.bytes(length)
}

fn perhaps_short(draws: &mut Draws) -> usize {
    match draws.once_in(8) {
        true => short(draws),
        false => long(draws),
    }
}

fn long(draws: &mut Draws) -> usize {
    draws.one_of(&[ENTRIES, ENTRIES, 5000])
}

fn short(draws: &mut Draws) -> usize {
    draws.one_of(&[0, 1, 64, ENTRIES - 1])
}

fn words(draws: &mut Draws, length: usize) -> Vec<u64> {
    (0..length).map(|_| draws.word()).collect()
}

fn halves(draws: &mut Draws, length: usize) -> Vec<u16> {
    (0..length).map(|_| draws.word() as u16).collect()
}
