//! Accepted bytes as states.

use super::{RECORD, SUCCESSORS_AT};

/// One state of a model.
#[derive(Debug, Clone, Copy, PartialEq, Eq)]
pub struct State {
    /// Its letter: bit i says that proposition i holds.
    pub letter: u8,
    /// Whether runs begin in it.
    pub initial: bool,
    /// The set of its successors, bit t for state t.
    pub successors: u64,
}

/// The states of bytes that the proved reader has accepted.
pub fn decode(bytes: &[u8]) -> Vec<State> {
    bytes.chunks_exact(RECORD).map(state).collect()
}

fn state(record: &[u8]) -> State {
    let successors = record[SUCCESSORS_AT..].iter().rev();
    State {
        letter: record[1],
        initial: record[2] == 1,
        successors: successors.fold(0, |set, &byte| set << 8 | u64::from(byte)),
    }
}

#[cfg(test)]
mod tests {
    use super::*;

    #[test]
    fn the_lowest_byte_comes_first() {
        let states = decode(&[0x20, 5, 1, 2, 1, 0, 0, 0, 0, 0, 0x80]);
        let state = State {
            letter: 5,
            initial: true,
            successors: 1 << 63 | 0x102,
        };
        assert_eq!(states, [state]);
    }
}
