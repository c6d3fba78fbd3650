//! Rules and models that several tests use.

use cases::models::{bytes_of, State};

/// p0;{p1[*];p2}
pub const RULE: [u8; 12] = [
    0x12, 0x10, 0x01, 0x00, 0x12, 0x17, 0x10, 0x01, 0x01, 0x10, 0x01, 0x02,
];

/// p1
pub const P1: [u8; 3] = [0x10, 0x01, 0x01];

/// Three states: p0, then p1 again and again, then p2, and p0 again.
pub fn three_states() -> Vec<u8> {
    [state(1, 1, 0b010), state(2, 0, 0b110), state(4, 0, 0b001)].concat()
}

/// The scope document's: the last state is a dead end.
pub fn dead_end() -> Vec<u8> {
    [state(1, 1, 0b010), state(2, 0, 0b110), state(4, 0, 0)].concat()
}

/// The same without the way into the last state.
pub fn two_of_three() -> Vec<u8> {
    [state(1, 1, 0b010), state(2, 0, 0b010), state(4, 0, 0)].concat()
}

/// The record of one state.
pub fn state(letter: u8, flag: u8, successors: u64) -> Vec<u8> {
    bytes_of(&[State {
        letter,
        flag,
        successors,
    }])
}

/// An operator with its two operands.
pub fn pair(kind: u8, a: &[u8], b: &[u8]) -> Vec<u8> {
    [&[kind], a, b].concat()
}
