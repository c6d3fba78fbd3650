//! Rules and models in the house form, spelled by name.

use plain::{Refusal, TABLE_ENTRIES};

/// The bytes of a rule or of a formula.
pub type Spelled = Vec<u8>;

/// Four lent slices that are long enough.
pub const ENOUGH: [usize; 4] = [TABLE_ENTRIES; 4];

/// The refusal of this number at this place.
pub fn refused<T>(number: u64, place: u64) -> Result<T, Refusal> {
    Err(Refusal { number, place })
}

/// A kind and the operands that follow it.
pub fn node(kind: u8, operands: &[&[u8]]) -> Spelled {
    let mut bytes = vec![kind];
    for operand in operands {
        bytes.extend_from_slice(operand);
    }
    bytes
}

pub fn proposition(number: u8) -> Spelled {
    vec![0x01, number]
}

/// A proposition of the next state.
pub fn next(number: u8) -> Spelled {
    vec![0x07, number]
}

/// A formula for the initial states, and one for the step.
pub fn system(initial: &[u8], step: &[u8]) -> Spelled {
    [&[0x30], initial, &[0x31], step].concat()
}

pub fn letter(formula: &[u8]) -> Spelled {
    node(0x10, &[formula])
}

/// The rule of one letter in which the proposition holds.
pub fn p(number: u8) -> Spelled {
    letter(&proposition(number))
}

/// The rule of one letter, whichever.
pub fn anything() -> Spelled {
    letter(&[0x02])
}

pub fn empty() -> Spelled {
    vec![0x11]
}

pub fn then(a: &[u8], b: &[u8]) -> Spelled {
    node(0x12, &[a, b])
}

pub fn overlap(a: &[u8], b: &[u8]) -> Spelled {
    node(0x13, &[a, b])
}

pub fn or(a: &[u8], b: &[u8]) -> Spelled {
    node(0x14, &[a, b])
}

pub fn loose_and(a: &[u8], b: &[u8]) -> Spelled {
    node(0x15, &[a, b])
}

pub fn equal_and(a: &[u8], b: &[u8]) -> Spelled {
    node(0x16, &[a, b])
}

pub fn star(a: &[u8]) -> Spelled {
    node(0x17, &[a])
}

pub fn plus(a: &[u8]) -> Spelled {
    node(0x18, &[a])
}

/// So many parts of a rule in a row.
pub fn counted(least: u8, most: u8, a: &[u8]) -> Spelled {
    node(0x19, &[&[least, most], a])
}

/// So many letters that satisfy a formula.
pub fn hits(least: u8, most: u8, formula: &[u8]) -> Spelled {
    node(0x1A, &[&[least, most], formula])
}

/// The kind of two operands, so often over copies of one rule, nested to the right.
pub fn nested(kind: u8, times: usize, operand: &[u8]) -> Spelled {
    (0..times).fold(operand.to_vec(), |inner, _| node(kind, &[operand, &inner]))
}

/// The kind of one operand, so often over a rule or formula.
pub fn repeated(kind: u8, times: usize, operand: &[u8]) -> Spelled {
    let mut bytes = vec![kind; times];
    bytes.extend_from_slice(operand);
    bytes
}

/// The worked rule of the scope document, `p0;{p1[*];p2}`.
pub fn worked() -> Spelled {
    then(&p(0), &then(&star(&p(1)), &p(2)))
}

/// A record of a model.
pub fn state(letter: u8, initial: bool, successors: u64) -> Spelled {
    let mut bytes = vec![0x20, letter, initial as u8];
    bytes.extend_from_slice(&successors.to_le_bytes());
    bytes
}
