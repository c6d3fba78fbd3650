//! Sequences of letters.

use crate::draws::Draws;

/// The number of letters.
pub const LETTERS: usize = 64;
const STATES: usize = 64;

/// So many letters, all good.
pub fn good(draws: &mut Draws, count: usize) -> Vec<u8> {
    let bound = draws.one_of(&[4, 8, LETTERS]);
    (0..count).map(|_| draws.below(bound) as u8).collect()
}

/// Letters of which one or more may be none.
pub fn perhaps_bad(draws: &mut Draws, count: usize) -> Vec<u8> {
    let mut letters = good(draws, count);
    if count > 0 && draws.once_in(4) {
        for _ in 0..draws.between(1, 3) {
            let at = draws.below(count);
            letters[at] = draws.between(LETTERS, 0xFF) as u8;
        }
    }
    letters
}

/// At most so many letters that lead through a table from state 0, if they can to a final state.
pub fn followed(draws: &mut Draws, labels: &[u64], finals: u64, most: usize) -> Vec<u8> {
    let mut letters = Vec::new();
    let mut at = 0;
    while letters.len() < most {
        let ends_here = finals >> at & 1 == 1;
        if ends_here && draws.once_in(3) {
            break;
        }
        let Some((letter, next)) = way(draws, labels, at) else {
            break;
        };
        letters.push(letter);
        at = next;
    }
    letters
}

/// A letter and the state that it leads to.
fn way(draws: &mut Draws, labels: &[u64], from: usize) -> Option<(u8, usize)> {
    let row = labels.get(STATES * from..STATES * (from + 1))?;
    let ways: Vec<usize> = (0..STATES).filter(|&to| row[to] != 0).collect();
    if ways.is_empty() {
        return None;
    }
    let to = draws.one_of(&ways);
    Some((member(draws, row[to]), to))
}

/// A letter of a label that has one.
fn member(draws: &mut Draws, label: u64) -> u8 {
    let start = draws.below(LETTERS) as u32;
    let turned = label.rotate_right(start);
    ((turned.trailing_zeros() + start) % LETTERS as u32) as u8
}

/// The letters with one of them changed for another.
pub fn nearly(draws: &mut Draws, letters: &[u8]) -> Vec<u8> {
    let mut out = letters.to_vec();
    if !out.is_empty() {
        let at = draws.below(out.len());
        out[at] = draws.below(LETTERS) as u8;
    }
    out
}
