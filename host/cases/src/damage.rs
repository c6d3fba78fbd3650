//! Good bytes made bad, or perhaps good in another way.

use crate::draws::Draws;
use crate::rules::kind;

/// The bytes with one thing done to them.
pub fn damaged(draws: &mut Draws, bytes: &[u8]) -> Vec<u8> {
    let mut out = bytes.to_vec();
    match draws.below(7) {
        0 => append(draws, &mut out),
        1 => insert(draws, &mut out),
        2 => out.truncate(draws.below(bytes.len() + 1)),
        3 if !bytes.is_empty() => drop(out.remove(draws.below(bytes.len()))),
        4 => miscount(draws, &mut out),
        _ => change(draws, &mut out),
    }
    out
}

/// The bytes with one to three things done to them.
pub fn damaged_more(draws: &mut Draws, bytes: &[u8]) -> Vec<u8> {
    let mut out = damaged(draws, bytes);
    for _ in 0..draws.below(3) {
        out = damaged(draws, &out);
    }
    out
}

fn append(draws: &mut Draws, out: &mut Vec<u8>) {
    let count = draws.between(1, 12);
    for _ in 0..count {
        out.push(likely_byte(draws));
    }
}

fn insert(draws: &mut Draws, out: &mut Vec<u8>) {
    let at = draws.below(out.len() + 1);
    out.insert(at, likely_byte(draws));
}

fn change(draws: &mut Draws, out: &mut [u8]) {
    if !out.is_empty() {
        let at = draws.below(out.len());
        out[at] = likely_byte(draws);
    }
}

/// Another count where a count is likely to be; any change where there is none.
fn miscount(draws: &mut Draws, out: &mut [u8]) {
    let counted = |kind: &u8| [kind::COUNTED, kind::HITS].contains(kind);
    let kinds: Vec<usize> = (0..out.len().saturating_sub(2))
        .filter(|&at| counted(&out[at]))
        .collect();
    if kinds.is_empty() {
        return change(draws, out);
    }
    let at = draws.one_of(&kinds) + draws.between(1, 2);
    out[at] = draws.one_of(&[0, 1, 2, 7, 14, 15, 16, 17, 0xFF]);
}

/// A byte that often means something where it lands.
pub fn likely_byte(draws: &mut Draws) -> u8 {
    match draws.below(4) {
        0 => draws.byte(),
        1 => draws.below(0x08) as u8,
        2 => 0x10 + draws.below(0x0B) as u8,
        _ => draws.one_of(&[
            0x00, 0x01, 0x02, 0x06, 0x07, 0x0E, 0x0F, 0x10, 0x19, 0x1A, 0x1B, 0x20, 0x21, 0x30,
            0x31, 0x3F, 0x40, 0xFF,
        ]),
    }
}
