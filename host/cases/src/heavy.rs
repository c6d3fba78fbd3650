//! Accepted inputs that take long: for measuring, and for a small stack.

use crate::draws::Draws;
use crate::hostile::{counted, hits, joined_left, joined_right, nested};
use crate::rules::kind::*;
use crate::rules::{ANY, P0};
use crate::systems::{counter, of_length, system, MOST_BYTES};

/// A letter of the formula false.
const NEVER: [u8; 2] = [LETTER, FALSE];

/// A rule, or two formulas, with a name to print.
#[derive(Debug, Clone)]
pub struct Named {
    /// What it is.
    pub name: &'static str,
    /// Its bytes.
    pub bytes: Vec<u8>,
}

fn named(name: &'static str, bytes: Vec<u8>) -> Named {
    Named { name, bytes }
}

/// `{true;..;true}[*];p0` with so many of true: p0 after any number of rounds. It weighs two for each letter.
pub fn cycle_then_p0(round: usize) -> Vec<u8> {
    cycle_then(round, &P0)
}

/// The same with a letter that there is not in the place of p0, so that nothing matches.
pub fn cycle_then_never(round: usize) -> Vec<u8> {
    cycle_then(round, &NEVER)
}

fn cycle_then(round: usize, last: &[u8]) -> Vec<u8> {
    let mut rule = vec![THEN, STAR];
    rule.extend(joined_right(THEN, &ANY, round));
    rule.extend_from_slice(last);
    rule
}

/// 32 times true: weight 64, and every run of 32 states matches.
pub fn row_of_any() -> Vec<u8> {
    joined_left(THEN, &ANY, 32)
}

/// 31 times `true[*]`, then a letter that there is not: weight 64, a label from nearly every state to every later one,
/// and no match.
pub fn dense_and_never() -> Vec<u8> {
    let mut rule = vec![THEN];
    rule.extend(joined_left(THEN, &nested(STAR, 1, &ANY), 31));
    rule.extend(NEVER);
    rule
}

/// 31 times `true[*]` under 125 times `[+]`, then a letter that there is not: a table that takes long to build before a
/// search that finds nothing. Of some sixty thousand searches tried, changed and kept where they took longer, the
/// longest were of this kind.
pub fn dense_again_and_never() -> Vec<u8> {
    let mut rule = vec![THEN];
    rule.extend(nested(
        PLUS,
        125,
        &joined_right(THEN, &nested(STAR, 1, &ANY), 31),
    ));
    rule.extend(NEVER);
    rule
}

/// Fifteen copies of two copies of `p0[*]`, with single copies as deep as the bytes allow below them: weight 60.
fn copies_above() -> Vec<u8> {
    let single = counted(1, 1, 81, &nested(STAR, 1, &P0));
    counted(15, 15, 1, &counted(2, 2, 1, &single))
}

/// The same with up to so many copies, and the single ones above them.
fn copies_below() -> Vec<u8> {
    let many = counted(0, 15, 1, &counted(0, 2, 1, &nested(STAR, 1, &P0)));
    counted(1, 1, 81, &many)
}

/// Rules that keep the plain judge busy.
pub fn for_the_judge() -> Vec<Named> {
    let once = nested(STAR, 4, &P0);
    let empties = [STAR, PLUS, EMPTY];
    vec![
        named("252 nested [*] of p0", nested(STAR, 252, &P0)),
        named("252 nested [+] of p0", nested(PLUS, 252, &P0)),
        named(
            "64 empties under ; with 128 repetitions",
            joined_left(THEN, &empties, 64),
        ),
        named(
            "64 empties under : with 128 repetitions",
            joined_left(OVERLAP, &empties, 64),
        ),
        named(
            "32 p0[*][*][*][*] under ;, to the right",
            joined_right(THEN, &once, 32),
        ),
        named(
            "32 p0[*][*][*][*] under :, to the left",
            joined_left(OVERLAP, &once, 32),
        ),
        named(
            "32 empties under | with 192 repetitions",
            joined_left(CHOICE, &nested(PLUS, 6, &[EMPTY]), 32),
        ),
        named("128 empties under &&", joined_left(BOTH, &[EMPTY], 128)),
        named(
            "252 nested not",
            nested(LETTER, 1, &nested(NOT, 252, &[PROPOSITION, 0])),
        ),
        named("p0[*][*2..2][*15..15] over 81 [*1..1]", copies_above()),
        named("p0[*][*0..2][*0..15] under 81 [*1..1]", copies_below()),
        named("84 nested [*0..1] of p0", counted(0, 1, 84, &P0)),
        named(
            "6 nested [*2..2] over 78 [*1..1] of an empty",
            counted(2, 2, 6, &counted(1, 1, 78, &[EMPTY])),
        ),
        named(
            "4 empties[*0..15] under ;, each over 19 [*0..1]",
            joined_left(THEN, &counted(0, 15, 1, &counted(0, 1, 19, &[EMPTY])), 4),
        ),
        named(
            "3 p0[=0..15] under :",
            joined_left(OVERLAP, &hits(0, 15, &[PROPOSITION, 0]), 3),
        ),
    ]
}

/// Rules that keep the builder busy.
pub fn for_the_builder() -> Vec<Named> {
    let within = [&[WITHIN, WITHIN, EMPTY, EMPTY, THEN, EMPTY], &ANY[..]].concat();
    vec![
        named("252 nested [*] of p0", nested(STAR, 252, &P0)),
        named(
            "252 nested not",
            nested(LETTER, 1, &nested(NOT, 252, &[PROPOSITION, 0])),
        ),
        named(
            "127 formulas under and",
            nested(LETTER, 1, &joined_left(AND, &[TRUE], 127)),
        ),
        named(
            "128 empties under &&, to the left",
            joined_left(BOTH, &[EMPTY], 128),
        ),
        named(
            "128 empties under &&, to the right",
            joined_right(BOTH, &[EMPTY], 128),
        ),
        named("6 letters under &&", joined_left(BOTH, &P0, 6)),
        named("& of & and ;", within),
        named(
            "32 letters under ;, to the left",
            joined_left(THEN, &ANY, 32),
        ),
        named(
            "32 letters under ;, to the right",
            joined_right(THEN, &ANY, 32),
        ),
        named(
            "32 starred letters under :",
            joined_left(OVERLAP, &nested(STAR, 4, &P0), 32),
        ),
        named(
            "64 empties under ; with 128 repetitions",
            joined_left(THEN, &[STAR, PLUS, EMPTY], 64),
        ),
        named("31 true[*] and false under ;", dense_and_never()),
        named("p0[*][*2..2][*15..15] over 81 [*1..1]", copies_above()),
        named("p0[*][*0..2][*0..15] under 81 [*1..1]", copies_below()),
        named(
            "15 copies of 4 empties[*0..1]",
            counted(0, 15, 1, &joined_left(THEN, &counted(0, 1, 1, &[EMPTY]), 4)),
        ),
        named("6 nested [*0..2] of an empty", counted(0, 2, 6, &[EMPTY])),
        named(
            "3 p0[=0..15] under ;",
            joined_left(THEN, &hits(0, 15, &[PROPOSITION, 0]), 3),
        ),
        named(
            "no parts of 83 letters under &&",
            counted(0, 0, 1, &joined_left(BOTH, &ANY, 83)),
        ),
    ]
}

/// Pairs of formulas of 255 bytes, or nearly so many, that a model is written of.
pub fn for_the_models() -> Vec<Named> {
    let any = [TRUE];
    let half = nested(NOT, 124, &[PROPOSITION, 5]);
    vec![
        named("true and true", system(&any, &any)),
        named(
            "250 nested not in the step",
            system(&any, &nested(NOT, 250, &[NEXT, 0])),
        ),
        named(
            "250 nested not for the initial states",
            system(&nested(NOT, 250, &[PROPOSITION, 0]), &any),
        ),
        named(
            "124 nested not in each, and one",
            system(&half, &nested(NOT, 125, &[NEXT, 5])),
        ),
        named(
            "126 times true under and in the step, to the left",
            system(&any, &joined_left(AND, &any, 126)),
        ),
        named(
            "126 times true under or in the step, to the right",
            system(&any, &joined_right(OR, &any, 126)),
        ),
        named(
            "84 next propositions under or, to the left",
            system(&any, &joined_left(OR, &[NEXT, 3], 84)),
        ),
        named(
            "84 propositions under and, to the right",
            system(&any, &joined_right(AND, &[PROPOSITION, 3], 84)),
        ),
        named("a counter of six bits", counter()),
        named(
            "a drawn pair of 255 bytes",
            of_length(&mut Draws::new(2), MOST_BYTES),
        ),
    ]
}

#[cfg(test)]
mod tests {
    use super::*;

    #[test]
    fn pairs_are_as_long_as_they_may_be() {
        let lengths: Vec<usize> = for_the_models().iter().map(|x| x.bytes.len()).collect();
        assert!(lengths.iter().all(|&length| length <= MOST_BYTES));
        assert!(lengths[1..].iter().all(|&length| length > MOST_BYTES - 3));
    }
}
