//! Reads a rule: where it ends or its first fault, and then its weight and the propositions that it names.

use crate::kinds::*;
use crate::refusal::{
    Refusal, BAD_COUNTS, LEFTOVER, NO_PROPOSITION, RULE_ENDED, RULE_TOO_LONG, TOO_HEAVY,
    UNKNOWN_KIND, WRONG_SORT,
};

const LONGEST_RULE: usize = 255;
const MOST_WEIGHT: usize = 64;
const LAST_PROPOSITION: u8 = 5;
const LARGEST_COUNT: u8 = 15;

/// What is known of an accepted rule.
#[derive(Debug, Clone, Copy)]
pub(crate) struct Known {
    pub weight: usize,
    pub uses: u64,
}

/// Reads a whole rule.
pub(crate) fn read(rule: &[u8]) -> Result<Known, Refusal> {
    if rule.len() > LONGEST_RULE {
        return Err(Refusal::at(RULE_TOO_LONG, 0));
    }
    let end = rule_end(rule, 0)?;
    if end < rule.len() {
        return Err(Refusal::at(LEFTOVER, end));
    }
    let Weighed { weight, uses, .. } = weigh(rule, 0);
    if weight > MOST_WEIGHT {
        return Err(Refusal::at(TOO_HEAVY, 0));
    }
    Ok(Known { weight, uses })
}

/// The byte at a place of a rule that may end before it.
fn byte_at(rule: &[u8], at: usize) -> Result<u8, Refusal> {
    rule.get(at).copied().ok_or(Refusal::at(RULE_ENDED, at))
}

/// The place after the rule that begins at `at`.
pub(crate) fn rule_end(rule: &[u8], at: usize) -> Result<usize, Refusal> {
    match byte_at(rule, at)? {
        LETTER => formula_end(rule, at + 1),
        EMPTY => Ok(at + 1),
        THEN | OVERLAP | EITHER | WITHIN | BOTH => rule_end(rule, rule_end(rule, at + 1)?),
        STAR | PLUS => rule_end(rule, at + 1),
        COUNTED => rule_end(rule, counts_end(rule, at + 1)?),
        OCCURS => formula_end(rule, counts_end(rule, at + 1)?),
        PROPOSITION..=OR => Err(Refusal::at(WRONG_SORT, at)),
        _ => Err(Refusal::at(UNKNOWN_KIND, at)),
    }
}

/// The place after the formula that begins at `at`.
pub(crate) fn formula_end(rule: &[u8], at: usize) -> Result<usize, Refusal> {
    match byte_at(rule, at)? {
        PROPOSITION if byte_at(rule, at + 1)? <= LAST_PROPOSITION => Ok(at + 2),
        PROPOSITION => Err(Refusal::at(NO_PROPOSITION, at + 1)),
        TRUE | FALSE => Ok(at + 1),
        NOT => formula_end(rule, at + 1),
        AND | OR => formula_end(rule, formula_end(rule, at + 1)?),
        LETTER..=OCCURS => Err(Refusal::at(WRONG_SORT, at)),
        _ => Err(Refusal::at(UNKNOWN_KIND, at)),
    }
}

/// The place after two counts. Both are there before either is looked at.
fn counts_end(rule: &[u8], at: usize) -> Result<usize, Refusal> {
    let low = byte_at(rule, at)?;
    let high = byte_at(rule, at + 1)?;
    if low > high || high > LARGEST_COUNT {
        return Err(Refusal::at(BAD_COUNTS, at));
    }
    Ok(at + 2)
}

/// A rule's weight, one above the limit for any that is heavier, what it names, and the place after it.
struct Weighed {
    weight: usize,
    uses: u64,
    end: usize,
}

/// Weighs the good rule that stands at `at`.
fn weigh(rule: &[u8], at: usize) -> Weighed {
    match rule[at] {
        LETTER => {
            let (uses, end) = named(rule, at + 1);
            let weight = 2;
            Weighed { weight, uses, end }
        }
        STAR | PLUS => weigh(rule, at + 1),
        COUNTED => {
            let a = weigh(rule, at + 3);
            let weight = match rule[at + 2] {
                0 => 1,
                count => capped(usize::from(count) * a.weight),
            };
            Weighed { weight, ..a }
        }
        OCCURS => {
            let (uses, end) = named(rule, at + 3);
            let weight = usize::from(rule[at + 2]) + 2;
            Weighed { weight, uses, end }
        }
        kind @ THEN..=BOTH => {
            let a = weigh(rule, at + 1);
            let b = weigh(rule, a.end);
            Weighed {
                weight: capped(weight_of_pair(kind, a.weight, b.weight)),
                uses: a.uses | b.uses,
                end: b.end,
            }
        }
        _ => Weighed {
            weight: 1,
            uses: 0,
            end: at + 1,
        },
    }
}

fn capped(weight: usize) -> usize {
    weight.min(MOST_WEIGHT + 1)
}

/// The weight of an operator over rules of the weights m and n.
pub(crate) fn weight_of_pair(kind: u8, m: usize, n: usize) -> usize {
    match kind {
        EITHER => 1 + m + n,
        WITHIN => 2 * (m * n + m + n) + 1,
        BOTH => m * n,
        _ => m + n,
    }
}

/// The propositions that the good formula at `at` names, and the place after it.
fn named(rule: &[u8], at: usize) -> (u64, usize) {
    match rule[at] {
        PROPOSITION => (1 << rule[at + 1], at + 2),
        NOT => named(rule, at + 1),
        AND | OR => {
            let (a, second) = named(rule, at + 1);
            let (b, end) = named(rule, second);
            (a | b, end)
        }
        _ => (0, at + 1),
    }
}
