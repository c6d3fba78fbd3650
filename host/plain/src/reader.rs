//! From bytes in the house form to a rule: a byte of kind, its body, then its operands.

use crate::bytes::Bytes;
use crate::formula::{Formula, LAST_PROPOSITION};
use crate::refusal::{
    Refusal, BYTES_AFTER_RULE, KIND_OUT_OF_PLACE, NO_COUNTS, NO_SUCH_PROPOSITION, RULE_ENDED,
    RULE_TOO_LONG, TOO_HEAVY, UNKNOWN_KIND,
};
use crate::rule::{Counts, Rule};

/// The most bytes that a rule may have.
const LONGEST_RULE: usize = 255;

/// The most states that a rule's table may have.
const LARGEST_WEIGHT: u128 = 64;

pub(crate) const PROPOSITION: u8 = 0x01;
pub(crate) const TRUE: u8 = 0x02;
pub(crate) const FALSE: u8 = 0x03;
pub(crate) const NOT: u8 = 0x04;
pub(crate) const AND: u8 = 0x05;
pub(crate) const OR: u8 = 0x06;

pub(crate) const LETTER: u8 = 0x10;
const EMPTY: u8 = 0x11;
const THEN: u8 = 0x12;
const OVERLAP: u8 = 0x13;
const EITHER: u8 = 0x14;
const LOOSE_AND: u8 = 0x15;
const EQUAL_AND: u8 = 0x16;
const STAR: u8 = 0x17;
const PLUS: u8 = 0x18;
const COUNTED: u8 = 0x19;
pub(crate) const HITS: u8 = 0x1A;

/// A rule that was accepted.
#[derive(Debug, Clone, PartialEq, Eq)]
pub struct ReadRule {
    /// What the bytes spell.
    pub rule: Rule,
    /// The number of states of its table, 1 to 64.
    pub weight: u64,
}

/// Reads a rule, or refuses it with 1 to 8.
pub fn read_rule(rule: &[u8]) -> Result<ReadRule, Refusal> {
    if rule.len() > LONGEST_RULE {
        return Err(Refusal::at(RULE_TOO_LONG, 0));
    }
    let mut bytes = Bytes::new(rule);
    let read = next_rule(&mut bytes)?;
    if !bytes.ended() {
        return Err(Refusal::at(BYTES_AFTER_RULE, bytes.place()));
    }
    let weight = read.weight();
    if weight > LARGEST_WEIGHT {
        return Err(Refusal::at(TOO_HEAVY, 0));
    }
    Ok(ReadRule {
        rule: read,
        weight: weight as u64,
    })
}

/// The rule that begins at the next byte.
fn next_rule(bytes: &mut Bytes) -> Result<Rule, Refusal> {
    let place = bytes.place();
    let kind = bytes.next(RULE_ENDED)?;
    match kind {
        LETTER => Ok(Rule::Letter(next_formula(bytes)?)),
        EMPTY => Ok(Rule::Empty),
        THEN => Ok(Rule::Then(boxed_rule(bytes)?, boxed_rule(bytes)?)),
        OVERLAP => Ok(Rule::Overlap(boxed_rule(bytes)?, boxed_rule(bytes)?)),
        EITHER => Ok(Rule::Or(boxed_rule(bytes)?, boxed_rule(bytes)?)),
        LOOSE_AND => Ok(Rule::LooseAnd(boxed_rule(bytes)?, boxed_rule(bytes)?)),
        EQUAL_AND => Ok(Rule::EqualAnd(boxed_rule(bytes)?, boxed_rule(bytes)?)),
        STAR => Ok(Rule::Star(boxed_rule(bytes)?)),
        PLUS => Ok(Rule::Plus(boxed_rule(bytes)?)),
        COUNTED => Ok(Rule::Counted(next_counts(bytes)?, boxed_rule(bytes)?)),
        HITS => Ok(Rule::Hits(next_counts(bytes)?, next_formula(bytes)?)),
        PROPOSITION..=OR => Err(Refusal::at(KIND_OUT_OF_PLACE, place)),
        _ => Err(Refusal::at(UNKNOWN_KIND, place)),
    }
}

/// The formula that begins at the next byte.
fn next_formula(bytes: &mut Bytes) -> Result<Formula, Refusal> {
    let place = bytes.place();
    let kind = bytes.next(RULE_ENDED)?;
    match kind {
        PROPOSITION => next_proposition(bytes),
        TRUE => Ok(Formula::True),
        FALSE => Ok(Formula::False),
        NOT => Ok(Formula::Not(boxed_formula(bytes)?)),
        AND => Ok(Formula::And(boxed_formula(bytes)?, boxed_formula(bytes)?)),
        OR => Ok(Formula::Or(boxed_formula(bytes)?, boxed_formula(bytes)?)),
        LETTER..=HITS => Err(Refusal::at(KIND_OUT_OF_PLACE, place)),
        _ => Err(Refusal::at(UNKNOWN_KIND, place)),
    }
}

/// The proposition whose number is the next byte.
fn next_proposition(bytes: &mut Bytes) -> Result<Formula, Refusal> {
    let place = bytes.place();
    let number = bytes.next(RULE_ENDED)?;
    if number > LAST_PROPOSITION {
        return Err(Refusal::at(NO_SUCH_PROPOSITION, place));
    }
    Ok(Formula::Proposition(number))
}

/// The counts that are the next two bytes, which are both there before either is at fault.
fn next_counts(bytes: &mut Bytes) -> Result<Counts, Refusal> {
    let place = bytes.place();
    let least = bytes.next(RULE_ENDED)?;
    let most = bytes.next(RULE_ENDED)?;
    Counts::of(least, most).ok_or(Refusal::at(NO_COUNTS, place))
}

fn boxed_rule(bytes: &mut Bytes) -> Result<Box<Rule>, Refusal> {
    Ok(Box::new(next_rule(bytes)?))
}

fn boxed_formula(bytes: &mut Bytes) -> Result<Box<Formula>, Refusal> {
    Ok(Box::new(next_formula(bytes)?))
}
