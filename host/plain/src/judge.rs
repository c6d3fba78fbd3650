//! The plain judge: Definition 2 for a few letters, without a table.

use crate::formula::LAST_LETTER;
use crate::meaning::accepts;
use crate::reader::read_rule;
use crate::refusal::{Refusal, EVENT_LETTER, TOO_MANY_LETTERS};

/// The most letters that the plain judge takes.
const MOST_LETTERS: usize = 16;

/// Whether the rule accepts the letters; refuses a faulty rule, then 23, then 22.
pub fn judge(rule: &[u8], letters: &[u8]) -> Result<bool, Refusal> {
    let read = read_rule(rule)?;
    if letters.len() > MOST_LETTERS {
        return Err(Refusal::at(TOO_MANY_LETTERS, 0));
    }
    if let Some(index) = letters.iter().position(|&letter| letter > LAST_LETTER) {
        return Err(Refusal::at(EVENT_LETTER, index));
    }
    Ok(accepts(&read.rule, letters))
}
