//! Formulas over the six propositions.

use crate::set::{only, WORD};

/// The highest proposition.
pub(crate) const LAST_PROPOSITION: u8 = 5;

/// The highest letter; its six bits say which propositions hold.
pub(crate) const LAST_LETTER: u8 = 63;

/// A Boolean formula over the propositions 0 to 5.
#[derive(Debug, Clone, PartialEq, Eq)]
pub enum Formula {
    /// Holds in the letters that have this bit set.
    Proposition(u8),
    /// Holds in every letter.
    True,
    /// Holds in no letter.
    False,
    /// Holds where the operand does not.
    Not(Box<Formula>),
    /// Holds where both operands do.
    And(Box<Formula>, Box<Formula>),
    /// Holds where at least one operand does.
    Or(Box<Formula>, Box<Formula>),
}

impl Formula {
    /// Whether the formula holds in the letter.
    pub fn holds(&self, letter: u8) -> bool {
        match self {
            Formula::Proposition(number) => letter >> number & 1 == 1,
            Formula::True => true,
            Formula::False => false,
            Formula::Not(a) => !a.holds(letter),
            Formula::And(a, b) => a.holds(letter) && b.holds(letter),
            Formula::Or(a, b) => a.holds(letter) || b.holds(letter),
        }
    }

    /// The set of the propositions that stand in the formula, whether or not they matter.
    pub fn names(&self) -> u64 {
        match self {
            Formula::Proposition(number) => only(*number as usize),
            Formula::True | Formula::False => 0,
            Formula::Not(a) => a.names(),
            Formula::And(a, b) | Formula::Or(a, b) => a.names() | b.names(),
        }
    }

    /// The set of letters in which the formula holds, found by trying each letter.
    pub fn label(&self) -> u64 {
        (0..WORD)
            .filter(|&letter| self.holds(letter as u8))
            .map(only)
            .sum()
    }
}
