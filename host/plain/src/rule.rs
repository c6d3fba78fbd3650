//! Rules: the SEREs of Definition 1, and those of request 2026-05.

use std::ops::RangeInclusive;

use crate::formula::Formula;

/// A sequence rule. Two operands stand in the order of their bytes.
#[derive(Debug, Clone, PartialEq, Eq)]
pub enum Rule {
    /// One letter in which the formula holds.
    Letter(Formula),
    /// The sequence without letters.
    Empty,
    /// `;`, the one after the other.
    Then(Box<Rule>, Box<Rule>),
    /// `:`, the one after the other with one letter in common.
    Overlap(Box<Rule>, Box<Rule>),
    /// `|`, at least one of the two.
    Or(Box<Rule>, Box<Rule>),
    /// `&`, both, where one of them may be done before the other.
    LooseAnd(Box<Rule>, Box<Rule>),
    /// `&&`, both over the same letters.
    EqualAnd(Box<Rule>, Box<Rule>),
    /// `[*]`, any number of times.
    Star(Box<Rule>),
    /// `[+]`, at least once.
    Plus(Box<Rule>),
    /// `[*i..j]`, so many parts in a row.
    Counted(Counts, Box<Rule>),
    /// `[=i..j]`, so many letters that satisfy the formula, others anywhere.
    Hits(Counts, Formula),
}

/// The highest count.
pub(crate) const LAST_COUNT: u8 = 15;

/// The numbers from the least to the most, both included.
#[derive(Debug, Clone, Copy, PartialEq, Eq)]
pub struct Counts {
    /// At most the other one.
    pub least: u8,
    /// At most 15.
    pub most: u8,
}

impl Counts {
    /// The counts of two bytes, if they are such.
    pub(crate) fn of(least: u8, most: u8) -> Option<Counts> {
        (least <= most && most <= LAST_COUNT).then_some(Counts { least, most })
    }

    /// The numbers.
    pub(crate) fn numbers(self) -> RangeInclusive<usize> {
        self.least.into()..=self.most.into()
    }
}

impl Rule {
    /// The number of states of the rule's table.
    ///
    /// 255 bytes can ask for more than any word holds; the largest number stands for those. Every operator weighs at
    /// least what its operands weigh, but for no parts of a rule, which weigh 1 whatever the rule is.
    pub fn weight(&self) -> u128 {
        match self {
            Rule::Letter(_) => 2,
            Rule::Empty => 1,
            Rule::Then(a, b) | Rule::Overlap(a, b) => a.weight().saturating_add(b.weight()),
            Rule::Or(a, b) => a.weight().saturating_add(b.weight()).saturating_add(1),
            Rule::LooseAnd(a, b) => loose_and_weight(a.weight(), b.weight()),
            Rule::EqualAnd(a, b) => a.weight().saturating_mul(b.weight()),
            Rule::Star(a) | Rule::Plus(a) => a.weight(),
            Rule::Counted(counts, a) => match counts.most {
                0 => 1,
                most => a.weight().saturating_mul(most.into()),
            },
            Rule::Hits(counts, _) => u128::from(counts.most) + 2,
        }
    }

    /// The set of the propositions that stand in the rule, whether or not they matter.
    pub fn names(&self) -> u64 {
        match self {
            Rule::Letter(formula) | Rule::Hits(_, formula) => formula.names(),
            Rule::Empty => 0,
            Rule::Then(a, b)
            | Rule::Overlap(a, b)
            | Rule::Or(a, b)
            | Rule::LooseAnd(a, b)
            | Rule::EqualAnd(a, b) => a.names() | b.names(),
            Rule::Star(a) | Rule::Plus(a) | Rule::Counted(_, a) => a.names(),
        }
    }
}

/// 2mn + 2m + 2n + 1: the rule that `&` is built as joins m(n+2) and (m+2)n states under a new one.
fn loose_and_weight(m: u128, n: u128) -> u128 {
    m.saturating_mul(n)
        .saturating_add(m)
        .saturating_add(n)
        .saturating_mul(2)
        .saturating_add(1)
}
