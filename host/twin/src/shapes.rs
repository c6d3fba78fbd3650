//! The shape of a rule: all that its operator needs to know of it besides its labels.

use crate::kinds::*;
use crate::rules::{formula_end, rule_end, weight_of_pair};
use crate::sets::{below, has, members};

/// Where a rule ends in the bytes, how many states its table has, and which of them are final.
#[derive(Debug, Clone, Copy)]
pub(crate) struct Shape {
    pub end: usize,
    pub weight: usize,
    pub finals: u64,
}

/// The finals of `true[*]`, both of whose states are.
const ANY_FINALS: u64 = 0b11;

/// The two counts of the rule at `at`.
#[derive(Debug, Clone, Copy)]
pub(crate) struct Counts {
    pub low: usize,
    pub high: usize,
}

impl Counts {
    pub(crate) fn at(rule: &[u8], at: usize) -> Counts {
        Counts {
            low: usize::from(rule[at + 1]),
            high: usize::from(rule[at + 2]),
        }
    }
}

impl Shape {
    /// One letter, whose second state is final.
    pub(crate) fn letter(end: usize) -> Shape {
        Shape {
            end,
            weight: 2,
            finals: 0b10,
        }
    }

    /// The empty sequence, whose one state is final.
    pub(crate) fn empty(end: usize) -> Shape {
        Shape {
            end,
            weight: 1,
            finals: 0b1,
        }
    }

    /// The same with the first state final too.
    pub(crate) fn or_nothing(self) -> Shape {
        let finals = self.finals | 1;
        Shape { finals, ..self }
    }

    /// A repetition of this.
    pub(crate) fn again(self, kind: u8) -> Shape {
        match kind {
            STAR => self.or_nothing(),
            _ => self,
        }
    }

    /// An operator over this and another.
    pub(crate) fn pair(self, kind: u8, b: Shape) -> Shape {
        let (m, n) = (self.weight, b.weight);
        let finals = match kind {
            THEN => then_finals(self.finals, b.finals, m),
            OVERLAP => b.finals << m,
            EITHER => either_finals(self.finals, b.finals, m),
            WITHIN => within_finals(self.finals, b.finals, m, n),
            _ => both_finals(self.finals, b.finals, n),
        };
        Shape {
            end: b.end,
            weight: weight_of_pair(kind, m, n),
            finals,
        }
    }

    /// As many of this in a row as are counted, one at least, after `rest` of one fewer.
    pub(crate) fn before(self, rest: Shape, low: usize) -> Shape {
        let row = self.pair(THEN, rest);
        match low {
            0 => row.or_nothing(),
            _ => row,
        }
    }

    /// The last part of a row.
    pub(crate) fn last(self, low: usize) -> Shape {
        match low {
            0 => self.or_nothing(),
            _ => self,
        }
    }

    /// As many of this in a row as are counted.
    fn row(self, counts: Counts) -> Shape {
        let low = |part: usize| counts.low.saturating_sub(part);
        let last = counts.high - 1;
        let parts = (0..last).rev();
        parts.fold(self.last(low(last)), |rest, part| {
            self.before(rest, low(part))
        })
    }

    /// Counted letters: a state for each count, and one before the first letter.
    pub(crate) fn occurs(counts: Counts, end: usize) -> Shape {
        let finals = below(counts.high - counts.low + 1) << (counts.low + 1);
        let shape = Shape {
            end,
            weight: counts.high + 2,
            finals,
        };
        shape.last(counts.low)
    }

    /// The shape of the good rule that stands at `at`.
    pub(crate) fn of(rule: &[u8], at: usize) -> Shape {
        match rule[at] {
            LETTER => Shape::letter(past(formula_end(rule, at + 1))),
            kind @ (STAR | PLUS) => Shape::of(rule, at + 1).again(kind),
            COUNTED => match Counts::at(rule, at) {
                Counts { high: 0, .. } => Shape::empty(past(rule_end(rule, at + 3))),
                counts => Shape::of(rule, at + 3).row(counts),
            },
            OCCURS => Shape::occurs(Counts::at(rule, at), past(formula_end(rule, at + 3))),
            kind @ THEN..=BOTH => {
                let a = Shape::of(rule, at + 1);
                let b = Shape::of(rule, a.end);
                a.pair(kind, b)
            }
            _ => Shape::empty(at + 1),
        }
    }
}

/// The end of what was read before, and is good.
fn past<E>(end: Result<usize, E>) -> usize {
    end.unwrap_or(0)
}

/// `;`: b's, and a's too if b's state 0 is final.
fn then_finals(a: u64, b: u64, m: usize) -> u64 {
    let second = b << m;
    match has(b, 0) {
        true => a | second,
        false => second,
    }
}

/// `|`: both behind a new state 0, which is final if either 0 was.
fn either_finals(a: u64, b: u64, m: usize) -> u64 {
    a << 1 | b << (1 + m) | (a | b) & 1
}

/// `&&`: the pairs of finals.
fn both_finals(a: u64, b: u64, n: usize) -> u64 {
    members(a).fold(0, |pairs, first| pairs | b << (first * n))
}

/// `&`, which is {a && {b;true[*]}} | {{a;true[*]} && b}.
fn within_finals(a: u64, b: u64, m: usize, n: usize) -> u64 {
    let left = both_finals(a, then_finals(b, ANY_FINALS, n), n + 2);
    let right = both_finals(then_finals(a, ANY_FINALS, m), b, n);
    either_finals(left, right, m * (n + 2))
}
