//! The set of propositions that a rule names.

use std::fmt;

/// A set of propositions, as a rule names them: every one that stands in it, whether or not it matters.
///
/// ```
/// let rule: gongcollar::Rule = "{p0;{{p1}[*];p2}}".parse()?;
/// assert_eq!(rule.uses().to_string(), "p0 p1 p2");
/// assert!(rule.uses().contains(1));
/// assert!(!rule.uses().contains(4));
///
/// let sure: gongcollar::Rule = "(p4|!p4)".parse()?;
/// assert_eq!(sure.uses().iter().collect::<Vec<_>>(), [4]);
/// # Ok::<(), gongcollar::Refusal>(())
/// ```
#[derive(Debug, Clone, Copy, Default, PartialEq, Eq, Hash)]
pub struct Propositions(u64);

impl Propositions {
    /// The set whose bit i is proposition i.
    pub const fn from_bits(bits: u64) -> Propositions {
        Propositions(bits)
    }

    /// The set as a number, bit i for proposition i.
    pub const fn bits(self) -> u64 {
        self.0
    }

    /// Whether the set has the proposition.
    pub const fn contains(self, proposition: u32) -> bool {
        proposition < u64::BITS && self.0 >> proposition & 1 == 1
    }

    /// Whether the set has none.
    pub const fn is_empty(self) -> bool {
        self.0 == 0
    }

    /// The propositions in rising order.
    pub fn iter(self) -> impl Iterator<Item = u32> {
        (0..u64::BITS).filter(move |&proposition| self.contains(proposition))
    }
}

/// As `p0 p1 p2`, in rising order; `-` for none.
impl fmt::Display for Propositions {
    fn fmt(&self, f: &mut fmt::Formatter<'_>) -> fmt::Result {
        if self.is_empty() {
            return f.pad("-");
        }
        let names: Vec<String> = self.iter().map(|number| format!("p{number}")).collect();
        f.pad(&names.join(" "))
    }
}

#[cfg(test)]
mod tests {
    use super::*;

    #[test]
    fn a_set_reads_as_its_members() {
        assert_eq!(Propositions::default().to_string(), "-");
        assert_eq!(
            Propositions::from_bits(0b10_1101).to_string(),
            "p0 p2 p3 p5"
        );
        assert_eq!(format!("{:>5}|", Propositions::from_bits(1)), "   p0|");
    }

    #[test]
    fn a_number_that_is_no_bit_is_no_member() {
        assert!(Propositions::from_bits(u64::MAX).contains(63));
        assert!(!Propositions::from_bits(u64::MAX).contains(64));
    }
}
