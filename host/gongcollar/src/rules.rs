//! Rules: what is known of one, and the plain judge.

use crate::raw;
use crate::{Propositions, Refusal};

/// What is known of an accepted rule.
#[derive(Debug, Clone, Copy, PartialEq, Eq)]
#[non_exhaustive]
pub struct RuleInfo {
    /// The number of states of its table, 1 to 64.
    pub weight: u64,
    /// The propositions that it names, whether or not they matter to its meaning.
    pub uses: Propositions,
}

/// Reads a rule.
///
/// ```
/// // p0;{p1[*];p2}
/// let rule = [0x12, 0x10, 0x01, 0x00, 0x12, 0x17, 0x10, 0x01, 0x01, 0x10, 0x01, 0x02];
/// let info = gongcollar::read_rule(&rule)?;
/// assert_eq!(info.weight, 6);
/// assert_eq!(info.uses.to_string(), "p0 p1 p2");
///
/// let refusal = gongcollar::read_rule(&rule[..3]).unwrap_err();
/// assert_eq!((refusal.number(), refusal.place()), (2, 3));
/// # Ok::<(), gongcollar::Refusal>(())
/// ```
pub fn read_rule(rule: &[u8]) -> Result<RuleInfo, Refusal> {
    let answer = raw::read_rule(rule);
    let info = RuleInfo {
        weight: answer.weight,
        uses: Propositions::from_bits(answer.uses),
    };
    Refusal::unless(answer.refused, answer.place, info)
}

/// Whether the rule accepts the letters, of which there may be 16. No table is built.
///
/// ```
/// // p0:p1 wants one letter in which both hold.
/// let rule = [0x13, 0x10, 0x01, 0x00, 0x10, 0x01, 0x01];
/// assert!(gongcollar::judge(&rule, &[3])?);
/// assert!(!gongcollar::judge(&rule, &[1, 2])?);
/// # Ok::<(), gongcollar::Refusal>(())
/// ```
pub fn judge(rule: &[u8], letters: &[u8]) -> Result<bool, Refusal> {
    let answer = raw::judge(rule, letters);
    Refusal::unless(answer.refused, answer.place, answer.accepts != 0)
}
