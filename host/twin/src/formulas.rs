//! The label of a formula: the letters in which it holds, by whole words.

use crate::kinds::*;

/// The labels of the propositions: bit x of entry i is bit i of x.
const PROPOSITIONS: [u64; 6] = [
    0xAAAA_AAAA_AAAA_AAAA,
    0xCCCC_CCCC_CCCC_CCCC,
    0xF0F0_F0F0_F0F0_F0F0,
    0xFF00_FF00_FF00_FF00,
    0xFFFF_0000_FFFF_0000,
    0xFFFF_FFFF_0000_0000,
];

/// The label of the good formula at `at`, and the place after it.
pub(crate) fn label(rule: &[u8], at: usize) -> (u64, usize) {
    match rule[at] {
        PROPOSITION => (PROPOSITIONS[usize::from(rule[at + 1])], at + 2),
        TRUE => (u64::MAX, at + 1),
        NOT => {
            let nots = rule[at..].iter().take_while(|&&kind| kind == NOT).count();
            let (a, end) = label(rule, at + nots);
            (if nots % 2 == 1 { !a } else { a }, end)
        }
        AND => {
            let (a, second) = label(rule, at + 1);
            let (b, end) = label(rule, second);
            (a & b, end)
        }
        OR => {
            let (a, second) = label(rule, at + 1);
            let (b, end) = label(rule, second);
            (a | b, end)
        }
        _ => (0, at + 1),
    }
}
