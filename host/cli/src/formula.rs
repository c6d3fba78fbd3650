//! Labels as formulas that a person reads, in the text form of rules.
//!
//! A label is a set of letters. A short formula for it is sought among sums of products and products of sums, and what
//! is shown is what the proved reader and builder make the same label of.

use crate::names::{numbered, Names, PROPOSITIONS};
use crate::rules::rename;
use gongcollar::{Rule, Table};

/// The letters in which each proposition holds.
const HOLDS: [u64; PROPOSITIONS] = [
    0xAAAA_AAAA_AAAA_AAAA,
    0xCCCC_CCCC_CCCC_CCCC,
    0xF0F0_F0F0_F0F0_F0F0,
    0xFF00_FF00_FF00_FF00,
    0xFFFF_0000_FFFF_0000,
    0xFFFF_FFFF_0000_0000,
];

/// A formula of the label in the model's names; the label itself, in hexadecimal, where none is short enough for a rule.
pub fn formula(label: u64, names: &Names) -> String {
    let text = shortest(label);
    match label_of(&text) {
        Some(same) if same == label => rename(&text, names),
        _ => format!("{label:016X}"),
    }
}

/// What the proved builder makes of a formula.
fn label_of(text: &str) -> Option<u64> {
    let rule = Rule::from_text(text).ok()?;
    let table = Table::build(rule.bytes()).ok()?;
    (table.weight() == 2).then(|| table.label(0, 1))
}

fn shortest(label: u64) -> String {
    let sum = joined(cover(label).iter().map(|cube| cube.all()), '|', "false");
    // What the label lacks is a sum of products; turned round, each product is a sum.
    let product = joined(cover(!label).iter().map(|cube| cube.any()), '&', "true");
    match product.len() < sum.len() {
        true => product,
        false => sum,
    }
}

/// A product of propositions and of negated ones.
#[derive(Debug, Clone, Copy, PartialEq, Eq)]
struct Cube {
    plain: u8,
    negated: u8,
}

impl Cube {
    /// Its propositions, each negated or not; or turned round.
    fn words(self, turned: bool) -> impl Iterator<Item = String> {
        (0..PROPOSITIONS).filter_map(move |number| {
            let (plain, negated) = (
                self.plain >> number & 1 == 1,
                self.negated >> number & 1 == 1,
            );
            (plain || negated).then(|| match negated != turned {
                true => format!("!{}", numbered(number)),
                false => numbered(number),
            })
        })
    }

    fn all(self) -> String {
        joined(self.words(false), '&', "true")
    }

    /// The sum that holds where the product does not.
    fn any(self) -> String {
        joined(self.words(true), '|', "false")
    }
}

fn joined(parts: impl Iterator<Item = String>, sign: char, none: &str) -> String {
    parts
        .reduce(|left, right| format!("({left}{sign}{right})"))
        .unwrap_or_else(|| none.into())
}

/// Products whose sum is the set, none of which can be left out (Minato and Morreale).
fn cover(set: u64) -> Vec<Cube> {
    let mut cubes = Vec::new();
    between(
        set,
        set,
        PROPOSITIONS,
        Cube {
            plain: 0,
            negated: 0,
        },
        &mut cubes,
    );
    cubes
}

/// Adds products over the first propositions, each within a factor, whose sum has `lower` and stays within `upper`;
/// answers that sum.
fn between(lower: u64, upper: u64, count: usize, factor: Cube, cubes: &mut Vec<Cube>) -> u64 {
    if lower == 0 {
        return 0;
    }
    if upper == u64::MAX || count == 0 {
        cubes.push(factor);
        return u64::MAX;
    }
    let last = count - 1;
    let ((low0, low1), (up0, up1)) = (halves(lower, last), halves(upper, last));
    let without = Cube {
        negated: factor.negated | 1 << last,
        ..factor
    };
    let with = Cube {
        plain: factor.plain | 1 << last,
        ..factor
    };
    let sum0 = between(low0 & !up1, up0, last, without, cubes);
    let sum1 = between(low1 & !up0, up1, last, with, cubes);
    let rest = low0 & !sum0 | low1 & !sum1;
    let both = between(rest, up0 & up1, last, factor, cubes);
    sum0 & !HOLDS[last] | sum1 & HOLDS[last] | both
}

/// The set where a proposition does not hold and where it does, each carried over to all letters.
fn halves(set: u64, proposition: usize) -> (u64, u64) {
    let width = 1 << proposition;
    let (without, with) = (set & !HOLDS[proposition], set & HOLDS[proposition]);
    (without | without << width, with | with >> width)
}

#[cfg(test)]
mod tests {
    use super::*;
    use proptest::prelude::*;

    fn names() -> Names {
        Names::new(["expire", "thin"].map(String::from).to_vec(), Vec::new())
    }

    #[test]
    fn what_was_written_comes_back() {
        for (label, text) in [
            (0, "false"),
            (u64::MAX, "true"),
            (HOLDS[0], "expire"),
            (!HOLDS[1], "!thin"),
            (HOLDS[0] & HOLDS[5], "(expire&p5)"),
            (HOLDS[0] | !HOLDS[1], "(expire|!thin)"),
            (
                (HOLDS[0] | HOLDS[1]) & (HOLDS[2] | HOLDS[3]),
                "((expire|thin)&(p2|p3))",
            ),
        ] {
            let shown = formula(label, &names());
            // The order of the parts is the search's own.
            let mut seen: Vec<char> = shown.chars().collect();
            let mut wanted: Vec<char> = text.chars().collect();
            seen.sort_unstable();
            wanted.sort_unstable();
            assert_eq!(seen, wanted, "{shown} for {text}");
        }
    }

    #[test]
    fn a_formula_that_no_rule_has_room_for_is_a_number() {
        let parity = (0..64u32).filter(|letter| letter.count_ones() % 2 == 1);
        let label = parity.fold(0u64, |set, letter| set | 1 << letter);
        assert_eq!(formula(label, &names()), "6996966996696996");
    }

    proptest! {
        #[test]
        fn a_cover_is_the_set(set: u64, mask: u64) {
            let set = set & mask;
            for letter in 0..64u32 {
                let holds = |cube: &Cube| {
                    let letter = letter as u8;
                    letter & cube.plain == cube.plain && letter & cube.negated == 0
                };
                prop_assert_eq!(cover(set).iter().any(holds), set >> letter & 1 == 1);
            }
        }

        #[test]
        fn the_proved_reader_agrees(left in 0usize..6, right in 0usize..6, third in 0usize..6, turn: bool) {
            let both = HOLDS[left] & !HOLDS[right] | HOLDS[third];
            let label = if turn { !both } else { both };
            prop_assert_eq!(label_of(&shortest(label)), Some(label));
        }
    }
}
