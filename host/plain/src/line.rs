//! The line that rulecheck prints.

use crate::reader::read_rule;
use crate::search::{search, Searched};
use crate::set::members;
use crate::table::TABLE_ENTRIES;

/// The line for one input, without its newline. The input is a byte that says the rule's length, the rule,
/// and the model; a rule that is cut short leaves no model.
pub fn line(input: &[u8]) -> String {
    let (rule, model) = parts(input);
    let said = search(rule, model, [TABLE_ENTRIES; 4])
        .and_then(|searched| Ok((searched, read_rule(rule)?.rule.names())));
    match said {
        Ok((searched, names)) => format!("{} uses {}", answer(&searched), numbers(names)),
        Err(refusal) => format!("refused {} at {}", refusal.number, refusal.place),
    }
}

/// The members of a set in rising order, a blank between; a dash for none.
fn numbers(set: u64) -> String {
    match set {
        0 => "-".into(),
        _ => {
            let numbers: Vec<String> = members(set).map(|number| number.to_string()).collect();
            numbers.join(" ")
        }
    }
}

/// The rule and the model of an input.
fn parts(input: &[u8]) -> (&[u8], &[u8]) {
    match input {
        [] => (&[], &[]),
        [length, rest @ ..] => rest.split_at(rest.len().min(*length as usize)),
    }
}

/// What is said of a search.
fn answer(searched: &Searched) -> String {
    match &searched.run {
        None => format!("none pairs {}", searched.pairs),
        Some(run) => {
            let states: Vec<String> = run.iter().map(u8::to_string).collect();
            format!(
                "found {} pairs {}: {}",
                run.len(),
                searched.pairs,
                states.join(" ")
            )
        }
    }
}
