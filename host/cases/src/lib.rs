//! Inputs to try the library on. All are drawn from a seed, so that a run can be had again.
//!
//! Nothing here reads a rule or a model: whether an input is a good one is for those under trial to say. Where a
//! generator promises something (a weight, a number of states), it holds by the way the bytes are put together.

#![deny(missing_docs)]

pub mod damage;
pub mod draws;
pub mod heavy;
pub mod hostile;
pub mod letters;
pub mod models;
pub mod rules;
pub mod systems;
pub mod texts;

pub use draws::Draws;

/// The input of rulecheck: a length, a rule and a model. A rule that is too long for the length byte is cut by it.
pub fn line_input(rule: &[u8], model: &[u8]) -> Vec<u8> {
    let mut input = vec![rule.len().min(0xFF) as u8];
    input.extend_from_slice(rule);
    input.extend_from_slice(model);
    input
}
