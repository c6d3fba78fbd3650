//! Gongcollar checks sequence rules, and every call of it is proved.
//!
//! A rule is a sequence expression of PSL, and a model a small set of states with letters and successors; both are
//! given as bytes in the house form. [`Workspace::search`] tells whether some run of the model spells a sequence that
//! the rule accepts, and shows the first shortest one; only runs that can be continued for ever count, and [`lasting`]
//! tells which states these can enter. A [`Table`] and a [`Walker`] follow events as they come, with a walker for each
//! place that they come from; [`Table::follow`] decides a whole sequence, and [`judge`] a short one with no table. Bad
//! input is a [`Refusal`] with its number and its place.
//!
//! [`Table::rows`] stores a table the other way, as rows by letter: a walker then reads one row for each state that it may
//! be in, and no labels.
//!
//! [`Table::trim`] takes the states that do no work out of a table, and [`Workspace::search_trimmed`] searches over what
//! is left.
//!
//! A [`Rule`] is read from text, as `{p0;{{p1}[*];p2}}`, and written as it.
//!
//! A [`Model`] need not be drawn state by state: a [`System`] is a [`Formula`] for the initial states and one for the
//! step, and its model has a state for each letter.
//!
//! This crate is a thin layer over the proved static library. What it adds is Rust's types: nothing is decided here.
//!
//! No call panics, whatever it is given. A call that refuses leaves all that was lent to it as it was.

#![deny(missing_docs)]
#![deny(unsafe_code)]

mod lines;
mod models;
mod propositions;
#[allow(unsafe_code)]
pub mod raw;
mod refusal;
mod rows;
mod rules;
mod systems;
mod tables;
mod texts;
mod walkers;

pub use lines::{rulecheck, rulecheck_into};
pub use models::{
    lasting, read_model, search_into, search_trimmed_into, Lasting, Lent, Model, ModelInfo,
    Searched, Workspace,
};
pub use propositions::Propositions;
pub use refusal::Refusal;
pub use rows::{rows_into, table_into, Layout, LentRows, Rows};
pub use rules::{judge, read_rule, RuleInfo};
pub use systems::{formula_model, formula_model_into, Formula, System};
pub use tables::{build_into, follow, trim_into, Built, Table, Trimmed};
pub use texts::{read_text_into, write_text_into, Rule};
pub use walkers::{Stepped, Steps, Walker};

/// The most states that a table or a model has.
pub const STATES: usize = 64;

/// The entries that a call uses of each lent slice; a shorter one is refused.
pub const ENTRIES: usize = STATES * STATES;

/// The bytes that rulecheck asks for its line.
pub const LINE_BYTES: usize = 16_384;

/// The most bytes that a rule has.
pub const RULE_BYTES: usize = 255;

/// The most bytes that the two formulas of a model have, with the kind that stands before each.
pub const FORMULAS_BYTES: usize = 255;

/// The bytes of a model of 64 states, as two formulas give it.
pub const MODEL_BYTES: usize = 704;

/// The most characters that a rule's text has.
pub const TEXT_BYTES: usize = 1_280;
