//! The scope document by the book, in plain Rust.
//!
//! The code of the proved library was not looked at for this crate, which is written from the papers. The
//! answers of the two are compared: where they differ, one of them is wrong or the papers leave something
//! open. So this crate prefers the obvious way over the fast one.
//!
//! The plan of the search is the library's too (forward by levels, back for the run): it was known from the
//! project's documents. The tests therefore hold the search to two other ways of finding its answer.
//!
//! | subject | module | public |
//! |---|---|---|
//! | numbers given back | `refusal` | [`Refusal`] |
//! | formulas and their labels | `formula` | [`Formula`] |
//! | rules and their weight | `rule` | [`Rule`], [`Counts`] |
//! | bytes to rules | `reader` | [`read_rule`], [`ReadRule`] |
//! | Definition 2 | `meaning` | [`accepts`] |
//! | the plain judge | `judge` | [`judge()`] |
//! | the automaton in the scope document's numbering | `table` | [`build`], [`Table`] |
//! | the walker | `walk` | [`Walker`], [`start`], [`step`], [`follow`] |
//! | rows by letter | `rows`, `walk` | [`rows_of`], [`labels_of`], [`step_rows`], [`follow_rows`] |
//! | bytes to models | `model` | [`read_model`], [`Model`] |
//! | models given by formulas | `system` | [`formula_model`], [`read_system`], [`System`], [`StepFormula`] |
//! | which states of a model last | `lasting` | [`lasting()`], [`Lasting`] |
//! | the search and its count | `search` | [`search()`], [`search_trimmed`], [`Searched`] |
//! | the trimmed table | `trim` | [`trim()`] |
//! | what rulecheck prints | `line` | [`line()`] |
//! | rules as text | `text` | [`read_text`], [`write_text`], [`Given`] |

#![forbid(unsafe_code)]
#![warn(missing_docs)]

mod bytes;
mod formula;
mod judge;
mod lasting;
mod line;
mod meaning;
mod model;
mod reader;
mod refusal;
mod rows;
mod rule;
mod search;
mod set;
mod system;
mod table;
mod text;
mod trim;
mod walk;

pub use formula::Formula;
pub use judge::judge;
pub use lasting::{lasting, Lasting};
pub use line::line;
pub use meaning::accepts;
pub use model::{read_model, Model};
pub use reader::{read_rule, ReadRule};
pub use refusal::Refusal;
pub use rows::{labels_of, rows_of};
pub use rule::{Counts, Rule};
pub use search::{search, search_trimmed, Searched};
pub use system::{formula_model, read_system, StepFormula, System, MODEL_BYTES};
pub use table::{build, Table, TABLE_ENTRIES};
pub use text::{read_text, write_text, Given};
pub use trim::trim;
pub use walk::{follow, follow_rows, start, step, step_rows, Walker};
