//! The built program, run as a user runs it.

mod formulas;
mod names;
mod pictures;
mod readme;
mod shell;
mod streams;
mod texts;
mod thousand;
mod transcripts;
