//! The commands, a module each.

mod bytes;
mod check;
mod draw;
mod follow;
mod judge;
mod model;
mod table;
mod text;

use crate::args::{Command, NamesFrom, Where};
use crate::files;
use crate::names::Names;
use crate::output::{warn, Out};
use crate::rules::{argument, Ready};
use crate::trouble::{End, Trouble};
use crate::warnings::Warning;
use crate::Status;

/// Runs a command.
pub fn run(command: &Command, out: &mut Out) -> Result<Status, End> {
    match command {
        Command::Check(args) => check::run(args, out),
        Command::Model(args) => model::run(args, out),
        Command::Table(args) => table::run(args, out),
        Command::Judge(args) => judge::run(args, out),
        Command::Follow(args) => follow::run(args, out),
        Command::Text(args) => text::run(args, out),
        Command::Bytes(args) => bytes::run(args, out),
        Command::Draw(args) => draw::run(args, out),
    }
}

/// What messages call a rule that is an argument.
const RULE: &str = "rule";

fn names(from: &NamesFrom) -> Result<Names, Trouble> {
    match &from.names {
        Some(path) => Ok(files::model(path, false, true)?.names().clone()),
        None => Ok(Names::default()),
    }
}

/// The one rule of a command.
fn rule(text: &str, names: &Names, place: &Where) -> Result<Ready, Trouble> {
    let typed = argument(RULE, text);
    Ready::read(&typed, names, place.anywhere).map_err(|refused| refused.trouble)
}

/// Tells the warnings of a model or of a rule, which is called so.
fn tell_warnings(of: &str, warnings: &[Warning]) {
    for warning in warnings {
        warn(format!("{of}: {warning}"));
    }
}
