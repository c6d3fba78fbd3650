//! `gongcollar`: checks sequence rules against a model of jobs, from the command line.
//!
//! Everything that decides is asked of the proved library by way of the crate `gongcollar`: what a rule and a model are,
//! which states last, whether a run matches and which, what a table is, whether events match. What is added here is what
//! an operator needs around it: names, files, warnings, pictures.
//!
//! | subject | module |
//! |---|---|
//! | the command line and the manual's beginning | `args` |
//! | a command each | `commands` |
//! | models as text: reader, second reading, writer | `model` |
//! | rules with names, their files, refusals in terms of what was typed | `rules` |
//! | events as text | `events` |
//! | what a search says, in the model's terms | `verdict` |
//! | what is probably not meant | `warnings` |
//! | labels as formulas | `formula` |
//! | pictures for graphviz | `dot` |
//! | JSON | `json` |
//! | reads and writes that may fail | `files`, `output` |
//! | messages | `trouble` |

#![forbid(unsafe_code)]

pub mod args;
pub mod commands;
pub mod dot;
pub mod events;
pub mod files;
pub mod formula;
pub mod json;
pub mod model;
pub mod names;
pub mod output;
pub mod rules;
pub mod trouble;
pub mod verdict;
pub mod warnings;

use args::Cli;
use clap::error::ErrorKind;
use clap::Parser;
use output::{complain, Out};
use std::ffi::OsString;
use trouble::{End, Trouble};

/// How the program ends.
#[derive(Debug, Clone, Copy, PartialEq, Eq, PartialOrd, Ord)]
pub enum Status {
    /// Nothing was found.
    Nothing = 0,
    /// Something was.
    Found = 1,
    /// A refusal, or any trouble: whatever was printed is no whole verdict.
    Trouble = 2,
}

/// Runs the program on its arguments, the program's own name first.
pub fn run(arguments: impl IntoIterator<Item = OsString>) -> Status {
    match attempt(arguments) {
        Ok(status) => status,
        Err(End::ClosedPipe) => Status::Trouble,
        Err(End::Trouble(trouble)) => {
            complain(&trouble);
            Status::Trouble
        }
    }
}

fn attempt(arguments: impl IntoIterator<Item = OsString>) -> Result<Status, End> {
    // Before any file is opened, so that none comes to stand where a closed output stood.
    let mut out = Out::standard()?;
    let status = match Cli::try_parse_from(arguments) {
        Ok(cli) => commands::run(&cli.command, &mut out)?,
        Err(said) => match said.kind() {
            ErrorKind::DisplayHelp | ErrorKind::DisplayVersion => {
                out.text(&said.to_string())?;
                Status::Nothing
            }
            ErrorKind::DisplayHelpOnMissingArgumentOrSubcommand => {
                return Err(Trouble::new(format!("a command is needed\n\n{said}")).into())
            }
            _ => return Err(usage(&said.to_string()).into()),
        },
    };
    out.flush()?;
    Ok(status)
}

/// What clap says of arguments that do not fit, in the form of every other message.
fn usage(said: &str) -> Trouble {
    Trouble::new(said.trim_start_matches("error: ").trim_end())
}
