//! `table`: a rule's automaton in words, or as a picture's source.

use super::{names, rule};
use crate::args::ShowTable;
use crate::formula::formula;
use crate::output::Out;
use crate::rules::rename;
use crate::trouble::End;
use crate::verdict::unexpected;
use crate::{dot, Status};
use gongcollar::{Table, STATES};

pub fn run(args: &ShowTable, out: &mut Out) -> Result<Status, End> {
    let names = names(&args.names)?;
    let ready = rule(&args.rule, &names, &args.place)?;
    let mut table = Table::build(ready.searched.bytes()).map_err(unexpected)?;
    if args.trim {
        table.trim();
    }
    if args.dot {
        let title = rename(&ready.searched.to_string(), &names);
        out.text(&dot::table(&table, &names, &title))?;
        return Ok(Status::Nothing);
    }
    let states = |set: u64| -> Vec<String> {
        (0..STATES)
            .filter(|at| set >> at & 1 == 1)
            .map(|at| at.to_string())
            .collect()
    };
    out.line(format!("weight {}", table.weight()))?;
    out.line(format!("finals {}", or_dash(states(table.finals()))))?;
    out.line(format!(
        "uses {}",
        or_dash(names.members(table.uses().bits()))
    ))?;
    for from in 0..STATES {
        for to in (0..STATES).filter(|&to| table.label(from, to) != 0) {
            out.line(format!(
                "from {from} to {to}: {}",
                formula(table.label(from, to), &names)
            ))?;
        }
    }
    Ok(Status::Nothing)
}

/// The words with blanks between, or `-` if there are none.
fn or_dash(words: Vec<String>) -> String {
    match words.is_empty() {
        true => "-".into(),
        false => words.join(" "),
    }
}
