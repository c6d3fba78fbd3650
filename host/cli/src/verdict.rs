//! What the proved search says of a rule, in terms of the model.

use crate::model::Model;
use crate::rules::{Ready, Refused};
use crate::trouble::Trouble;
use gongcollar::{Refusal, Rule, Table, Workspace};

/// What became of a rule.
#[derive(Debug, Clone)]
pub enum Verdict {
    /// It was refused.
    Refused(Box<Refused>),
    /// No run of any length matches.
    None {
        /// The rule.
        ready: Ready,
        /// How many pairs of a model state and a table state were met.
        pairs: u64,
    },
    /// A run matches.
    Found {
        /// The rule.
        ready: Ready,
        /// How many pairs were met.
        pairs: u64,
        /// The run.
        run: Run,
    },
}

/// A run that matches.
#[derive(Debug, Clone, PartialEq, Eq)]
pub struct Run {
    /// Its states.
    pub states: Vec<usize>,
    /// Their letters.
    pub letters: Vec<u8>,
    /// How many states stand before those that the rule itself matches; all, if it matches the empty sequence there.
    pub before: usize,
}

impl Verdict {
    /// The rule as it was typed.
    pub fn typed(&self) -> &crate::rules::Typed {
        match self {
            Verdict::Refused(refused) => &refused.typed,
            Verdict::None { ready, .. } | Verdict::Found { ready, .. } => &ready.typed,
        }
    }
}

/// Searches a model for a run that matches a rule.
pub fn search(ready: Ready, model: &Model, workspace: &mut Workspace) -> Result<Verdict, Trouble> {
    let searched = workspace
        .search(ready.searched.bytes(), model.bytes())
        .map_err(unexpected)?;
    let pairs = searched.pairs;
    let Some(states) = searched.run else {
        return Ok(Verdict::None { ready, pairs });
    };
    let run = shown(&ready, model, states)?;
    Ok(Verdict::Found { ready, pairs, run })
}

/// The run with its letters, which the proved walk has to accept as they are shown.
fn shown(ready: &Ready, model: &Model, run: &[u8]) -> Result<Run, Trouble> {
    let model = model.states();
    let states: Vec<usize> = run.iter().map(|&state| state.into()).collect();
    let letters: Option<Vec<u8>> = states
        .iter()
        .map(|&state| Some(model.get(state)?.letter))
        .collect();
    let letters = letters.unwrap_or_default();
    if !accepts(&ready.searched, &letters)? {
        return Err(Trouble::slip(
            "the run that was found is not shown as it is",
        ));
    }
    let before = before(ready, &letters)?;
    Ok(Run {
        states,
        letters,
        before,
    })
}

/// Where the rule itself begins to match: as late as it can, with no letters at all only if there is no other way.
fn before(ready: &Ready, letters: &[u8]) -> Result<usize, Trouble> {
    if ready.rule == ready.searched {
        return Ok(0);
    }
    let table = Table::build(ready.rule.bytes()).map_err(unexpected)?;
    for start in (0..letters.len()).rev().chain([letters.len()]) {
        if table.follow(&letters[start..]).map_err(unexpected)? {
            return Ok(start);
        }
    }
    Err(Trouble::slip(
        "no part of the run that was found matches the rule",
    ))
}

fn accepts(rule: &Rule, letters: &[u8]) -> Result<bool, Trouble> {
    let table = Table::build(rule.bytes()).map_err(unexpected)?;
    table.follow(letters).map_err(unexpected)
}

/// A refusal of what was accepted before.
pub fn unexpected(refusal: Refusal) -> Trouble {
    Trouble::slip(format!("what was accepted is {refusal}"))
}
