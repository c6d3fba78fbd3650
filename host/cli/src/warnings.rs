//! What is probably not meant: it changes no verdict.

use crate::formula::formula;
use crate::model::{Model, RECORD};
use crate::rules::Ready;
use crate::trouble::Trouble;
use crate::verdict::{unexpected, Verdict};
use gongcollar::{Rule, Table, Workspace};
use serde::Serialize;
use std::fmt;

/// A warning.
#[derive(Debug, Clone, PartialEq, Eq, Serialize)]
pub struct Warning {
    /// A word for it that stays.
    pub kind: &'static str,
    /// What is said.
    pub says: String,
}

impl fmt::Display for Warning {
    fn fmt(&self, f: &mut fmt::Formatter<'_>) -> fmt::Result {
        f.write_str(&self.says)
    }
}

/// A model, and which of its states some run reaches that can be continued for ever.
#[derive(Debug)]
pub struct Surveyed<'a> {
    model: &'a Model,
    reached: u64,
}

impl<'a> Surveyed<'a> {
    /// Asks the proved search for a run to each state: in a copy of the model it alone has p0.
    pub fn new(model: &'a Model, workspace: &mut Workspace) -> Result<Surveyed<'a>, Trouble> {
        let rule = Rule::from_text("{{true}[*];p0}").map_err(unexpected)?;
        let mut reached = 0;
        for state in (0..model.len()).filter(|state| model.lasting() >> state & 1 == 1) {
            let mut marked = model.bytes().to_vec();
            for (at, record) in marked.chunks_exact_mut(RECORD).enumerate() {
                record[1] = u8::from(at == state);
            }
            let searched = workspace
                .search(rule.bytes(), &marked)
                .map_err(unexpected)?;
            reached |= u64::from(searched.run.is_some()) << state;
        }
        Ok(Surveyed { model, reached })
    }

    /// The states that some run reaches.
    pub fn reached(&self) -> u64 {
        self.reached
    }

    /// The states that runs reach, and those that they would enter if they were no dead ends.
    pub fn entered(&self) -> u64 {
        let states = self.model.states();
        let reached = (0..states.len()).filter(|at| self.reached >> at & 1 == 1);
        let first = self.reached | self.model.initial();
        reached.fold(first, |set, at| set | states[at].successors)
    }

    /// The dead ends that are told: of a model by formulas, which has every letter for a state, those alone that a run
    /// would enter.
    fn dropped(&self) -> u64 {
        let dropped = self.model.all() & !self.model.lasting();
        match self.model.named() {
            Some(_) => dropped & self.entered() & self.model.standing_for_all(0),
            None => dropped,
        }
    }

    /// Of the model.
    pub fn of_model(&self) -> Vec<Warning> {
        let (model, names) = (self.model, self.model.names());
        let mut warnings = Vec::new();
        let dropped = self.dropped();
        if dropped != 0 {
            warnings.push(Warning {
                kind: "dead-ends",
                says: format!(
                    "dropped as dead ends, since no endless run leaves them: {}",
                    names.some_states(dropped, |state| names.state(state))
                ),
            });
        }
        if let Some(says) = self.no_run() {
            warnings.push(Warning {
                kind: "no-run",
                says: format!("there is no run at all: {says}"),
            });
            return warnings;
        }
        let unreached = model.lasting() & !self.reached;
        // What formulas keep runs from is what they are for.
        if unreached != 0 && model.named().is_none() {
            warnings.push(Warning {
                kind: "unreached",
                says: format!("no run reaches: {}", names.states(unreached).join(", ")),
            });
        }
        warnings
    }

    /// Why there is no run at all, if there is none.
    fn no_run(&self) -> Option<&'static str> {
        let model = self.model;
        match (model.is_empty(), model.initial()) {
            (true, _) => Some("the model has no states"),
            (_, 0) => Some("no state is initial"),
            (_, initial) if initial & model.lasting() == 0 => {
                Some("each initial state leads to dead ends alone")
            }
            _ => None,
        }
    }

    /// Of a rule, by what became of it: of one that was refused there is nothing to say.
    pub fn of_verdict(&self, verdict: &Verdict) -> Result<Vec<Warning>, Trouble> {
        match verdict {
            Verdict::Refused(_) => Ok(Vec::new()),
            Verdict::None { ready, pairs } | Verdict::Found { ready, pairs, .. } => {
                self.of_rule(ready, *pairs)
            }
        }
    }

    /// Of a rule that was searched for.
    fn of_rule(&self, ready: &Ready, pairs: u64) -> Result<Vec<Warning>, Trouble> {
        let mut warnings = self.never_set(ready);
        if pairs == 0 {
            warnings.push(Warning {
                kind: "never-tried",
                says: format!("never tried: {}", self.never_tried(ready)?),
            });
        }
        let anywhere = ready.rule != ready.searched;
        if anywhere && gongcollar::judge(ready.rule.bytes(), &[]).map_err(unexpected)? {
            warnings.push(Warning {
                kind: "accepts-empty",
                says: "it accepts the empty sequence, which every run has anywhere".into(),
            });
        }
        Ok(warnings)
    }

    fn never_set(&self, ready: &Ready) -> Vec<Warning> {
        let states = self.model.states();
        let set_in = |among: u64| {
            let among = states
                .iter()
                .enumerate()
                .filter(|(at, _)| among >> at & 1 == 1);
            among.fold(0, |set, (_, state)| set | u64::from(state.letter))
        };
        let (all, reached) = (set_in(self.model.all()), set_in(self.reached));
        let names = |set: u64| self.model.names().members(set).join(", ");
        let uses = ready.rule.uses().bits();
        let mut warnings = Vec::new();
        if uses & !all != 0 {
            warnings.push(Warning {
                kind: "never-set",
                says: format!("it names what no state sets: {}", names(uses & !all)),
            });
        }
        if self.reached != 0 && uses & all & !reached != 0 {
            let says = format!(
                "it names what no state sets that a run reaches: {}",
                names(uses & all & !reached)
            );
            warnings.push(Warning {
                kind: "never-set",
                says,
            });
        }
        warnings
    }

    /// Why no pair was met.
    fn never_tried(&self, ready: &Ready) -> Result<String, Trouble> {
        if let Some(why) = self.no_run() {
            return Ok(why.into());
        }
        let mut table = Table::build(ready.searched.bytes()).map_err(unexpected)?;
        table.trim();
        let first = (0..gongcollar::STATES).fold(0, |set, to| set | table.label(0, to));
        if first == 0 {
            return Ok("it accepts no sequence that has an event".into());
        }
        let names = self.model.names();
        let states = self.model.states();
        let initial = self.model.initial() & self.model.lasting();
        let initial = initial & self.model.standing_for_all(ready.rule.uses().bits());
        let with_letter = |at: usize| names.state_with_letter(at, states[at].letter);
        Ok(format!(
            "no initial state has a first letter that fits: it begins with `{}`, and runs with {}; \
             --anywhere looks for it from any state on",
            formula(first, names),
            names.some_states(initial, with_letter)
        ))
    }
}
