//! A JSON object for each rule, a line each.

use crate::model::Model;
use crate::rules;
use crate::trouble::Trouble;
use crate::verdict::{Run, Verdict};
use crate::warnings::Warning;
use serde::Serialize;

#[derive(Default, Serialize)]
struct Told<'a> {
    name: Option<&'a str>,
    rule: &'a str,
    line: Option<usize>,
    verdict: &'static str,
    #[serde(skip_serializing_if = "Option::is_none")]
    text: Option<String>,
    #[serde(skip_serializing_if = "Option::is_none")]
    weight: Option<u64>,
    #[serde(skip_serializing_if = "Option::is_none")]
    uses: Option<Vec<String>>,
    #[serde(skip_serializing_if = "Option::is_none")]
    pairs: Option<u64>,
    #[serde(skip_serializing_if = "Option::is_none")]
    run: Option<Vec<Step>>,
    #[serde(skip_serializing_if = "Option::is_none")]
    matched: Option<Matched>,
    #[serde(skip_serializing_if = "Option::is_none")]
    refusal: Option<Refused<'a>>,
    warnings: &'a [Warning],
}

/// One state of a run.
#[derive(Serialize)]
struct Step {
    state: usize,
    name: String,
    letter: u8,
    holds: Vec<String>,
}

/// The first and the last state of the run that the rule itself matches, counted from 1; null for an empty match.
#[derive(Serialize)]
struct Matched {
    from: Option<usize>,
    to: Option<usize>,
}

#[derive(Serialize)]
struct Refused<'a> {
    number: Option<u64>,
    /// The offset in the rule as it was typed, in bytes.
    place: usize,
    /// The column in the line or the argument, in characters from 1.
    column: Option<usize>,
    says: &'a str,
    hints: &'a [String],
}

/// The object of one rule.
pub fn object(verdict: &Verdict, model: &Model, warnings: &[Warning]) -> Result<String, Trouble> {
    let typed = verdict.typed();
    let mut told = Told {
        name: typed.name.as_deref(),
        rule: &typed.text,
        line: typed.line(),
        warnings,
        ..Told::default()
    };
    match verdict {
        Verdict::Refused(refused) => {
            told.verdict = "refused";
            told.refusal = Some(refusal(refused));
        }
        Verdict::None { ready, pairs } | Verdict::Found { ready, pairs, .. } => {
            told.verdict = "none";
            told.text = Some(ready.searched.to_string());
            told.weight = Some(ready.searched.weight());
            told.uses = Some(model.names().members(ready.searched.uses().bits()));
            told.pairs = Some(*pairs);
        }
    }
    if let Verdict::Found { run, .. } = verdict {
        told.verdict = "found";
        told.run = Some(steps(run, model));
        told.matched = Some(matched(run));
    }
    serde_json::to_string(&told).map_err(|error| Trouble::slip(format!("no JSON: {error}")))
}

fn refusal(refused: &rules::Refused) -> Refused<'_> {
    Refused {
        number: refused.refusal.map(|refusal| refusal.number()),
        place: refused.offset,
        column: refused.trouble.place.as_ref().map(|place| place.column()),
        says: &refused.trouble.what,
        hints: &refused.trouble.hints,
    }
}

fn steps(run: &Run, model: &Model) -> Vec<Step> {
    let names = model.names();
    let step = |(&state, &letter): (&usize, &u8)| Step {
        state,
        name: names.state(state),
        letter,
        holds: names.members(letter.into()),
    };
    run.states.iter().zip(&run.letters).map(step).collect()
}

fn matched(run: &Run) -> Matched {
    let any = run.before < run.states.len();
    Matched {
        from: any.then_some(run.before + 1),
        to: any.then_some(run.states.len()),
    }
}
