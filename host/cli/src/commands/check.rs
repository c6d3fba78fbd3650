//! `check`: a line for each rule.

use super::{tell_warnings, RULE};
use crate::args::Check;
use crate::files::{self, called, is_standard};
use crate::json;
use crate::model::Model;
use crate::output::{complain, Out};
use crate::rules::{self, Ready, Typed};
use crate::trouble::{End, Trouble};
use crate::verdict::{search, Run, Verdict};
use crate::warnings::{Surveyed, Warning};
use crate::Status;
use gongcollar::Workspace;
use indicatif::{ProgressBar, ProgressDrawTarget, ProgressStyle};

/// From how many rules on progress is shown.
const MANY: usize = 100;

pub fn run(args: &Check, out: &mut Out) -> Result<Status, End> {
    let warns = args.warnings.told();
    let model = files::model(&args.model.path, args.model.bytes, warns)?;
    let rules = typed(args)?;
    let mut checker = Checker::new(args, &model)?;
    let of_model = match checker.warns {
        true => checker.surveyed.of_model(),
        false => Vec::new(),
    };
    tell_warnings(&called(&args.model.path), &of_model);
    let mut status = Status::Nothing;
    for (verdict, warnings) in checker.answers(&rules)? {
        status = status.max(status_of(&verdict));
        tell_beside(&verdict, &warnings);
        match args.json {
            true => {
                let warnings = [&of_model[..], &warnings].concat();
                out.line(json::object(&verdict, &model, &warnings)?)?;
            }
            false => out.line(line(&verdict, &model))?,
        }
    }
    Ok(status)
}

/// The rules of the arguments, then those of the file.
fn typed(args: &Check) -> Result<Vec<Typed>, Trouble> {
    let several = args.rules.len() > 1;
    let argued = args
        .rules
        .iter()
        .enumerate()
        .map(|(at, text)| match several {
            true => rules::argument(&format!("{RULE} {}", at + 1), text),
            false => rules::argument(RULE, text),
        });
    let mut typed: Vec<Typed> = argued.collect();
    if let Some(path) = &args.file {
        if is_standard(path) && is_standard(&args.model.path) {
            return Err(Trouble::new(
                "model and rules cannot both come from standard input",
            ));
        }
        let text = files::rules(path, args.warnings.told())?;
        typed.extend(rules::file(&called(path), &text)?);
    }
    Ok(typed)
}

/// What became of a rule, and what is probably not meant by it.
type Answer = (Verdict, Vec<Warning>);

/// What all rules of a call share.
struct Checker<'a> {
    model: &'a Model,
    surveyed: Surveyed<'a>,
    workspace: Workspace,
    anywhere: bool,
    warns: bool,
}

impl<'a> Checker<'a> {
    fn new(args: &Check, model: &'a Model) -> Result<Checker<'a>, Trouble> {
        let mut workspace = Workspace::new();
        Ok(Checker {
            model,
            surveyed: Surveyed::new(model, &mut workspace)?,
            workspace,
            anywhere: args.place.anywhere,
            warns: args.warnings.told(),
        })
    }

    /// What becomes of each rule, with a bar on a terminal if there are many.
    fn answers(&mut self, rules: &[Typed]) -> Result<Vec<Answer>, Trouble> {
        let bar = progress(rules.len());
        let mut answers = Vec::with_capacity(rules.len());
        for typed in rules {
            answers.push(self.answer(typed)?);
            bar.inc(1);
        }
        bar.finish_and_clear();
        Ok(answers)
    }

    fn answer(&mut self, typed: &Typed) -> Result<Answer, Trouble> {
        let ready = match Ready::read(typed, self.model.names(), self.anywhere) {
            Ok(ready) => ready,
            Err(refused) => return Ok((Verdict::Refused(refused), Vec::new())),
        };
        let verdict = search(ready, self.model, &mut self.workspace)?;
        let warnings = match self.warns {
            true => self.surveyed.of_verdict(&verdict)?,
            false => Vec::new(),
        };
        Ok((verdict, warnings))
    }
}

/// A bar on standard error; it shows itself on a terminal alone.
fn progress(rules: usize) -> ProgressBar {
    if rules < MANY {
        return ProgressBar::hidden();
    }
    let bar = ProgressBar::with_draw_target(Some(rules as u64), ProgressDrawTarget::stderr());
    match ProgressStyle::with_template("{bar:40} {pos} of {len} rules, {eta} left") {
        Ok(style) => bar.with_style(style),
        Err(_) => bar,
    }
}

fn status_of(verdict: &Verdict) -> Status {
    match verdict {
        Verdict::Refused(_) => Status::Trouble,
        Verdict::None { .. } => Status::Nothing,
        Verdict::Found { .. } => Status::Found,
    }
}

/// What is said of a rule on standard error.
fn tell_beside(verdict: &Verdict, warnings: &[Warning]) {
    if let Verdict::Refused(refused) = verdict {
        complain(&refused.trouble);
    }
    tell_warnings(&verdict.typed().called(), warnings);
}

/// The line of one rule.
fn line(verdict: &Verdict, model: &Model) -> String {
    let said = match verdict {
        Verdict::Refused(_) => "refused".into(),
        Verdict::None { pairs, .. } => format!("none; pairs {pairs}"),
        Verdict::Found { run, pairs, .. } => format!("found: {}; pairs {pairs}", told(run, model)),
    };
    format!("{}: {said}", verdict.typed().called())
}

/// A run in names: its states with what holds there, and where it matched.
fn told(run: &Run, model: &Model) -> String {
    let names = model.names();
    let states = run.states.iter().zip(&run.letters);
    let states: Vec<String> = states
        .map(|(&state, &letter)| names.state_with_letter(state, letter))
        .collect();
    let last = run.states.len();
    let place = |at: usize| format!("{at} ({})", names.state_in_words(run.states[at - 1]));
    let matched = match run.before < last {
        true => format!("matched from {} to {}", place(run.before + 1), place(last)),
        false => format!("matched nothing after {}", place(last)),
    };
    format!("{}; {matched}", states.join(" -> "))
}
