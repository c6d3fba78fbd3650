//! `draw`: a picture's source, with the run in colour.

use super::{rule, tell_warnings};
use crate::args::Draw;
use crate::files::{self, called};
use crate::output::Out;
use crate::trouble::End;
use crate::verdict::{search, Verdict};
use crate::warnings::Surveyed;
use crate::{dot, Status};
use gongcollar::Workspace;

pub fn run(args: &Draw, out: &mut Out) -> Result<Status, End> {
    let warns = args.warnings.told();
    let model = files::model(&args.model.path, args.model.bytes, warns)?;
    let ready = rule(&args.rule, model.names(), &args.place)?;
    let mut workspace = Workspace::new();
    let surveyed = Surveyed::new(&model, &mut workspace)?;
    let verdict = search(ready, &model, &mut workspace)?;
    if warns {
        tell_warnings(&called(&args.model.path), &surveyed.of_model());
        tell_warnings(&verdict.typed().called(), &surveyed.of_verdict(&verdict)?);
    }
    let run = match &verdict {
        Verdict::Found { run, .. } => Some(run),
        _ => None,
    };
    out.text(&dot::model(&model, &surveyed, &title(&verdict), run))?;
    Ok(Status::Nothing)
}

/// The rule as it was typed, and what became of it.
fn title(verdict: &Verdict) -> String {
    let typed = verdict.typed();
    let said = said(verdict);
    match &typed.name {
        Some(name) => format!("{name}: {}: {said}", typed.text),
        None => format!("{}: {said}", typed.text),
    }
}

/// What became of a rule. One that met no pair was not tried, and a picture of it should not look as if it was.
fn said(verdict: &Verdict) -> &'static str {
    match verdict {
        Verdict::Found { .. } => "found",
        Verdict::None { pairs: 0, .. } => "none, never tried",
        _ => "none",
    }
}
