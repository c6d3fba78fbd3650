//! A typed rule through the proved reader.

use super::explain::{beyond, Given};
use super::lines::Typed;
use super::translate::{translate, with_names};
use crate::names::Names;
use crate::trouble::Trouble;
use gongcollar::{Refusal, Rule};

/// A rule that the proved reader has accepted.
#[derive(Debug, Clone)]
pub struct Ready {
    /// What was typed.
    pub typed: Typed,
    /// The rule itself.
    pub rule: Rule,
    /// The rule that is searched for: itself, or the one that matches it anywhere.
    pub searched: Rule,
}

/// A rule that was refused.
#[derive(Debug, Clone)]
pub struct Refused {
    /// What was typed.
    pub typed: Typed,
    /// The proved reader's refusal, of the translated text; none where the name alone is at fault.
    pub refusal: Option<Refusal>,
    /// The offset in the rule as it was typed.
    pub offset: usize,
    /// The message.
    pub trouble: Trouble,
}

impl Ready {
    /// Reads a typed rule; with `anywhere`, any number of events may come before it.
    pub fn read(typed: &Typed, names: &Names, anywhere: bool) -> Result<Ready, Box<Refused>> {
        check_name(typed, names)?;
        let translated = &translate(&typed.text, names);
        let given = Given {
            typed,
            translated,
            names,
        };
        let rule = Rule::from_text(&translated.text)
            .map_err(|refusal| refused(typed, Some(refusal), given.explain(refusal)))?;
        let searched = match anywhere {
            true => from_anywhere(typed, &translated.text)?,
            false => rule.clone(),
        };
        Ok(Ready {
            typed: typed.clone(),
            rule,
            searched,
        })
    }
}

/// The rule that lets anything come before an accepted one.
fn from_anywhere(typed: &Typed, text: &str) -> Result<Rule, Box<Refused>> {
    Rule::from_text(&format!("{{{{true}}[*];{text}}}")).map_err(|refusal| {
        let hint = "that is with the `{{true}[*];..}` that --anywhere puts around it";
        refused(typed, Some(refusal), beyond(typed, refusal).hint(hint))
    })
}

/// `expire: thin` may be meant as an overlap, which stands in braces.
fn check_name(typed: &Typed, names: &Names) -> Result<(), Box<Refused>> {
    let clashes =
        |name: &&str| ["true", "false"].contains(name) || names.find_proposition(name).is_some();
    let Some(name) = typed.name.as_deref().filter(clashes) else {
        return Ok(());
    };
    let what = format!("`{name}` is a word of rules, so no rule can be called so");
    let trouble = Trouble::at(typed.name_place(), what)
        .hint("expected another name, or none; an overlap stands in braces, as `{a:b}`");
    Err(refused(typed, None, trouble))
}

fn refused(typed: &Typed, refusal: Option<Refusal>, trouble: Trouble) -> Box<Refused> {
    let start = trouble.place.as_ref().map_or(0, |place| place.start);
    Box::new(Refused {
        typed: typed.clone(),
        refusal,
        offset: start.saturating_sub(typed.place(0, 0).start),
        trouble,
    })
}

/// The text of a rule in the model's names, which reads as the same rule.
pub fn named(rule: &Rule, names: &Names) -> Result<String, Trouble> {
    let text = with_names(&rule.to_string(), names);
    match Rule::from_text(&translate(&text, names).text) {
        Ok(same) if same == *rule => Ok(text),
        _ => Err(Trouble::slip(format!(
            "`{text}` does not read back as `{rule}`"
        ))),
    }
}
