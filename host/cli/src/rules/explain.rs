//! A refusal of the proved reader in terms of what was typed: where, what is wrong, and what was expected.

use super::expected::{expected, proposition_fits};
use super::lines::Typed;
use super::translate::Translated;
use crate::names::Names;
use crate::trouble::Trouble;
use gongcollar::Refusal;

/// A rule that was typed, and what the proved reader was given of it.
#[derive(Debug, Clone, Copy)]
pub struct Given<'a> {
    pub typed: &'a Typed,
    pub translated: &'a Translated,
    pub names: &'a Names,
}

impl Given<'_> {
    /// Why it was refused.
    pub fn explain(&self, refusal: Refusal) -> Trouble {
        match refusal {
            Refusal::NoText { place } => {
                // A place is at most the text's length.
                let place = place as usize;
                self.unknown_word(place)
                    .unwrap_or_else(|| self.no_way_on(place))
            }
            Refusal::TextTooLong { .. } => {
                beyond(self.typed, refusal).hint("that is with names written as p0 to p5")
            }
            _ => beyond(self.typed, refusal),
        }
    }

    /// A word that names nothing, where a proposition could stand.
    fn unknown_word(&self, place: usize) -> Option<Trouble> {
        let Given {
            typed, translated, ..
        } = self;
        let word = translated.unknown_at(translated.typed(place))?;
        let beginning = &translated.text[..translated.place_of(word.start)];
        if !proposition_fits(beginning) {
            return None;
        }
        let called = &typed.text[word.clone()];
        let what = format!("refused 31: no proposition is called `{called}`");
        let trouble = Trouble::at(typed.place(word.start, word.len()), what);
        let trouble = trouble.hint(self.expected_after(beginning));
        match word.start == 0 && typed.text[word.end..].starts_with(':') {
            true => Some(trouble.hint("if it is the rule's name, a blank follows the colon")),
            false => Some(trouble),
        }
    }

    /// A character with which no rule goes on, or an end too early.
    fn no_way_on(&self, place: usize) -> Trouble {
        let offset = self.translated.typed(place);
        let next = self.typed.text[offset..].chars().next();
        let what = match next {
            Some(next) => format!("no rule goes on with `{}` here", next.escape_debug()),
            None => "the rule ends too early".into(),
        };
        let stretch = self.typed.place(offset, next.map_or(0, char::len_utf8));
        let trouble = Trouble::at(stretch, format!("refused 31: {what}"))
            .hint(self.expected_after(&self.translated.text[..place]));
        match next.is_some_and(char::is_whitespace) {
            true => trouble.hint("a rule has no blanks"),
            false => trouble,
        }
    }

    fn expected_after(&self, beginning: &str) -> String {
        format!("expected {}", expected(beginning, self.names).join(", "))
    }
}

/// A rule that is beyond some limit as a whole.
pub fn beyond(typed: &Typed, refusal: Refusal) -> Trouble {
    let what = format!("refused {}: {}", refusal.number(), refusal.says());
    Trouble::at(typed.place(0, typed.text.len()), what)
}
