//! Proposition names in a rule become p0 to p5, and places lead back to what was typed.

use crate::names::{in_words, numbered, Names};
use std::ops::Range;

/// A rule in the proved reader's own words.
#[derive(Debug, Clone, PartialEq, Eq)]
pub struct Translated {
    /// The text for the proved reader.
    pub text: String,
    /// For each of its bytes, and for its end, the offset in what was typed.
    places: Vec<usize>,
    /// The words of what was typed that are no words of rules and name nothing.
    unknown: Vec<Range<usize>>,
}

/// Puts the number of each proposition in the place of its name; everything else stays as it is.
pub fn translate(typed: &str, names: &Names) -> Translated {
    let mut out = Translated {
        text: String::new(),
        places: Vec::new(),
        unknown: Vec::new(),
    };
    let mut start = 0;
    while let Some(rest) = typed.get(start..).filter(|rest| !rest.is_empty()) {
        // Letters of all kinds hang together, so that no part of a word is taken for a name.
        let in_word = |c: char| c.is_alphanumeric() || in_words(c);
        let length = match rest.find(|c| !in_word(c)).unwrap_or(rest.len()) {
            0 => rest.chars().next().map_or(1, char::len_utf8),
            word => word,
        };
        out.take(start, &rest[..length], names);
        start += length;
    }
    out.places.push(typed.len());
    out
}

impl Translated {
    /// Takes a word, or one character that is in none.
    fn take(&mut self, start: usize, part: &str, names: &Names) {
        match names.find_proposition(part) {
            Some(number) => {
                let number = numbered(number);
                self.places.extend(number.bytes().map(|_| start));
                self.text += &number;
            }
            None => {
                let word = part.starts_with(|c: char| c.is_alphabetic() || c == '_');
                if word && !["true", "false"].contains(&part) {
                    self.unknown.push(start..start + part.len());
                }
                self.places.extend((0..part.len()).map(|at| start + at));
                self.text += part;
            }
        }
    }

    /// The offset in what was typed.
    pub fn typed(&self, place: usize) -> usize {
        let last = self.places.len() - 1;
        self.places[place.min(last)]
    }

    /// The unknown word at an offset of what was typed, or that ends there.
    pub fn unknown_at(&self, offset: usize) -> Option<Range<usize>> {
        let at = |word: &&Range<usize>| word.start <= offset && offset <= word.end;
        self.unknown.iter().find(at).cloned()
    }

    /// The place in the translated text of an offset of what was typed.
    pub fn place_of(&self, offset: usize) -> usize {
        self.places
            .iter()
            .position(|&typed| typed >= offset)
            .unwrap_or(self.text.len())
    }
}

/// The text of a rule with the model's names in the place of p0 to p5.
pub fn with_names(text: &str, names: &Names) -> String {
    let numbers = Names::default();
    let mut out = String::new();
    let mut rest = text;
    while let Some(first) = rest.chars().next() {
        let word = rest
            .find(|c| !in_words(c))
            .unwrap_or(rest.len())
            .max(first.len_utf8());
        let (part, after) = rest.split_at(word);
        match numbers.find_proposition(part) {
            Some(number) => out += &names.proposition(number),
            None => out += part,
        }
        rest = after;
    }
    out
}

#[cfg(test)]
mod tests {
    use super::*;

    fn names() -> Names {
        Names::new(["expire", "thin"].map(String::from).to_vec(), Vec::new())
    }

    #[test]
    fn names_become_numbers_and_places_lead_back() {
        let rule = translate("{expire;!thin[=1..2]}", &names());
        assert_eq!(rule.text, "{p0;!p1[=1..2]}");
        assert_eq!(rule.typed(0), 0);
        assert_eq!(rule.typed(1), 1);
        assert_eq!(rule.typed(3), 7);
        assert_eq!(rule.typed(4), 8);
        assert_eq!(rule.typed(5), 9);
        assert_eq!(rule.typed(7), 13);
        assert_eq!(rule.typed(15), 21);
        assert_eq!(rule.typed(usize::MAX), 21);
        assert_eq!(rule.place_of(13), 7);
    }

    #[test]
    fn a_longer_word_is_another_word() {
        let rule = translate("{expires;true}", &names());
        assert_eq!(rule.text, "{expires;true}");
        assert_eq!(rule.unknown_at(8), Some(1..8));
        assert_eq!(rule.unknown_at(9), None);
    }

    #[test]
    fn other_characters_stay() {
        let rule = translate("{é thin;théthin}", &names());
        assert_eq!(rule.text, "{é p1;théthin}");
        assert_eq!(rule.typed(rule.text.len()), "{é thin;théthin}".len());
    }

    #[test]
    fn names_come_back() {
        let text = "{p0;{{!p1}[*1..10];p2}}";
        assert_eq!(with_names(text, &names()), "{expire;{{!thin}[*1..10];p2}}");
        assert_eq!(translate(&with_names(text, &names()), &names()).text, text);
    }
}
