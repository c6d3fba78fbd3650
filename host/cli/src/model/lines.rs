//! The lines of a model's text, cut into words and signs.

use crate::trouble::{Place, Trouble};

/// A word or a sign of a line.
#[derive(Debug, Clone, Copy, PartialEq, Eq)]
pub struct Token<'a> {
    /// As it was typed.
    pub text: &'a str,
    /// Where it begins, in bytes of the line.
    pub start: usize,
}

impl Token<'_> {
    /// Where it ends.
    pub fn end(&self) -> usize {
        self.start + self.text.len()
    }
}

/// One line, of which its comment is no part.
#[derive(Debug, Clone, Copy)]
pub struct Line<'a> {
    source: &'a str,
    /// Its number from 1.
    pub number: usize,
    whole: &'a str,
    said: &'a str,
}

impl<'a> Line<'a> {
    /// A line of a source.
    pub fn new(source: &'a str, number: usize, whole: &'a str) -> Line<'a> {
        let said = whole.split('#').next().unwrap_or(whole).trim_end();
        Line {
            source,
            number,
            whole,
            said,
        }
    }

    /// What stands in it from an offset on without the blanks between, each part as long as its beginning says.
    pub fn parts(&self, from: usize, length: fn(&str) -> usize) -> Vec<Token<'a>> {
        let mut parts = Vec::new();
        let mut start = from;
        while let Some(rest) = self.said.get(start..).filter(|rest| !rest.is_empty()) {
            let part = self.stretch(start, start + length(rest));
            start = part.end();
            if !part.text.trim().is_empty() {
                parts.push(part);
            }
        }
        parts
    }

    /// A stretch of the line.
    pub fn stretch(&self, start: usize, end: usize) -> Token<'a> {
        Token {
            text: self.said.get(start..end).unwrap_or(""),
            start,
        }
    }

    /// Where the line ends.
    pub fn end(&self) -> Token<'a> {
        self.stretch(self.said.len(), self.said.len())
    }

    /// Trouble with a part of the line.
    pub fn trouble(&self, token: Token, what: impl Into<String>) -> Trouble {
        let place = Place {
            source: self.source.into(),
            line: Some(self.number),
            text: self.whole.into(),
            start: token.start,
            length: token.text.len(),
        };
        Trouble::at(place, what)
    }

    /// Trouble with what stands where something else has to.
    pub fn unexpected(&self, token: Option<Token>) -> Trouble {
        match token {
            Some(token) => self.trouble(token, format!("`{}` cannot stand here", token.text)),
            None => self.trouble(self.end(), "the line ends too early"),
        }
    }
}
