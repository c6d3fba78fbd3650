//! What went wrong, where, and what was expected: the one form of every message that ends with status 2.

use std::fmt;
use std::io;

/// The most characters of a line that a message shows.
const SHOWN: usize = 100;
/// How many of them stand before the place, if it is further on than that.
const BEFORE: usize = 60;

/// A stretch of one line that somebody typed.
#[derive(Debug, Clone, PartialEq, Eq)]
pub struct Place {
    /// The file, or what else the line came from.
    pub source: String,
    /// The line's number from 1; none where there is one line alone.
    pub line: Option<usize>,
    /// The line as it was typed.
    pub text: String,
    /// Where the stretch begins, in bytes of the line; its length if it is where the line ends.
    pub start: usize,
    /// The stretch's length in bytes; a caret stands there even if it is 0.
    pub length: usize,
}

impl Place {
    /// The column, counted in characters from 1.
    pub fn column(&self) -> usize {
        self.before().chars().count() + 1
    }

    fn before(&self) -> &str {
        self.text.get(..self.start).unwrap_or(&self.text)
    }

    fn stretch(&self) -> &str {
        let end = self.start.saturating_add(self.length);
        self.text.get(self.start..end).unwrap_or("")
    }

    /// The line, and below it a caret under each character of the stretch.
    fn excerpt(&self) -> (String, String) {
        let before = self.before().chars().count();
        let skipped = before.saturating_sub(BEFORE);
        let shown: String = self.text.chars().skip(skipped).take(SHOWN).collect();
        let cut = if skipped > 0 { ".." } else { "" };
        let left = self.text.chars().count() - skipped;
        let more = if left > SHOWN { ".." } else { "" };
        let room = SHOWN - (before - skipped).min(SHOWN - 1);
        let carets = self.stretch().chars().count().clamp(1, room);
        let blanks = " ".repeat(cut.len() + before - skipped);
        (
            format!("{cut}{}{more}", visible(&shown)),
            format!("{blanks}{}", "^".repeat(carets)),
        )
    }
}

/// The text with nothing in it that a terminal would obey, and as many characters.
pub fn visible(text: &str) -> String {
    let seen = |c: char| match c {
        '\t' => ' ',
        c if c.is_control() => char::REPLACEMENT_CHARACTER,
        c => c,
    };
    text.chars().map(seen).collect()
}

impl fmt::Display for Place {
    fn fmt(&self, f: &mut fmt::Formatter<'_>) -> fmt::Result {
        match self.line {
            Some(line) => write!(f, "{}:{line}:{}", self.source, self.column()),
            None => write!(f, "{}, column {}", self.source, self.column()),
        }
    }
}

/// Why there is no verdict.
#[derive(Debug, Clone, PartialEq, Eq)]
pub struct Trouble {
    /// What is wrong.
    pub what: String,
    /// Where.
    pub place: Option<Box<Place>>,
    /// What was expected, or what helps.
    pub hints: Vec<String>,
}

impl Trouble {
    /// Trouble that stands at no place.
    pub fn new(what: impl Into<String>) -> Trouble {
        Trouble {
            what: what.into(),
            place: None,
            hints: Vec::new(),
        }
    }

    /// Trouble at a place.
    pub fn at(place: Place, what: impl Into<String>) -> Trouble {
        Trouble {
            place: Some(Box::new(place)),
            ..Trouble::new(what)
        }
    }

    /// The same with a line more that helps.
    pub fn hint(mut self, hint: impl Into<String>) -> Trouble {
        self.hints.push(hint.into());
        self
    }

    /// A read that failed.
    pub fn read(source: &str, error: &io::Error) -> Trouble {
        Trouble::new(format!("{source} could not be read: {error}"))
    }

    /// A slip of this program: what was compared did not agree.
    pub fn slip(what: impl fmt::Display) -> Trouble {
        Trouble::new(format!("{what}; this is a fault of gongcollar's own"))
            .hint("there is no verdict; please report it with the input")
    }
}

impl fmt::Display for Trouble {
    fn fmt(&self, f: &mut fmt::Formatter<'_>) -> fmt::Result {
        match &self.place {
            Some(place) => {
                let (line, carets) = place.excerpt();
                write!(f, "{place}: {}\n    {line}\n    {carets}", self.what)?;
            }
            None => f.write_str(&self.what)?,
        }
        for hint in &self.hints {
            write!(f, "\n    {hint}")?;
        }
        Ok(())
    }
}

/// How a command can end before its end.
#[derive(Debug)]
pub enum End {
    /// With a message.
    Trouble(Trouble),
    /// Quietly: nobody reads the output any more.
    ClosedPipe,
}

impl From<Trouble> for End {
    fn from(trouble: Trouble) -> End {
        End::Trouble(trouble)
    }
}

#[cfg(test)]
mod tests {
    use super::*;

    fn place(text: &str, start: usize, length: usize) -> Place {
        Place {
            source: "jobs".into(),
            line: Some(3),
            text: text.into(),
            start,
            length,
        }
    }

    #[test]
    fn a_caret_stands_under_each_character() {
        let trouble = Trouble::at(place("state a: thinn ->", 9, 5), "no such").hint("expected x");
        let said = "jobs:3:10: no such\n    state a: thinn ->\n             ^^^^^\n    expected x";
        assert_eq!(trouble.to_string(), said);
    }

    #[test]
    fn columns_are_counted_in_characters() {
        let place = place("\té\u{1b}[0m x", 8, 1);
        assert_eq!(place.column(), 8);
        let (line, carets) = place.excerpt();
        assert_eq!(line, " é\u{FFFD}[0m x");
        assert_eq!(carets, "       ^");
    }

    #[test]
    fn the_end_of_a_line_is_a_place() {
        assert_eq!(place("ab", 2, 0).excerpt().1, "  ^");
        assert_eq!(place("", 0, 0).excerpt(), (String::new(), "^".into()));
    }

    #[test]
    fn of_a_long_line_a_part_is_shown() {
        let long = "x".repeat(1000);
        let (line, carets) = place(&long, 500, 300).excerpt();
        assert_eq!(line, format!("..{}..", "x".repeat(SHOWN)));
        assert_eq!(carets, format!("{}{}", " ".repeat(62), "^".repeat(40)));
    }
}
