//! Events as people type them: `expire,thin` or `{expire thin}`, `-` or `{}` for one in which nothing holds, or a
//! letter's number.

use crate::names::{in_words, is_name, Names};
use std::ops::Range;

/// What is wrong with an event, and where in the line.
#[derive(Debug, Clone, PartialEq, Eq)]
pub struct BadEvent {
    /// The stretch of the line.
    pub at: Range<usize>,
    /// What is wrong.
    pub what: String,
    /// What was expected.
    pub expected: String,
}

/// An event, and the stretch of the line that it stands in.
pub type Event = (u8, Range<usize>);

/// The one event of a line.
pub fn event(line: &str, names: &Names) -> Result<u8, BadEvent> {
    let words = words(line);
    match braced(line, &words)? {
        Some(inner) => letter(line, inner, names),
        None => letter(line, &words, names),
    }
}

/// The events of a row: blanks stand between them, or braces around them.
pub fn row(line: &str, names: &Names) -> Result<Vec<Event>, BadEvent> {
    let words = words(line);
    let mut events = Vec::new();
    let mut rest = &words[..];
    while let Some(first) = rest.first() {
        let braced = &line[first.clone()] == "{";
        let count = match braced {
            true => rest
                .iter()
                .position(|word| &line[word.clone()] == "}")
                .map_or(rest.len(), |at| at + 1),
            false => joined(line, rest),
        };
        let (part, after) = rest.split_at(count);
        let at = first.start..part[count - 1].end;
        let value = event(&line[at.clone()], names).map_err(|bad| BadEvent {
            at: at.start + bad.at.start..at.start + bad.at.end,
            ..bad
        })?;
        events.push((value, at));
        rest = after;
    }
    Ok(events)
}

/// Words, and each other character that is no blank by itself.
fn words(line: &str) -> Vec<Range<usize>> {
    let mut words = Vec::new();
    let mut start = 0;
    while let Some(first) = line[start..].chars().next() {
        let rest = &line[start..];
        let length = rest
            .find(|c| !in_words(c))
            .unwrap_or(rest.len())
            .max(first.len_utf8());
        if !first.is_whitespace() {
            words.push(start..start + length);
        }
        start += length;
    }
    words
}

/// How many of the first words hang together by commas or by having no blank between.
fn joined(line: &str, words: &[Range<usize>]) -> usize {
    let together =
        |pair: &[Range<usize>]| pair[0].end == pair[1].start && &line[pair[1].clone()] != "{";
    1 + words.windows(2).take_while(|pair| together(pair)).count()
}

/// What stands between braces, if they are there.
fn braced<'a>(
    line: &str,
    words: &'a [Range<usize>],
) -> Result<Option<&'a [Range<usize>]>, BadEvent> {
    match words {
        [first, .., last] if &line[first.clone()] == "{" && &line[last.clone()] == "}" => {
            Ok(Some(&words[1..words.len() - 1]))
        }
        [first, ..] if &line[first.clone()] == "{" => Err(BadEvent {
            at: first.clone(),
            what: "this brace is not closed".into(),
            expected: "expected `}` at the event's end".into(),
        }),
        _ => Ok(None),
    }
}

/// The letter of some words.
fn letter(line: &str, words: &[Range<usize>], names: &Names) -> Result<u8, BadEvent> {
    let text = |word: &Range<usize>| &line[word.clone()];
    if let [word] = words {
        if text(word) == "-" {
            return Ok(0);
        }
        if text(word).bytes().all(|byte| byte.is_ascii_digit()) {
            // What is too large for a byte is no letter either, and the proved call says so.
            return Ok(text(word).parse().unwrap_or(u8::MAX));
        }
    }
    let mut letter = 0;
    for (at, word) in words.iter().enumerate() {
        match names.find_proposition(text(word)) {
            Some(proposition) => letter |= 1 << proposition,
            None if text(word) == ","
                && at > 0
                && at + 1 < words.len()
                && text(&words[at - 1]) != "," => {}
            None => return Err(no_proposition(text(word), word, names)),
        }
    }
    Ok(letter)
}

fn no_proposition(text: &str, word: &Range<usize>, names: &Names) -> BadEvent {
    BadEvent {
        at: word.clone(),
        what: match is_name(text) {
            true => format!("no proposition is called `{text}`"),
            false => format!("`{}` cannot stand here", text.escape_debug()),
        },
        expected: format!(
            "expected {} with commas or blanks between, `-` where nothing holds, or a letter's number 0 to 63",
            names.propositions_in_words()
        ),
    }
}

#[cfg(test)]
mod tests {
    use super::*;

    fn names() -> Names {
        Names::new(["expire", "thin"].map(String::from).to_vec(), Vec::new())
    }

    #[test]
    fn an_event_is_a_set() {
        for (line, letter) in [
            ("expire", 1),
            ("expire,p2", 5),
            ("p0 thin", 3),
            ("{expire thin}", 3),
            ("{ }", 0),
            ("{}", 0),
            ("-", 0),
            ("63", 63),
            ("64", 64),
            ("1000", 255),
            ("p1, p0", 3),
        ] {
            assert_eq!(event(line, &names()), Ok(letter), "{line}");
        }
    }

    #[test]
    fn a_row_has_events_between_blanks() {
        let row = row("expire,thin {p2 p3}{} - 7", &names()).expect("events");
        let letters: Vec<u8> = row.iter().map(|event| event.0).collect();
        assert_eq!(letters, [3, 12, 0, 0, 7]);
        assert_eq!(row[1].1, 12..19);
    }

    #[test]
    fn what_is_no_event_has_a_place() {
        for (line, at) in [
            ("expires", 0..7),
            ("p6", 0..2),
            ("expire,,thin", 7..8),
            (",thin", 0..1),
            ("{expire", 0..1),
            ("expire}", 6..7),
            ("p0;p1", 2..3),
            ("1 2", 0..1),
            ("-1", 0..1),
        ] {
            assert_eq!(event(line, &names()).unwrap_err().at, at, "{line}");
        }
        assert_eq!(row("p0 p1 thick", &names()).unwrap_err().at, 6..11);
    }
}
