//! Rules from arguments and from files: `name: rule`, a line each, comments behind `#`.

use crate::trouble::{visible, Place, Trouble};
use std::collections::HashMap;

/// A rule as it was typed, and where.
#[derive(Debug, Clone, PartialEq, Eq)]
pub struct Typed {
    /// Its name, if it was given one.
    pub name: Option<String>,
    /// The rule, without its name and the blanks around it.
    pub text: String,
    source: String,
    line: Option<usize>,
    whole: String,
    offset: usize,
}

impl Typed {
    /// What the rule is called in what is printed, on one line: its name, or itself.
    pub fn called(&self) -> String {
        visible(self.name.as_deref().unwrap_or(&self.text))
    }

    /// A stretch of the rule, where it was typed.
    pub fn place(&self, start: usize, length: usize) -> Place {
        Place {
            source: self.source.clone(),
            line: self.line,
            text: self.whole.clone(),
            start: self.offset + start,
            length,
        }
    }

    /// Its name, where it was typed.
    pub fn name_place(&self) -> Place {
        Place {
            start: self.whole.len() - self.whole.trim_start().len(),
            length: self.name.as_ref().map_or(0, |name| name.len()),
            ..self.place(0, 0)
        }
    }

    /// The line of the file that it stands in.
    pub fn line(&self) -> Option<usize> {
        self.line
    }
}

/// The rule of an argument.
pub fn argument(source: &str, text: &str) -> Typed {
    typed(source, None, text)
}

/// The rules of a file.
pub fn file(source: &str, text: &str) -> Result<Vec<Typed>, Trouble> {
    let text = text.strip_prefix('\u{FEFF}').unwrap_or(text);
    let mut rules: Vec<Typed> = Vec::new();
    let mut lines: HashMap<String, usize> = HashMap::new();
    for (number, line) in (1..).zip(text.lines()) {
        // No rule has a `#`.
        let said = line.split('#').next().unwrap_or(line);
        if said.trim().is_empty() {
            continue;
        }
        let rule = Typed {
            whole: line.into(),
            ..typed(source, Some(number), said)
        };
        if let Some(before) = rule
            .name
            .clone()
            .and_then(|name| lines.insert(name, number))
        {
            let what = format!("two rules are called `{}`", rule.called());
            return Err(Trouble::at(rule.name_place(), what)
                .hint(format!("the other stands in line {before}")));
        }
        rules.push(rule);
    }
    if rules.is_empty() {
        return Err(Trouble::new(format!("{source}: there is no rule"))
            .hint("expected a line each, as `order: {p0;p1}`"));
    }
    Ok(rules)
}

fn typed(source: &str, line: Option<usize>, said: &str) -> Typed {
    let (name, offset) = match name_length(said) {
        Some(colon) => (Some(said[..colon].trim().to_string()), colon + 1),
        None => (None, 0),
    };
    let rest = &said[offset..];
    Typed {
        name,
        text: rest.trim().into(),
        source: source.into(),
        line,
        whole: said.into(),
        offset: offset + rest.len() - rest.trim_start().len(),
    }
}

/// Where the colon after a name stands. A blank has to follow it, so that an overlap without its braces is no name.
fn name_length(said: &str) -> Option<usize> {
    let colon = said.find(':')?;
    let name = said[..colon].trim();
    let fits = |c: char| c.is_alphanumeric() || "_-. /".contains(c);
    let named = name.starts_with(char::is_alphanumeric) && name.chars().all(fits);
    (named && said[colon + 1..].starts_with(char::is_whitespace)).then_some(colon)
}

#[cfg(test)]
mod tests {
    use super::*;

    #[test]
    fn a_colon_in_braces_ends_no_name() {
        let rule = argument("rule", "{p0:p1}");
        assert_eq!(
            (rule.name.as_deref(), rule.text.as_str()),
            (None, "{p0:p1}")
        );
        let rule = argument("rule", " over-lap 2:  {p0:p1} ");
        assert_eq!(
            (rule.name.as_deref(), rule.text.as_str()),
            (Some("over-lap 2"), "{p0:p1}")
        );
        assert_eq!(rule.place(3, 1).column(), 18);
        for text in [": p0", "p0:p1", "p0:{p1;p2}"] {
            let rule = argument("rule", text);
            assert_eq!((rule.name.as_deref(), rule.text.as_str()), (None, text));
        }
    }

    #[test]
    fn a_file_has_comments_and_blank_lines() {
        let rules = file("rules", "# all\n\nlate: {p0;p1} # why\r\n  p3\n").expect("rules");
        let seen: Vec<_> = rules
            .iter()
            .map(|rule| (rule.called(), rule.line))
            .collect();
        assert_eq!(seen, [("late".into(), Some(3)), ("p3".into(), Some(4))]);
        assert_eq!(rules[0].place(0, 1).to_string(), "rules:3:7");
    }

    #[test]
    fn two_rules_of_one_name_are_a_slip() {
        let trouble = file("rules", "a: p0\n  a: p1").unwrap_err();
        assert_eq!(trouble.place.expect("a place").to_string(), "rules:2:3");
        assert!(file("rules", "# nothing\n").is_err());
    }
}
