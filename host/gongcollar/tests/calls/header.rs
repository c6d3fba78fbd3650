//! The header, `include/gongcollar.h`: what hosts declare from.

use crate::interface::{bare, between, listed, part, Answer, Call, Interface, Part};

const HEADER: &str = include_str!("../../../../include/gongcollar.h");

/// What the header declares.
pub fn interface() -> Interface {
    let text = code();
    let answers = between(&text, "typedef struct { ", ";  ");
    let answers = answers.into_iter().map(answer).collect();
    let calls = text.split(";  ").filter_map(call).collect();
    Interface::of(answers, calls)
}

/// The declarations without comments and directives. Two blanks stand after each, one elsewhere.
fn code() -> String {
    let parts = HEADER
        .split("/*")
        .map(|part| part.split_once("*/").map_or(part, |(_, rest)| rest));
    let lines = parts.collect::<String>();
    let code = lines.lines().filter(|line| !line.starts_with('#'));
    let text = bare(&code.collect::<Vec<_>>().join("\n")).replace("extern \"C\" { ", "");
    // The semicolons within a struct close no declaration.
    let mut depth = 0;
    let mut out = String::new();
    for letter in text.chars() {
        match letter {
            '{' => depth += 1,
            '}' => depth -= 1,
            _ => {}
        }
        out.push(letter);
        if letter == ';' && depth == 0 {
            out.push(' ');
        }
    }
    out
}

/// `uint64_t refused, place; } gc_done`
fn answer(text: &str) -> Answer {
    let (fields, name) = text.split_once("} ").expect("a struct with a name");
    let fields = fields.split("; ").filter(|group| !group.is_empty());
    Answer {
        name: name.to_string(),
        fields: fields.flat_map(alike).collect(),
    }
}

/// `uint64_t refused, place`
fn alike(group: &str) -> Vec<Part> {
    let (kind, names) = group.split_once(' ').expect("fields of a type");
    listed(names).map(|name| part(name, kind)).collect()
}

/// `gc_rule gc_read_rule(const uint8_t *rule, size_t rule_len)`
fn call(text: &str) -> Option<Call> {
    let (head, parameters) = text.split_once('(')?;
    let (answer, name) = head.rsplit_once(' ')?;
    Some(Call {
        name: name.to_string(),
        parameters: listed(parameters.strip_suffix(')')?)
            .map(parameter)
            .collect(),
        answer: answer.to_string(),
    })
}

/// `const uint8_t *rule`
fn parameter(text: &str) -> Part {
    let at = text.rfind([' ', '*']).expect("a parameter with a type");
    let (kind, name) = text.split_at(at + 1);
    part(name, kind.trim())
}

/// Whoever changes these numbers has changed the page, which then has a new version.
#[test]
fn the_version_goes_with_the_page() {
    let version = between(HEADER, "#define GONGCOLLAR_VERSION ", "\n");
    let Interface { answers, calls } = interface();
    let fields = answers.iter().map(|answer| answer.fields.len()).sum();
    let parameters = calls.iter().map(|call| call.parameters.len()).sum();
    assert_eq!(version, ["9"]);
    assert_eq!(
        [answers.len(), fields, calls.len(), parameters],
        [13, 52, 20, 89]
    );
}

#[test]
fn the_header_is_read_as_it_is_written() {
    let Interface { answers, calls } = interface();
    let built = answers.iter().find(|answer| answer.name == "gc_built");
    let word = "uint64_t";
    let fields = ["refused", "place", "weight", "finals", "uses"].map(|name| part(name, word));
    assert_eq!(built.map(|built| &built.fields[..]), Some(&fields[..]));
    let build = calls.iter().find(|call| call.name == "gc_build").unwrap();
    let parameters = [
        part("rule", "const uint8_t *"),
        part("rule_len", "size_t"),
        part("table", "uint64_t *"),
        part("table_len", "size_t"),
    ];
    assert_eq!(build.parameters, parameters);
    assert_eq!(build.answer, "gc_built");
}
