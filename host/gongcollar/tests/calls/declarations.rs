//! The crate's own declarations, `src/raw.rs`, are the header's.

use crate::header;
use crate::interface::{bare, between, c_type, listed, part, Answer, Call, Interface, Part};

const DECLARED: &str = include_str!("../../src/raw.rs");

/// What the crate declares.
fn interface() -> Interface {
    let text = bare(DECLARED);
    let answers = between(&text, "#[repr(C)] ", " }");
    let calls = between(&text, "pub fn gc_", ";");
    Interface::of(
        answers.into_iter().map(answer).collect(),
        calls.into_iter().map(call).collect(),
    )
}

/// `#[derive(Debug)] pub struct Done { pub refused: u64, pub place: u64,`
fn answer(text: &str) -> Answer {
    let (_, text) = text.split_once("pub struct ").expect("a struct");
    let (name, fields) = text.split_once(" { ").expect("a struct with fields");
    let fields = listed(fields).map(|field| field.strip_prefix("pub ").expect("a public field"));
    Answer {
        name: our_type(name),
        fields: fields.map(parameter).collect(),
    }
}

/// `read_rule(rule: *const u8, rule_len: usize) -> Rule`
fn call(text: &str) -> Call {
    let (name, rest) = text.split_once('(').expect("a call");
    let (parameters, answer) = rest.split_once(") -> ").expect("a call with an answer");
    Call {
        name: format!("gc_{name}"),
        parameters: listed(parameters).map(parameter).collect(),
        answer: our_type(answer),
    }
}

/// `rule: *const u8`
fn parameter(text: &str) -> Part {
    let (name, kind) = text.split_once(": ").expect("a name and a type");
    let constant = kind.strip_prefix("*const ");
    let mutable = kind.strip_prefix("*mut ");
    let kind = match (constant, mutable) {
        (Some(kind), _) => format!("const {} *", our_type(kind)),
        (_, Some(kind)) => format!("{} *", our_type(kind)),
        _ => our_type(kind),
    };
    part(name, &kind)
}

/// `Rule` is the crate's name for `gc_rule`.
fn our_type(name: &str) -> String {
    match name.starts_with(char::is_uppercase) {
        true => format!("gc_{}", c_type(name)),
        false => c_type(name),
    }
}

#[test]
fn the_declarations_are_the_headers() {
    assert_eq!(interface().unlike(&header::interface()), [""; 0]);
}
