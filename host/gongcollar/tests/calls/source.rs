//! The header declares what the proved crates have, `c_answers` the structs and `exports_c` the calls: the same fields
//! and the same parameters, by name, order and width. The proofs speak of the source; that the header says the same of
//! its layout is held here.

use crate::header;
use crate::interface::{bare, between, c_type, listed, part, Answer, Call, Interface, Part};
use std::fs;
use std::path::Path;

const CRATES: &str = concat!(env!("CARGO_MANIFEST_DIR"), "/../../crates");
const ANSWER: &str = "#[repr(C)] ";
const CALL: &str = "#[unsafe(no_mangle)] pub extern \"C\" fn ";

/// All modules of both crates, one after the other.
fn source() -> String {
    let folders = ["c_answers", "exports_c"].map(|name| Path::new(CRATES).join(name).join("src"));
    let files = folders.map(|folder| fs::read_dir(folder).expect("the source of the calls"));
    let texts = files
        .into_iter()
        .flatten()
        .map(|file| fs::read_to_string(file.unwrap().path()).unwrap());
    texts.map(|text| bare(&text) + "\n").collect()
}

/// What some source exports.
fn interface(source: &str) -> Interface {
    Interface::of(
        between(source, ANSWER, "}")
            .into_iter()
            .map(answer)
            .collect(),
        between(source, CALL, " ensures")
            .into_iter()
            .map(call)
            .collect(),
    )
}

/// `#[derive(Drop)] pub struct GcDone { pub refused: u64, pub place: u64, `
fn answer(text: &str) -> Answer {
    let (_, text) = text.split_once("pub struct ").expect("a struct");
    let (name, fields) = text.split_once(" { ").expect("a struct with fields");
    let fields = listed(fields).map(|field| {
        let field = field.strip_prefix("pub ").expect("a public field");
        let (name, kind) = field.split_once(": ").expect("a name and a type");
        part(name, &c_type(kind))
    });
    Answer {
        name: c_type(name),
        fields: fields.collect(),
    }
}

/// `gc_read_rule(rule: &[u8]) -> GcRule`
fn call(text: &str) -> Call {
    let (name, rest) = text.split_once('(').expect("a call");
    let (parameters, answer) = rest.split_once(") -> ").expect("a call with an answer");
    Call {
        name: name.to_string(),
        parameters: listed(parameters).flat_map(parameters_of).collect(),
        answer: c_type(answer),
    }
}

/// `rule: &[u8]`: a slice is a pointer and a count; `walker: &mut GcWalker`: a struct that is lent is a pointer.
fn parameters_of(text: &str) -> Vec<Part> {
    let (name, kind) = text.split_once(": ").expect("a name and a type");
    let entry = |kind: &str| c_type(kind.trim_end_matches(']'));
    let read = kind
        .strip_prefix("&[")
        .map(|kind| format!("const {} *", entry(kind)));
    let written = kind
        .strip_prefix("&mut [")
        .map(|kind| format!("{} *", entry(kind)));
    let lent = kind
        .strip_prefix("&mut ")
        .map(|kind| format!("{} *", c_type(kind)));
    match (read.or(written), lent) {
        (Some(slice), _) => vec![part(name, &slice), part(&format!("{name}_len"), "size_t")],
        (None, Some(pointer)) => vec![part(name, &pointer)],
        (None, None) => vec![part(name, &c_type(kind))],
    }
}

#[test]
fn the_header_is_the_proved_sources() {
    let source = source();
    let header = header::interface();
    assert_eq!(interface(&source).unlike(&header), [""; 0]);
    // Nothing is exported, and nothing given back, in another form than those that are read here.
    assert_eq!(source.matches("extern").count(), header.calls.len());
    assert_eq!(source.matches("struct Gc").count(), header.answers.len());
}

/// What the test is for: the source with two words exchanged is no longer the header's.
#[test]
fn exchanged_fields_and_parameters_are_seen() {
    let source = source();
    for (ours, exchanged) in [
        (
            "pub weight: u64, pub finals: u64",
            "pub finals: u64, pub weight: u64",
        ),
        (
            "pub refused: u64, pub place: u64, pub accepts",
            "pub place: u64, pub refused: u64, pub accepts",
        ),
        (
            "pub states: u64, pub lasting: u64",
            "pub lasting: u64, pub states: u64",
        ),
        (
            "pub taken: u32, pub first: u32",
            "pub first: u32, pub taken: u32",
        ),
        (
            "gc_step_lent(walker: &mut GcWalker",
            "gc_step_lent(walker: GcWalker",
        ),
        (
            "gc_judge(rule: &[u8], letters: &[u8])",
            "gc_judge(letters: &[u8], rule: &[u8])",
        ),
        (
            "work1: &mut [u16], work2: &mut [u16]",
            "work2: &mut [u16], work1: &mut [u16]",
        ),
        (
            "gc_step(walker: GcWalker, table: &[u64], letter: u8)",
            "gc_step(walker: GcWalker, table: &[u64], letter: u64)",
        ),
        ("pub matched: u32", "pub matched: u64"),
        (
            "pub matches: u64, pub walker: GcWalker",
            "pub walker: GcWalker, pub matches: u64",
        ),
        (
            "table: &mut [u64], weight: u64, finals: u64",
            "table: &mut [u64], finals: u64, weight: u64",
        ),
        ("text: &[u8], out: &mut [u8]", "text: &[u8], out: &[u8]"),
        (
            "gc_rows_of(table: &[u64], rows: &mut [u64])",
            "gc_rows_of(rows: &mut [u64], table: &[u64])",
        ),
        (
            "gc_table_of(rows: &[u64], table: &mut [u64])",
            "gc_table_of(table: &[u64], rows: &mut [u64])",
        ),
        (
            "gc_formula_model(formulas: &[u8], model: &mut [u8]) -> GcWritten",
            "gc_formula_model(formulas: &[u8], model: &mut [u8]) -> GcDone",
        ),
        (
            "gc_follow_rows(rows: &[u64], finals: u64, letters: &[u8])",
            "gc_follow_rows(finals: u64, rows: &[u64], letters: &[u8])",
        ),
    ] {
        assert!(source.contains(ours), "{ours}");
        let changed = interface(&source.replace(ours, exchanged));
        assert_ne!(changed.unlike(&header::interface()), [""; 0], "{exchanged}");
    }
}
