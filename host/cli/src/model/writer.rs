//! The writer: a model's text from its bytes.

use super::reader::{INITIAL_WORD, PROPOSITIONS_WORD, STATE_WORD};
use super::{decode, Model, State, RECORD};
use crate::names::Names;
use gongcollar::STATES;

/// The text of a model as it would be drawn, which reads back as the same bytes and names.
pub fn text(model: &Model) -> String {
    let names = model.names();
    let mut text = String::new();
    if !names.given().is_empty() {
        text += &format!("{PROPOSITIONS_WORD} {}\n", names.given().join(" "));
    }
    for (at, state) in decode(model.bytes()).iter().enumerate() {
        text += &line(names, at, state);
    }
    if model.is_empty() {
        text += "# no states\n";
    }
    text
}

fn line(names: &Names, at: usize, state: &State) -> String {
    let mut line = format!("{STATE_WORD} {}", names.state_word(at));
    if state.initial {
        line += &format!(" {INITIAL_WORD}");
    }
    line.push(':');
    for proposition in names.members(state.letter.into()) {
        line += &format!(" {proposition}");
    }
    line += " ->";
    for successor in (0..STATES).filter(|to| state.successors >> to & 1 == 1) {
        line += &format!(" {}", names.state_word(successor));
    }
    line + "\n"
}

/// The bytes in hexadecimal, a line for each state.
pub fn hexadecimal(bytes: &[u8]) -> String {
    let line = |record: &[u8]| hex_line(record) + "\n";
    bytes.chunks(RECORD).map(line).collect()
}

/// Bytes in hexadecimal, a blank between two.
pub fn hex_line(bytes: &[u8]) -> String {
    let bytes: Vec<String> = bytes.iter().map(|byte| format!("{byte:02X}")).collect();
    bytes.join(" ")
}
