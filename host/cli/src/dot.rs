//! Pictures, as graphviz reads them.

use crate::formula::formula;
use crate::model::Model;
use crate::names::Names;
use crate::verdict::Run;
use crate::warnings::Surveyed;
use gongcollar::{Table, STATES};
use std::collections::BTreeMap;

/// The colour of what the rule matches, and of the way to it.
const MATCHED: &str = "#c0392b";
const BEFORE: &str = "#2e6da4";
/// How states of the run are filled.
const MATCHED_FILL: &str = "#f9d9d4";
const BEFORE_FILL: &str = "#d9e7f4";
/// The colour of what no run enters.
const FAINT: &str = "#a0a0a0";
/// How many numbers a way shows.
const NUMBERS: usize = 6;

/// A picture of a model: its states with what holds in them; those that no run reaches are faint, dead ends dashed.
/// With a run, its states and ways are coloured, and the ways numbered in its order. Of a model by formulas a part is
/// drawn that says the rest, and the title tells which.
pub fn model(model: &Model, surveyed: &Surveyed, title: &str, run: Option<&Run>) -> String {
    let (states, names, reached) = (model.states(), model.names(), surveyed.reached());
    let (drawn, note) = drawn(model, surveyed, run);
    let mut text = beginning("model", &[title, &note]);
    let colours = run.map(Colours::new).unwrap_or_default();
    let is_drawn = |at: &usize| drawn >> at & 1 == 1;
    for (at, state) in states.iter().enumerate().filter(|(at, _)| is_drawn(at)) {
        let holds = names.members(state.letter.into()).join(" ");
        let label = match names.are_letters() {
            true => quoted(&names.state(at)),
            false => format!("{}\\n{}", quoted(&names.state(at)), quoted(&holds)),
        };
        let look = look(at, model.lasting(), reached, &colours);
        text += &format!("    s{at} [label=\"{label}\"{look}];\n");
        if state.initial {
            text +=
                &format!("    i{at} [shape=point, width=0.08, fillcolor=\"black\", label=\"\"];\n    i{at} -> s{at};\n");
        }
    }
    for (from, state) in states.iter().enumerate().filter(|(at, _)| is_drawn(at)) {
        for to in (0..states.len()).filter(|to| state.successors & drawn & 1 << to != 0) {
            let both = |set: u64| set >> from & set >> to & 1 == 1;
            text += &format!(
                "    s{from} -> s{to}{};\n",
                way(from, to, &colours, both(reached))
            );
        }
    }
    text + "}\n"
}

/// The states that are drawn, and what is said of it. Of a model by formulas: those that a run enters, and of those that
/// differ in free propositions alone the one with these off, unless the run has them on.
fn drawn(model: &Model, surveyed: &Surveyed, run: Option<&Run>) -> (u64, String) {
    let Some(named) = model.named() else {
        return (model.all(), String::new());
    };
    let letters = run.map_or(&[][..], |run| &run.letters);
    let seen = letters
        .iter()
        .fold(named, |set, &letter| set | u64::from(letter));
    let drawn = surveyed.entered() & model.standing_for_all(seen);
    let off = model.names().members(!seen).join(", ");
    let off = match off.is_empty() {
        true => off,
        false => format!(" with {off} off"),
    };
    let states = match (drawn & surveyed.reached()).count_ones() {
        0 => "no state".to_string(),
        1 => "the 1 state".to_string(),
        count => format!("the {count} states"),
    };
    let ends = match drawn & !surveyed.reached() {
        0 => "",
        _ => "; dashed: dead ends",
    };
    let note = format!("drawn: {states}{off} that runs reach{ends}");
    (drawn, note)
}

/// Which states and ways a run goes over; what is matched wins.
#[derive(Debug, Default)]
struct Colours {
    states: BTreeMap<usize, bool>,
    ways: BTreeMap<(usize, usize), (bool, Vec<usize>)>,
}

impl Colours {
    fn new(run: &Run) -> Colours {
        let mut colours = Colours::default();
        for (at, &state) in run.states.iter().enumerate() {
            *colours.states.entry(state).or_default() |= at >= run.before;
        }
        for (at, pair) in run.states.windows(2).enumerate() {
            let (matched, numbers) = colours.ways.entry((pair[0], pair[1])).or_default();
            *matched |= at >= run.before;
            numbers.push(at + 1);
        }
        colours
    }
}

/// How a state is drawn.
fn look(at: usize, lasting: u64, reached: u64, colours: &Colours) -> String {
    match colours.states.get(&at) {
        Some(true) => format!(", color=\"{MATCHED}\", fillcolor=\"{MATCHED_FILL}\", penwidth=2"),
        Some(false) => format!(", color=\"{BEFORE}\", fillcolor=\"{BEFORE_FILL}\", penwidth=2"),
        None if lasting >> at & 1 == 0 => {
            format!(", style=\"rounded,dashed\", color=\"{FAINT}\", fontcolor=\"{FAINT}\"")
        }
        None if reached >> at & 1 == 0 => format!(", color=\"{FAINT}\", fontcolor=\"{FAINT}\""),
        None => String::new(),
    }
}

/// How a way is drawn.
fn way(from: usize, to: usize, colours: &Colours, reached: bool) -> String {
    match colours.ways.get(&(from, to)) {
        Some((matched, numbers)) => {
            let colour = if *matched { MATCHED } else { BEFORE };
            let mut shown: Vec<String> =
                numbers.iter().take(NUMBERS).map(usize::to_string).collect();
            if numbers.len() > NUMBERS {
                shown.push("..".into());
            }
            let label = shown.join(", ");
            format!(" [color=\"{colour}\", fontcolor=\"{colour}\", penwidth=2, label=\"{label}\"]")
        }
        None if !reached => format!(" [color=\"{FAINT}\"]"),
        None => String::new(),
    }
}

/// A picture of a rule's table: a double line around finals, a formula on each way.
pub fn table(table: &Table, names: &Names, title: &str) -> String {
    let mut text = beginning("table", &[title]);
    let weight = (table.weight() as usize).min(STATES);
    text +=
        "    start [shape=point, width=0.08, fillcolor=\"black\", label=\"\"];\n    start -> q0;\n";
    for at in 0..weight {
        let shape = if table.finals() >> at & 1 == 1 {
            "doublecircle"
        } else {
            "circle"
        };
        text += &format!("    q{at} [label=\"{at}\", shape={shape}];\n");
    }
    for from in 0..weight {
        for to in (0..weight).filter(|&to| table.label(from, to) != 0) {
            let label = quoted(&formula(table.label(from, to), names));
            text += &format!("    q{from} -> q{to} [label=\"{label}\"];\n");
        }
    }
    text + "}\n"
}

/// The beginning of a picture, with the lines of its title that are not empty.
fn beginning(name: &str, title: &[&str]) -> String {
    let title = title.iter().filter(|line| !line.is_empty());
    let title: Vec<String> = title.map(|line| quoted(line)).collect();
    format!(
        "digraph {name} {{\n    rankdir=LR;\n    label=\"{}\";\n    fontname=\"Helvetica\";\n    \
         node [shape=box, style=\"rounded,filled\", fillcolor=\"white\", fontname=\"Helvetica\"];\n    \
         edge [fontname=\"Helvetica\"];\n",
        title.join("\\n")
    )
}

/// The text as it stands inside quotes.
fn quoted(text: &str) -> String {
    text.replace('\\', "\\\\").replace('"', "\\\"")
}
