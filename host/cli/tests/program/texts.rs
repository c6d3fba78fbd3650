//! Model texts there and back, on generated models.

use gongcollar_cli::model::{text, Model};
use proptest::prelude::*;
use proptest::sample::subsequence;

#[derive(Debug, Clone)]
struct Drawn {
    propositions: Vec<String>,
    names: Vec<Option<String>>,
    states: Vec<(u8, bool, u64)>,
}

fn drawn() -> impl Strategy<Value = Drawn> {
    let words: Vec<String> = [
        "expire", "thin", "write", "p", "_p0", "state", "Idle", "initial1", "x9", "truer",
    ]
    .map(String::from)
    .to_vec();
    let propositions = subsequence(words, 0..=6).prop_shuffle();
    (propositions, 1usize..=64).prop_flat_map(|(propositions, count)| {
        let state = (0u8..64, any::<bool>(), any::<u64>(), any::<u64>());
        let states = prop::collection::vec(state, count);
        let named = prop::collection::vec(prop::option::of("[a-zA-Z_][a-zA-Z0-9_]{0,6}"), count);
        (Just(propositions), states, named).prop_map(move |(propositions, states, named)| {
            let within = u64::MAX >> (64 - count);
            let states = states
                .into_iter()
                .map(|(letter, initial, one, two)| (letter, initial, one & two & within));
            Drawn {
                propositions,
                states: states.collect(),
                names: distinct(named),
            }
        })
    })
}

/// The same names, but none twice and none that is no name.
fn distinct(names: Vec<Option<String>>) -> Vec<Option<String>> {
    let mut seen = vec!["initial".to_string()];
    let fresh = |name: Option<String>| {
        let name = name.filter(|name| !seen.contains(name))?;
        seen.push(name.clone());
        Some(name)
    };
    names.into_iter().map(fresh).collect()
}

/// The bytes, by the house form's own words.
fn bytes(drawn: &Drawn) -> Vec<u8> {
    let record = |&(letter, initial, successors): &(u8, bool, u64)| {
        let mut record = vec![0x20, letter, initial.into()];
        record.extend(successors.to_le_bytes());
        record
    };
    drawn.states.iter().flat_map(record).collect()
}

/// A text of the model as somebody might type it.
fn typed(drawn: &Drawn, blank: &str, numbered: bool) -> String {
    let state = |at: usize| match &drawn.names[at] {
        Some(name) if !numbered => name.clone(),
        _ => at.to_string(),
    };
    let proposition = |at: usize| match drawn.propositions.get(at) {
        Some(name) if !numbered => name.clone(),
        _ => format!("p{at}"),
    };
    let set = |word: u64, name: &dyn Fn(usize) -> String| -> String {
        let members: Vec<usize> = (0..64).rev().filter(|at| word >> at & 1 == 1).collect();
        members
            .iter()
            .map(|&at| blank.to_string() + &name(at))
            .collect()
    };
    let mut text = String::from("# typed\n");
    if !drawn.propositions.is_empty() {
        text += &format!(
            "propositions{blank}{}\r\n\n",
            drawn.propositions.join(blank)
        );
    }
    for (at, &(letter, initial, successors)) in drawn.states.iter().enumerate() {
        let name = drawn.names[at]
            .as_ref()
            .map_or(String::new(), |name| format!("{blank}{name}"));
        let initial = if initial {
            format!("{blank}initial")
        } else {
            String::new()
        };
        let (letter, successors) = (set(letter.into(), &proposition), set(successors, &state));
        text += &format!("{blank}state{name}{initial}:{letter}->{successors}# {at}: -> state\n");
    }
    text
}

proptest! {
    #[test]
    fn what_was_typed_is_what_is_read(drawn in drawn(), blank in "[ \t]{1,3}", numbered: bool) {
        let typed = typed(&drawn, &blank, numbered);
        let model = Model::from_text("typed", &typed).expect("a model");
        prop_assert_eq!(model.bytes(), &bytes(&drawn)[..]);
        for (at, name) in drawn.names.iter().enumerate() {
            prop_assert_eq!(model.names().state_name(at), name.as_deref());
        }
        prop_assert_eq!(model.names().given(), &drawn.propositions[..]);
        // There and back.
        let written = text(&model);
        let again = Model::from_text("written", &written).expect("a model");
        prop_assert_eq!(&again, &model);
        prop_assert_eq!(text(&again), written);
    }

    #[test]
    fn bytes_are_there_and_back(drawn in drawn()) {
        let model = Model::from_bytes("bytes", &bytes(&drawn)).expect("a model");
        let again = Model::from_text("written", &text(&model)).expect("a model");
        prop_assert_eq!(again.bytes(), model.bytes());
    }

    #[test]
    fn damaged_texts_are_read_or_refused(drawn in drawn(), at: prop::sample::Index, with in "[ :>#a0é\n-]{0,2}") {
        let typed = typed(&drawn, " ", false);
        let cut = at.index(typed.len());
        let damaged = format!("{}{with}{}", &typed[..cut], &typed[cut + 1..]);
        match Model::from_text("damaged", &damaged) {
            Ok(model) => prop_assert_eq!(Model::from_text("written", &text(&model)).expect("a model"), model),
            Err(trouble) => prop_assert!(!trouble.to_string().contains("gongcollar's own"), "{}", trouble),
        }
    }

    #[test]
    fn any_text_is_read_or_refused(text in "(state|propositions|initial|[ a-c0-2p:\n]|->){0,40}") {
        if let Err(trouble) = Model::from_text("any", &text) {
            prop_assert!(!trouble.to_string().contains("gongcollar's own"), "{}", trouble);
        }
    }
}
